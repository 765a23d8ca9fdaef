//! osmo-tetra's HURDLE-II and TAA1. It has no TA61, TA101 and TB1 to TB3.

/// `struct hurdle_ctx`: sixteen bytes for each round key.
#[repr(C)]
pub struct RoundKeys([u8; 256]);

// What these only read they still take as `*mut`.
extern "C" {
    fn hurdle_set_key(key: *mut u8, keys: *mut RoundKeys);
    fn HURDLE_encrypt(output: *mut u8, input: *const u8, keys: *mut RoundKeys, mode: u8);
}

const ENCRYPT: u8 = 0;
const DECRYPT: u8 = 1;

impl Default for RoundKeys {
    fn default() -> Self {
        RoundKeys([0; 256])
    }
}

impl RoundKeys {
    pub fn set(&mut self, key: &[u8; 16]) {
        // SAFETY: a key has 16 bytes.
        unsafe { hurdle_set_key(key.as_ptr() as *mut u8, self) };
    }

    pub fn encrypt(&mut self, block: &mut [u8; 8]) {
        self.run(block, ENCRYPT);
    }

    pub fn decrypt(&mut self, block: &mut [u8; 8]) {
        self.run(block, DECRYPT);
    }

    fn run(&mut self, block: &mut [u8; 8], mode: u8) {
        let block = block.as_mut_ptr();
        // SAFETY: a block has 8 bytes; all are read before any is written.
        unsafe { HURDLE_encrypt(block, block, self, mode) };
    }
}

pub fn encrypt(key: &[u8; 16], block: &[u8; 8]) -> [u8; 8] {
    let (mut keys, mut block) = (RoundKeys::default(), *block);
    keys.set(key);
    keys.encrypt(&mut block);
    block
}

pub fn decrypt(key: &[u8; 16], block: &[u8; 8]) -> [u8; 8] {
    let (mut keys, mut block) = (RoundKeys::default(), *block);
    keys.set(key);
    keys.decrypt(&mut block);
    block
}

/// Declares the functions of `taa1.h` with the lengths of what they read and
/// write, and wraps them. Numbers are big-endian; the program ends where one of
/// TA51 or TB5 is too wide.
macro_rules! functions {
    ($($name:ident($($input:ident: $length:literal),*) -> ($($output:ident: $size:literal),*);)*) => {
        mod raw {
            extern "C" {$(
                pub fn $name($($input: *mut u8,)* $($output: *mut u8),*);
            )*}
        }

        $(
            #[allow(unused_parens)] // around a single output
            pub fn $name($($input: &[u8; $length]),*) -> ($([u8; $size]),*) {
                $(let mut $output = [0; $size];)*
                // SAFETY: the lengths are right, and the inputs are only read.
                unsafe {
                    raw::$name($($input.as_ptr() as *mut u8,)* $($output.as_mut_ptr()),*);
                }
                ($($output),*)
            }
        )*
    };
}

functions! {
    ta11_ta41(root: 16, seed: 10) -> (session_key: 16);
    ta21(root: 16, seed: 10) -> (session_key: 16);
    ta12_ta22(session_key: 16, challenge: 10) -> (response: 4, key: 10);
    ta31(key: 10, version: 2, sealing_key: 10) -> (text: 15);
    ta32(text: 15, version: 2, sealing_key: 10) -> (key: 10, flag: 1);
    ta51(key: 10, version: 2, sealing_key: 16, number: 1) -> (text: 15);
    ta52(text: 15, sealing_key: 16, version: 2) -> (key: 10, flag: 1, number: 1);
    ta71(key1: 10, key2: 10) -> (key: 10);
    ta81(key: 10, version: 2, number: 2, sealing_key: 16) -> (text: 15);
    ta82(text: 15, version: 2, sealing_key: 16) -> (key: 10, flag: 1, number: 2);
    ta91(key: 12, version: 2, sealing_key: 16) -> (text: 15);
    ta92(text: 15, version: 2, sealing_key: 16) -> (key: 12, flag: 1);
    tb4(input1: 10, input2: 10) -> (output: 10);
    tb5(carrier: 2, location_area: 2, colour_code: 1, key: 10) -> (output: 10);
    tb6(key: 10, carrier: 2, identity: 3) -> (output: 10);
    tb7(key: 12) -> (output: 16);
}

/// The sealing key with which TA31 and TA32 give here what the engine's give
/// with `sealing_key`. EXP4 pairs neighbours there and the outermost bytes
/// here: (0, 9), (1, 8) and so on.
pub fn repaired(sealing_key: &[u8; 10], version: u16) -> [u8; 10] {
    let version = version.to_be_bytes();
    std::array::from_fn(|i| {
        let place = if i < 5 { 2 * i } else { 19 - 2 * i };
        sealing_key[place] ^ version[place % 2] ^ version[i % 2]
    })
}
