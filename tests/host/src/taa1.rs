//! The algorithms of TAA1, clause 5, and the ring recipe of document 01 as
//! document 02 widens it.
//!
//! Byte strings hold the leftmost byte first. Every call answers a struct
//! whose first field is the refusal number; on a refusal the rest is zero.

use crate::hurdle;
use std::array::from_fn;

/// Bytes of a ring.
pub const RING: usize = 52;

/// Answer of one byte string.
#[derive(Debug, Clone, Copy, PartialEq, Eq)]
pub struct Bytes<const N: usize> {
    pub refusal: u32,
    pub bytes: [u8; N],
}

pub type Bytes8 = Bytes<8>;
pub type Bytes10 = Bytes<10>;
pub type Bytes15 = Bytes<15>;
pub type Bytes16 = Bytes<16>;

/// Answer of TA12 and TA22.
#[derive(Debug, Clone, Copy, PartialEq, Eq)]
pub struct Authentication {
    pub refusal: u32,
    pub response: [u8; 4],
    pub key: [u8; 10],
}

/// Answer of TA61 and its inverse.
#[derive(Debug, Clone, Copy, PartialEq, Eq)]
pub struct Identity {
    pub refusal: u32,
    pub identity: u32,
}

/// Answer of an unsealing without a number.
#[derive(Debug, Clone, Copy, PartialEq, Eq)]
pub struct UnsealedKey<const N: usize> {
    pub refusal: u32,
    pub key: [u8; N],
    pub failed_checks: u16,
}

/// Answer of TA32.
pub type Unsealed = UnsealedKey<10>;
/// Answer of TA92.
pub type UnsealedGroup = UnsealedKey<12>;

/// Answer of TA52 and TA82.
#[derive(Debug, Clone, Copy, PartialEq, Eq)]
pub struct UnsealedNumbered {
    pub refusal: u32,
    pub key: [u8; 10],
    pub number: u16,
    pub failed_checks: u16,
}

/// Answer of the ring recipe.
#[derive(Debug, Clone, Copy, PartialEq, Eq)]
pub struct RingMade {
    pub refusal: u32,
    pub ring: [u8; RING],
    pub response1: [u8; 4],
    pub response2: [u8; 4],
}

/// What a call answers when it refuses.
pub(crate) trait Answer {
    fn refused(refusal: u32) -> Self;
}

impl<const N: usize> Answer for Bytes<N> {
    fn refused(refusal: u32) -> Self {
        let bytes = [0; N];
        Bytes { refusal, bytes }
    }
}

impl Answer for Authentication {
    fn refused(refusal: u32) -> Self {
        let (response, key) = ([0; 4], [0; 10]);
        Authentication {
            refusal,
            response,
            key,
        }
    }
}

impl Answer for Identity {
    fn refused(refusal: u32) -> Self {
        Identity {
            refusal,
            identity: 0,
        }
    }
}

impl<const N: usize> Answer for UnsealedKey<N> {
    fn refused(refusal: u32) -> Self {
        UnsealedKey {
            refusal,
            key: [0; N],
            failed_checks: 0,
        }
    }
}

impl Answer for UnsealedNumbered {
    fn refused(refusal: u32) -> Self {
        UnsealedNumbered {
            refusal,
            key: [0; 10],
            number: 0,
            failed_checks: 0,
        }
    }
}

impl Answer for RingMade {
    fn refused(refusal: u32) -> Self {
        RingMade {
            refusal,
            ring: [0; RING],
            response1: [0; 4],
            response2: [0; 4],
        }
    }
}

/// Runs a call that stops at its first refusal.
pub(crate) fn answer<A: Answer>(call: impl FnOnce() -> Result<A, u32>) -> A {
    call().unwrap_or_else(A::refused)
}

fn accepted<const N: usize>(bytes: [u8; N]) -> Result<Bytes<N>, u32> {
    Ok(Bytes { refusal: 0, bytes })
}

/// An input of fixed length, or refusal 11.
pub(crate) fn exact<const N: usize>(input: &[u8]) -> Result<[u8; N], u32> {
    input.try_into().map_err(|_| 11)
}

/// Refusals 7 and 8.
pub(crate) fn check_masks(response_mask: u16, key_mask: u16) -> Result<(), u32> {
    if response_mask.count_ones() != 4 || key_mask.count_ones() != 10 {
        Err(7)
    } else if response_mask & key_mask != 0 {
        Err(8)
    } else {
        Ok(())
    }
}

/// Refusal 13 (02, 1).
fn check_sides(sides: u64) -> Result<(), u32> {
    match sides {
        1..=3 => Ok(()),
        _ => Err(13),
    }
}

/// Refusal 9.
pub(crate) fn check_width(width: u64) -> Result<(), u32> {
    if (16..=32).contains(&width) {
        Ok(())
    } else {
        Err(9)
    }
}

/// Refusal 10.
fn check_field(value: u64, bits: u64) -> Result<(), u32> {
    if value >> bits == 0 {
        Ok(())
    } else {
        Err(10)
    }
}

/// Takes bytes by their numbers; the leftmost byte of `from` has number `top`.
fn pick<const N: usize>(from: &[u8], top: usize, numbers: [usize; N]) -> [u8; N] {
    numbers.map(|j| from[top - j])
}

/// Bit i of a byte string, bit 0 rightmost (5.1).
fn bit(string: &[u8], i: usize) -> u64 {
    u64::from(string[string.len() - 1 - i / 8] >> (i % 8) & 1)
}

/// Makes a byte string from its bits, taken modulo two.
fn from_bits<const N: usize>(bit: impl Fn(usize) -> u64) -> [u8; N] {
    let mut string = [0; N];
    for i in 0..8 * N {
        string[N - 1 - i / 8] |= ((bit(i) % 2) as u8) << (i % 8);
    }
    string
}

fn xor<const N: usize>(a: &[u8; N], b: &[u8; N]) -> [u8; N] {
    from_fn(|i| a[i] ^ b[i])
}

/// The left and the right block of a double block.
fn halves(data: &[u8; 16]) -> ([u8; 8], [u8; 8]) {
    (from_fn(|i| data[i]), from_fn(|i| data[8 + i]))
}

/// BL1 (5.2).
pub fn bl1(key: &[u8; 16], data: &[u8; 16]) -> [u8; 16] {
    bl1_with(&hurdle::schedule(key), data)
}

/// BL1, with round keys made before.
pub(crate) fn bl1_with(schedule: &hurdle::Schedule, data: &[u8; 16]) -> [u8; 16] {
    let (left, right) = halves(data);
    let left = hurdle::encrypt_with(schedule, &left);
    let right = hurdle::encrypt_with(schedule, &xor(&right, &left));
    from_fn(|i| if i < 8 { left[i] } else { right[i - 8] })
}

/// BL2 (5.3 and 4.3.2), without the last byte.
pub fn bl2(key: &[u8; 16], data: &[u8; 16]) -> [u8; 15] {
    let schedule = hurdle::schedule(key);
    let (left, right) = halves(data);
    let right = hurdle::decrypt_with(&schedule, &right);
    let mut whole = left;
    whole[7] ^= right[7];
    let first = hurdle::decrypt_with(&schedule, &whole);
    let second = xor(&right, &left);
    from_fn(|i| if i < 8 { first[i] } else { second[i - 8] })
}

/// EXP1 (5.4.1).
#[rustfmt::skip]
pub fn exp1(block: &[u8; 10]) -> [u8; 15] {
    let [b9, b8, b7, b6, b5, b4, b3, b2, b1, b0] = *block;
    [b9, b8, b9 ^ b8, b7, b6, b7 ^ b6, b5, b4, b5 ^ b4, b3, b2, b3 ^ b2, b1, b0, b1 ^ b0]
}

/// EXP2 (5.4.2).
pub fn exp2(block: &[u8; 10]) -> [u8; 16] {
    let e = exp1(block);
    let sum: u32 = [2, 5, 8, 11, 14].iter().map(|&i| u32::from(e[i])).sum();
    from_fn(|i| if i < 15 { e[i] } else { (sum % 256) as u8 })
}

/// EXP3 (5.4.3).
#[rustfmt::skip]
pub fn exp3(block: &[u8; 11]) -> [u8; 15] {
    let [b10, b9, b8, b7, b6, b5, b4, b3, b2, b1, b0] = *block;
    [b10, b9, b10 ^ b9, b8, b7, b6, b8 ^ b7 ^ b6, b5, b4, b3, b5 ^ b4 ^ b3, b2, b1, b0, b2 ^ b1 ^ b0]
}

/// EXP4 (5.4.4).
pub fn exp4(block: &[u8; 10]) -> [u8; 16] {
    let mut out = [0; 16];
    for pair in 0..5 {
        let (x, y) = (block[2 * pair], block[2 * pair + 1]);
        let sum = ((u32::from(x) + u32::from(y)) % 256) as u8;
        out[0] ^= sum;
        out[3 * pair + 1..][..3].copy_from_slice(&[sum, x, y]);
    }
    out
}

/// The expansion of Figures 16 and 19 (5.14.1, 5.16.1).
#[rustfmt::skip]
pub fn x16(block: &[u8; 12]) -> [u8; 16] {
    let [b11, b10, b9, b8, b7, b6, b5, b4, b3, b2, b1, b0] = *block;
    let (a, c, d) = (b11 ^ b10 ^ b9 ^ b8, b7 ^ b6 ^ b5 ^ b4, b3 ^ b2 ^ b1 ^ b0);
    [b11, b10, b9, b8, a, b7, b6, b5, b4, c, b3, b2, b1, b0, d, 0]
}

/// HURDLE-II encryption (6.2).
pub fn encrypt(key: &[u8], block: &[u8]) -> Bytes8 {
    answer(|| accepted(hurdle::encrypt(&exact(key)?, &exact(block)?)))
}

/// HURDLE-II decryption (6.3).
pub fn decrypt(key: &[u8], block: &[u8]) -> Bytes8 {
    answer(|| accepted(hurdle::decrypt(&exact(key)?, &exact(block)?)))
}

/// HURDLE-II encryption with one register (02, 7).
pub fn encrypt_register(key: &[u8], block: &[u8]) -> Bytes8 {
    answer(|| accepted(hurdle::encrypt_register(&exact(key)?, &exact(block)?)))
}

/// HURDLE-II decryption with one register (02, 7).
pub fn decrypt_register(key: &[u8], block: &[u8]) -> Bytes8 {
    answer(|| accepted(hurdle::decrypt_register(&exact(key)?, &exact(block)?)))
}

/// The register itself (02, 7).
pub fn register(key: &[u8], steps: u64) -> Bytes16 {
    answer(|| accepted(hurdle::register(&exact(key)?, steps)))
}

/// TA11 (5.6.1).
pub fn ta11(root: &[u8], seed: &[u8]) -> Bytes16 {
    answer(|| accepted(bl1(&exact(root)?, &exp2(&exact(seed)?))))
}

/// TA21 (5.6.2).
pub fn ta21(root: &[u8], seed: &[u8]) -> Bytes16 {
    let reversed: Vec<u8> = seed.iter().rev().copied().collect();
    ta11(root, &reversed)
}

/// TA41 (5.6.1).
pub fn ta41(root: &[u8], seed: &[u8]) -> Bytes16 {
    ta11(root, seed)
}

/// The bytes that a counted mask chooses, higher numbers first.
pub(crate) fn chosen<const N: usize>(block: &[u8; 16], mask: u16) -> [u8; N] {
    let numbers: Vec<usize> = (0..16).rev().filter(|i| mask >> i & 1 == 1).collect();
    from_fn(|n| block[15 - numbers[n]])
}

/// TA12 (5.7); the masks stand for the lost figures of 5.7.2 and 5.7.3.
pub fn ta12(
    session_key: &[u8],
    challenge: &[u8],
    response_mask: u16,
    key_mask: u16,
) -> Authentication {
    answer(|| {
        let (session_key, challenge) = (exact(session_key)?, exact(challenge)?);
        check_masks(response_mask, key_mask)?;
        let out = bl1(&session_key, &exp2(&challenge));
        let (response, key) = (chosen(&out, response_mask), chosen(&out, key_mask));
        Ok(Authentication {
            refusal: 0,
            response,
            key,
        })
    })
}

/// TA22 (5.7).
pub fn ta22(
    session_key: &[u8],
    challenge: &[u8],
    response_mask: u16,
    key_mask: u16,
) -> Authentication {
    ta12(session_key, challenge, response_mask, key_mask)
}

/// C xor B of 5.8.2 and 5.10.2: the version repeated over the key.
fn under_version<const N: usize>(key: &[u8; N], version: u16) -> [u8; N] {
    let a = version.to_be_bytes();
    from_fn(|i| key[i] ^ a[i % 2])
}

/// A zero byte put at the right.
fn zero_appended(string: &[u8; 15]) -> [u8; 16] {
    from_fn(|i| if i < 15 { string[i] } else { 0 })
}

/// BL1, then byte 8 left out (5.8.3).
fn seal(key: &[u8; 16], data: &[u8; 16]) -> [u8; 15] {
    pick(
        &bl1(key, data),
        15,
        [15, 14, 13, 12, 11, 10, 9, 7, 6, 5, 4, 3, 2, 1, 0],
    )
}

/// A zero byte put back as byte 8 (5.9.1), then BL2.
fn unseal(key: &[u8; 16], text: &[u8; 15]) -> [u8; 15] {
    let data = from_fn(|i| match i {
        0..=6 => text[i],
        7 => 0,
        _ => text[i - 1],
    });
    bl2(key, &data)
}

/// One bit for each check, the leftmost inserted byte's lowest, set where it fails
/// (02, 6).
fn failed<const N: usize>(checks: [bool; N]) -> u16 {
    (0..N).map(|i| u16::from(checks[i]) << i).sum()
}

/// TA31 (5.8).
pub fn ta31(cipher_key: &[u8], version: u16, sealing_key: &[u8]) -> Bytes15 {
    answer(|| {
        let (cipher_key, sealing_key) = (exact(cipher_key)?, exact(sealing_key)?);
        let key = exp4(&under_version(&sealing_key, version));
        accepted(seal(&key, &zero_appended(&exp1(&cipher_key))))
    })
}

/// TA32 (5.9).
pub fn ta32(text: &[u8], sealing_key: &[u8], version: u16) -> Unsealed {
    answer(|| {
        let (text, sealing_key) = (exact(text)?, exact(sealing_key)?);
        let out = unseal(&exp4(&under_version(&sealing_key, version)), &text);
        let b = |j: usize| out[14 - j];
        let failed_checks = failed([12, 9, 6, 3, 0].map(|i| b(i) != b(i + 1) ^ b(i + 2)));
        let key = pick(&out, 14, [14, 13, 11, 10, 8, 7, 5, 4, 2, 1]); // SHR1 (5.5.1)
        Ok(Unsealed {
            refusal: 0,
            key,
            failed_checks,
        })
    })
}

/// TA51 (5.10).
pub fn ta51(cipher_key: &[u8], version: u16, sealing_key: &[u8], number: u16) -> Bytes15 {
    answer(|| {
        let (cipher_key, sealing_key) = (exact::<10>(cipher_key)?, exact(sealing_key)?);
        if number > 31 {
            return Err(5);
        }
        let data = from_fn(|i| if i < 10 { cipher_key[i] } else { number as u8 });
        accepted(seal(
            &under_version(&sealing_key, version),
            &zero_appended(&exp3(&data)),
        ))
    })
}

/// TA52 (5.11).
pub fn ta52(text: &[u8], sealing_key: &[u8], version: u16) -> UnsealedNumbered {
    answer(|| {
        let (text, sealing_key) = (exact(text)?, exact(sealing_key)?);
        let out = unseal(&under_version(&sealing_key, version), &text);
        let b = |j: usize| out[14 - j];
        let failed_checks = failed([
            b(12) != b(13) ^ b(14),
            b(8) != b(9) ^ b(10) ^ b(11),
            b(4) != b(5) ^ b(6) ^ b(7),
            b(0) != b(1) ^ b(2) ^ b(3),
            b(1) >> 5 != 0,
        ]);
        let key = pick(&out, 14, [14, 13, 11, 10, 9, 7, 6, 5, 3, 2]); // SHR2 (5.5.2)
        let number = u16::from(b(1) & 31);
        Ok(UnsealedNumbered {
            refusal: 0,
            key,
            number,
            failed_checks,
        })
    })
}

/// TA81 (5.14).
pub fn ta81(cipher_key: &[u8], version: u16, sealing_key: &[u8], number: u16) -> Bytes15 {
    answer(|| {
        let (cipher_key, sealing_key) = (exact::<10>(cipher_key)?, exact(sealing_key)?);
        let number = number.to_be_bytes();
        let data = from_fn(|i| {
            if i < 10 {
                cipher_key[i]
            } else {
                number[i - 10]
            }
        });
        accepted(seal(&under_version(&sealing_key, version), &x16(&data)))
    })
}

/// TA82 (5.15).
pub fn ta82(text: &[u8], sealing_key: &[u8], version: u16) -> UnsealedNumbered {
    answer(|| {
        let (text, sealing_key) = (exact(text)?, exact(sealing_key)?);
        let out = unseal(&under_version(&sealing_key, version), &text);
        let key = pick(&out, 15, [15, 14, 13, 12, 10, 9, 8, 7, 5, 4]);
        let number = u16::from_be_bytes(pick(&out, 15, [3, 2]));
        Ok(UnsealedNumbered {
            refusal: 0,
            key,
            number,
            failed_checks: manipulated(&out),
        })
    })
}

/// The checks of TA82 and TA92 (5.15.3, 5.17.3).
fn manipulated(out: &[u8; 15]) -> u16 {
    let b = |j: usize| out[15 - j];
    failed([11, 6, 1].map(|i| b(i) != b(4 + i) ^ b(3 + i) ^ b(2 + i) ^ b(1 + i)))
}

/// TA91 (5.16).
pub fn ta91(group_key: &[u8], version: u16, sealing_key: &[u8]) -> Bytes15 {
    answer(|| {
        let (group_key, sealing_key) = (exact(group_key)?, exact(sealing_key)?);
        accepted(seal(
            &under_version(&sealing_key, version),
            &x16(&group_key),
        ))
    })
}

/// TA92 (5.17).
pub fn ta92(text: &[u8], sealing_key: &[u8], version: u16) -> UnsealedGroup {
    answer(|| {
        let (text, sealing_key) = (exact(text)?, exact(sealing_key)?);
        let out = unseal(&under_version(&sealing_key, version), &text);
        let key = pick(&out, 15, [15, 14, 13, 12, 10, 9, 8, 7, 5, 4, 3, 2]);
        Ok(UnsealedGroup {
            refusal: 0,
            key,
            failed_checks: manipulated(&out),
        })
    })
}

/// The sums inside P (5.12.4): one row for each output, columns a2 a1 a0.
const P_SUMS: [[i32; 3]; 3] = [[2, 2, -1], [2, -1, 2], [-1, 2, 2]];

/// P (5.12.4).
pub fn p(a: [u8; 3]) -> [u8; 3] {
    P_SUMS.map(|row| {
        let sum: i32 = (0..3).map(|c| row[c] * i32::from(a[c])).sum();
        hurdle::S[sum.rem_euclid(256) as usize]
    })
}

/// P turned around: S undone, then the three sums solved modulo 256.
pub fn p_inverse(y: [u8; 3]) -> [u8; 3] {
    let inverse_s = hurdle::inverse_s();
    solve(y.map(|y| inverse_s[y as usize]))
}

/// Gauss and Jordan's elimination on P_SUMS modulo 256. The determinant,
/// -27, is odd, so each column has an odd pivot, and odd bytes have inverses.
fn solve(sums: [u8; 3]) -> [u8; 3] {
    let mut rows: [[u8; 4]; 3] =
        from_fn(|r| from_fn(|c| if c < 3 { P_SUMS[r][c] as u8 } else { sums[r] }));
    for c in 0..3 {
        let odd = (c..3).find(|&r| rows[r][c] % 2 == 1).expect("an odd pivot");
        rows.swap(c, odd);
        let inverse = rows[c][c].wrapping_pow(63); // the 64th power of an odd byte is 1
        rows[c] = rows[c].map(|x| x.wrapping_mul(inverse));
        let pivot = rows[c];
        for r in (0..3).filter(|&r| r != c) {
            let times = rows[r][c];
            rows[r] = from_fn(|i| rows[r][i].wrapping_sub(times.wrapping_mul(pivot[i])));
        }
    }
    rows.map(|row| row[3])
}

/// K1, K2 and K3 (5.12.1 to 5.12.3).
pub(crate) struct KStrings([[u8; 3]; 3]);

pub(crate) fn k_strings(a: &[u8; 10]) -> KStrings {
    let data = from_fn(|i| a[i] ^ a[i + 2]);
    let b = hurdle::encrypt(&exp4(a), &data);
    KStrings([[7, 4, 1], [6, 3, 0], [5, 2, 7]].map(|numbers| pick(&b, 7, numbers)))
}

fn three_bytes(identity: u64) -> [u8; 3] {
    pick(&identity.to_be_bytes(), 7, [2, 1, 0])
}

fn identity_of([b2, b1, b0]: [u8; 3]) -> u32 {
    u32::from_be_bytes([0, b2, b1, b0])
}

impl KStrings {
    /// TA61 of an identity of 24 bits.
    pub(crate) fn hide(&self, identity: u64) -> u32 {
        let KStrings([k1, k2, k3]) = self;
        let step1 = p(xor(&three_bytes(identity), k1));
        let step2 = p(xor(&step1, k2));
        identity_of(xor(&step2, k3))
    }

    /// TA61 backwards.
    pub(crate) fn show(&self, hidden: u64) -> u32 {
        let KStrings([k1, k2, k3]) = self;
        let step2 = p_inverse(xor(&three_bytes(hidden), k3));
        let step1 = p_inverse(xor(&step2, k2));
        identity_of(xor(&step1, k1))
    }
}

/// TA61 (5.12).
pub fn ta61(common_key: &[u8], identity: u64) -> Identity {
    answer(|| {
        let common_key = exact(common_key)?;
        check_field(identity, 24)?;
        Ok(Identity {
            refusal: 0,
            identity: k_strings(&common_key).hide(identity),
        })
    })
}

/// TA61 backwards.
pub fn ta61_inverse(common_key: &[u8], encrypted_identity: u64) -> Identity {
    answer(|| {
        let common_key = exact(common_key)?;
        check_field(encrypted_identity, 24)?;
        Ok(Identity {
            refusal: 0,
            identity: k_strings(&common_key).show(encrypted_identity),
        })
    })
}

/// TA71 (5.13).
pub fn ta71(key1: &[u8], key2: &[u8]) -> Bytes10 {
    answer(|| {
        let (a, b) = (exact::<10>(key1)?, exact::<10>(key2)?);
        // A at the left and B at the right overlap in four bytes.
        let key = from_fn(|i| (if i < 10 { a[i] } else { 0 }) ^ (if i < 6 { 0 } else { b[i - 6] }));
        let out = bl1(&key, &exp2(&xor(&a, &b)));
        accepted(from_fn(|i| out[3 + i])) // SHR3 (5.5.3)
    })
}

/// TA101 (5.18).
pub fn ta101(ks: &[u8], gck0: &[u8], mni: u64) -> Bytes16 {
    answer(|| {
        let (ks, gck0) = (exact(ks)?, exact::<10>(gck0)?);
        check_field(mni, 24)?;
        let mni = |i: usize| mni >> i & 1;
        let int = from_bits(|l| {
            bit(&gck0, l)
                + match l {
                    56..=79 => mni(l - 56),
                    32..=55 => mni(l - 32),
                    8..=31 => mni(l - 8),
                    _ => 0,
                }
        });
        accepted(bl1(&ks, &exp2(&int)))
    })
}

/// Bit l of the value repeated from the left over 128 bits (5.19, 5.21).
fn repeated(value: u64, width: u64, l: usize) -> u64 {
    let from_left = (127 - l as u64) % width;
    value >> (width - 1 - from_left) & 1
}

/// TB1 (5.19).
pub fn tb1(value: u64, width: u64) -> Bytes16 {
    answer(|| {
        check_width(width)?;
        check_field(value, width)?;
        accepted(from_bits(|l| repeated(value, width, l)))
    })
}

/// TB2 (5.20).
pub fn tb2(input: &[u8]) -> Bytes16 {
    answer(|| accepted(exact(input)?))
}

/// TB3 (5.21).
pub fn tb3(input: &[u8], value: u64, width: u64) -> Bytes16 {
    answer(|| {
        let input = exact::<16>(input)?;
        check_width(width)?;
        check_field(value, width)?;
        accepted(from_bits(|l| bit(&input, l) + repeated(value, width, l)))
    })
}

/// TB4 (5.22).
pub fn tb4(input1: &[u8], input2: &[u8]) -> Bytes10 {
    answer(|| accepted(xor(&exact(input1)?, &exact(input2)?)))
}

/// TB5 (5.23).
pub fn tb5(cipher_key: &[u8], location_area: u64, carrier: u64, colour_code: u64) -> Bytes10 {
    answer(|| {
        let ck = exact::<10>(cipher_key)?;
        check_field(location_area, 14)?;
        check_field(carrier, 12)?;
        check_field(colour_code, 6)?;
        let la = |i: usize| location_area >> i & 1;
        let cn = |i: usize| carrier >> i & 1;
        let cc = |i: usize| colour_code >> i & 1;
        accepted(from_bits(|l| {
            bit(&ck, l)
                + match l {
                    0..=11 => cn(l),
                    12..=17 => cc(l - 12),
                    18..=29 => cn(l - 18),
                    30..=35 => cc(l - 30),
                    36..=47 => cn(l - 36),
                    48..=53 => cc(l - 48),
                    54..=65 => cn(l - 54),
                    _ => la(l - 66),
                }
        }))
    })
}

/// TB6 (5.24).
pub fn tb6(cipher_key: &[u8], carrier: u64, identity: u64) -> Bytes10 {
    answer(|| {
        let ck = exact::<10>(cipher_key)?;
        check_field(carrier, 12)?;
        check_field(identity, 24)?;
        let cn = |i: usize| carrier >> i & 1;
        let ssi = |i: usize| identity >> i & 1;
        accepted(from_bits(|l| {
            bit(&ck, l)
                + match l {
                    68..=79 => cn(l - 68),
                    44..=67 => ssi(l - 44),
                    32..=43 => cn(l - 32),
                    8..=31 => ssi(l - 8),
                    _ => ssi(l),
                }
        }))
    })
}

/// TB7 (the last of clause 5).
#[rustfmt::skip]
pub fn tb7(group_key: &[u8]) -> Bytes16 {
    answer(|| {
        let [b11, b10, b9, b8, b7, b6, b5, b4, b3, b2, b1, b0] = exact(group_key)?;
        let (a, c, d, e) = (b11 ^ b10 ^ b9, b8 ^ b7 ^ b6, b5 ^ b4 ^ b3, b2 ^ b1 ^ b0);
        accepted([b11, b10, b9, a, b8, b7, b6, c, b5, b4, b3, d, b2, b1, b0, e])
    })
}

/// What a side that does not run gives to the ring (02, 1).
const IDLE: Authentication = Authentication {
    refusal: 0,
    response: [0; 4],
    key: [0; 10],
};

/// The ring recipe of documents 01 and 02, 1 and 4: D, O, C and G in a row. TA12
/// runs unless `sides` is 2, and TA22 unless it is 1.
#[allow(clippy::too_many_arguments)]
pub fn ring(
    root: &[u8],
    rs: &[u8],
    rso: &[u8],
    rand1: &[u8],
    rand2: &[u8],
    c: &[u8],
    group_key: &[u8],
    sides: u64,
    response_mask: u16,
    key_mask: u16,
) -> RingMade {
    answer(|| {
        exact::<16>(root)?;
        for input in [rs, rso, rand1, rand2, c] {
            exact::<10>(input)?;
        }
        exact::<12>(group_key)?;
        check_sides(sides)?;
        check_masks(response_mask, key_mask)?;
        let first = match sides {
            2 => IDLE,
            _ => ta12(&ta11(root, rs).bytes, rand1, response_mask, key_mask),
        };
        let second = match sides {
            1 => IDLE,
            _ => ta22(&ta21(root, rs).bytes, rand2, response_mask, key_mask),
        };
        let d = tb4(&first.key, &second.key).bytes;
        let o = ta41(root, rso).bytes;
        let g = tb7(group_key).bytes;
        Ok(RingMade {
            refusal: 0,
            ring: exact(&[&d[..], &o, c, &g].concat())?,
            response1: first.response,
            response2: second.response,
        })
    })
}

#[cfg(test)]
mod tests {
    use super::*;
    use crate::random::Random;

    /// 01 02 and so on upward.
    fn upward<const N: usize>() -> [u8; N] {
        from_fn(|i| i as u8 + 1)
    }

    fn hex(text: &str) -> Vec<u8> {
        let byte = |b| u8::from_str_radix(b, 16).unwrap();
        text.split_whitespace().map(byte).collect()
    }

    // Cases a to k of document 01; g and j are in hurdle.rs.

    #[test]
    fn cases_a_to_f() {
        let a = hex("01 02 03 03 04 07 05 06 03 07 08 0f 09 0a 03");
        assert_eq!(exp1(&upward())[..], a);
        assert_eq!(exp2(&upward())[..15], a);
        assert_eq!(exp2(&upward())[15], 0x1f);
        let c = hex("13 03 01 02 07 03 04 0b 05 06 0f 07 08 13 09 0a");
        assert_eq!(exp4(&upward())[..], c);
        let d = hex("01 02 03 03 04 05 02 06 07 08 09 09 0a 0b 08");
        assert_eq!(exp3(&upward())[..], d);
        let e = hex("01 02 03 04 04 05 06 07 08 0c 09 0a 0b 0c 04 00");
        assert_eq!(x16(&upward())[..], e);
        let f = hex("01 02 03 00 04 05 06 07 07 08 09 06 0a 0b 0c 0d");
        assert_eq!(tb7(&upward::<12>()).bytes[..], f);
    }

    #[test]
    fn cases_h_and_i() {
        assert_eq!(p([0, 0, 0]), [0xf4, 0xf4, 0xf4]);
        assert_eq!(p([1, 0, 0]), [0x01, 0x01, 0x7f]);
        assert_eq!(p([0, 1, 0]), [0x01, 0x7f, 0x01]);
        assert_eq!(p([0, 0, 1]), [0x7f, 0x01, 0x01]);
    }

    #[test]
    fn case_k() {
        let k = hex("00 00 00 01 00 00 40 00 10 00");
        assert_eq!(tb5(&[0; 10], 0, 0, 1).bytes[..], k);
    }

    /// Byte sums wrap.
    #[test]
    fn sums_wrap() {
        assert_eq!(exp2(&[0xf0, 0x0f, 0xf0, 0, 0, 0, 0, 0, 0, 0])[15], 0xef);
        assert_eq!(
            exp4(&[0xff, 0x03, 0, 0, 0, 0, 0, 0, 0, 0])[..4],
            [2, 2, 0xff, 3]
        );
    }

    /// In steps over all 2^24 places, both ways, and along each byte.
    #[test]
    fn p_is_undone() {
        for x in (0..1 << 24).step_by(61) {
            let a = three_bytes(x);
            assert_eq!(p_inverse(p(a)), a);
            assert_eq!(p(p_inverse(a)), a);
        }
        for i in 0..256 {
            for a in [[i as u8, 0, 0], [0, i as u8, 0], [0, 0, i as u8]] {
                assert_eq!(p_inverse(p(a)), a);
            }
        }
    }

    /// All 2^24 places; takes a while without optimisation.
    #[test]
    fn p_is_undone_everywhere() {
        for x in 0..1 << 24 {
            let a = three_bytes(x);
            assert_eq!(p_inverse(p(a)), a);
        }
    }

    #[test]
    fn identities_come_back() {
        let mut random = Random::new(3);
        for _ in 0..2000 {
            let key = random.bytes::<10>();
            let identity = random.number() >> 40;
            let hidden = ta61(&key, identity);
            assert_eq!(hidden.refusal, 0);
            let back = ta61_inverse(&key, hidden.identity.into());
            assert_eq!(
                back,
                Identity {
                    refusal: 0,
                    identity: identity as u32
                }
            );
        }
        let refused = Identity {
            refusal: 10,
            identity: 0,
        };
        assert_eq!(ta61(&[0; 10], 1 << 24), refused);
        assert_eq!(ta61_inverse(&[0; 10], u64::MAX), refused);
        assert_eq!(ta61(&[0; 9], 1 << 24).refusal, 11);
    }

    #[test]
    fn seals_open() {
        let mut random = Random::new(4);
        for _ in 0..500 {
            let (key, d, o) = (random.bytes(), random.bytes::<10>(), random.bytes::<16>());
            let (version, wide) = (random.number() as u16, random.number() as u16);
            let text = ta31(&key, version, &d).bytes;
            assert_eq!(
                ta32(&text, &d, version),
                Unsealed {
                    refusal: 0,
                    key,
                    failed_checks: 0
                }
            );
            let number = wide % 32;
            let text = ta51(&key, version, &o, number).bytes;
            let opened = UnsealedNumbered {
                refusal: 0,
                key,
                number,
                failed_checks: 0,
            };
            assert_eq!(ta52(&text, &o, version), opened);
            let text = ta81(&key, version, &o, wide).bytes;
            let opened = UnsealedNumbered {
                refusal: 0,
                key,
                number: wide,
                failed_checks: 0,
            };
            assert_eq!(ta82(&text, &o, version), opened);
            let group = random.bytes();
            let text = ta91(&group, version, &o).bytes;
            let opened = UnsealedGroup {
                refusal: 0,
                key: group,
                failed_checks: 0,
            };
            assert_eq!(ta92(&text, &o, version), opened);
        }
    }

    /// Changed texts and other versions are noticed; a miss is too rare to
    /// happen with these fixed seeds.
    #[test]
    fn changes_fail_checks() {
        let mut random = Random::new(5);
        for _ in 0..200 {
            let (key, d, o) = (
                random.bytes::<10>(),
                random.bytes::<10>(),
                random.bytes::<16>(),
            );
            let group = random.bytes::<12>();
            let version = random.number() as u16;
            let mut texts = [
                ta31(&key, version, &d).bytes,
                ta51(&key, version, &o, 31).bytes,
                ta81(&key, version, &o, 31).bytes,
                ta91(&group, version, &o).bytes,
            ];
            assert_ne!(ta32(&texts[0], &d, version ^ 1).failed_checks, 0);
            assert_ne!(ta52(&texts[1], &o, version ^ 256).failed_checks, 0);
            assert_ne!(ta82(&texts[2], &o, !version).failed_checks, 0);
            assert_ne!(
                ta92(&texts[3], &o, version.wrapping_add(1)).failed_checks,
                0
            );
            let (place, change) = (random.number() as usize % 15, random.number() as u8 | 1);
            texts.iter_mut().for_each(|text| text[place] ^= change);
            assert_ne!(ta32(&texts[0], &d, version).failed_checks, 0);
            assert_ne!(ta52(&texts[1], &o, version).failed_checks, 0);
            assert_ne!(ta82(&texts[2], &o, version).failed_checks, 0);
            assert_ne!(ta92(&texts[3], &o, version).failed_checks, 0);
        }
    }

    /// A kind 2 text whose number byte is above 31 but whose xor bytes are right.
    #[test]
    fn three_zero_bits_count() {
        let (sealing_key, version) = (upward::<16>(), 0x1234);
        for number in 0..=255u8 {
            let mut data = upward::<11>();
            data[10] = number;
            let key = under_version(&sealing_key, version);
            let text = seal(&key, &zero_appended(&exp3(&data)));
            let opened = ta52(&text, &sealing_key, version);
            assert_eq!(opened.refusal, 0);
            assert_eq!(opened.key, upward());
            assert_eq!(opened.number, u16::from(number % 32));
            assert_eq!(opened.failed_checks, u16::from(number > 31) << 4);
        }
    }

    /// One inserted byte after the other is wrong.
    #[test]
    fn checks_have_their_bits() {
        let (d, o, version) = (upward::<10>(), upward::<16>(), 0x1234);
        let (short, long) = (
            exp4(&under_version(&d, version)),
            under_version(&o, version),
        );
        let wrong = |key, mut bytes: [u8; 16], at: usize| {
            bytes[at] ^= 0x40;
            seal(key, &bytes)
        };
        for (bit, at) in [2, 5, 8, 11, 14].into_iter().enumerate() {
            let text = wrong(&short, zero_appended(&exp1(&upward())), at);
            assert_eq!(ta32(&text, &d, version).failed_checks, 1 << bit);
        }
        for (bit, at) in [2, 6, 10, 14].into_iter().enumerate() {
            let text = wrong(&long, zero_appended(&exp3(&upward())), at);
            assert_eq!(ta52(&text, &o, version).failed_checks, 1 << bit);
        }
        for (bit, at) in [4, 9, 14].into_iter().enumerate() {
            let text = wrong(&long, x16(&upward()), at);
            assert_eq!(ta82(&text, &o, version).failed_checks, 1 << bit);
            assert_eq!(ta92(&text, &o, version).failed_checks, 1 << bit);
        }
        // The number byte is in the last inserted byte's check, too.
        let text = wrong(&long, zero_appended(&exp3(&upward())), 13);
        assert_eq!(ta52(&text, &o, version).failed_checks, 0b11000);
    }

    #[test]
    fn numbers_and_widths_at_their_edges() {
        let (key, o) = ([1; 10], [2; 16]);
        assert_eq!(ta51(&key, 0, &o, 31).refusal, 0);
        assert_eq!(
            ta51(&key, 0, &o, 32),
            Bytes {
                refusal: 5,
                bytes: [0; 15]
            }
        );
        assert_eq!(ta51(&key, 0, &o[1..], 32).refusal, 11);
        for (width, refusal) in [(0, 9), (15, 9), (16, 0), (32, 0), (33, 9), (u64::MAX, 9)] {
            assert_eq!(tb1(1, width).refusal, refusal);
            assert_eq!(tb3(&o, 1, width).refusal, refusal);
            assert_eq!(tb3(&o[1..], 1, width).refusal, 11);
        }
        assert_eq!(tb1(1 << 16, 15).refusal, 9);
        assert_eq!(tb1(1 << 16, 16).refusal, 10);
        assert_eq!(tb1(u64::MAX, 32).refusal, 10);
        assert_eq!(tb1(0xffff_ffff, 32).bytes, [0xff; 16]);
    }

    #[test]
    fn tb1_repeats_and_cuts_at_the_right() {
        assert_eq!(tb1(0x1234, 16).bytes[..4], [0x12, 0x34, 0x12, 0x34]);
        assert_eq!(tb1(0x123456, 24).bytes[12..], [0x12, 0x34, 0x56, 0x12]);
        assert_eq!(tb1(0x12345678, 32).bytes[12..], [0x12, 0x34, 0x56, 0x78]);
        assert_eq!(tb1(0xabcde, 20).bytes[..5], [0xab, 0xcd, 0xea, 0xbc, 0xde]);
        let input = upward::<16>();
        let xored = xor(&input, &tb1(0x1_2345, 17).bytes);
        assert_eq!(tb3(&input, 0x1_2345, 17).bytes, xored);
    }

    #[test]
    fn fields_at_their_edges() {
        let ck = [0; 10];
        assert_eq!(tb5(&ck, 0x3fff, 0xfff, 0x3f).bytes, [0xff; 10]);
        for (la, cn, cc) in [(1 << 14, 0, 0), (0, 1 << 12, 0), (0, 0, 1 << 6)] {
            assert_eq!(
                tb5(&ck, la, cn, cc),
                Bytes {
                    refusal: 10,
                    bytes: [0; 10]
                }
            );
        }
        let tb6_out = hex("ab c1 23 45 6a bc 12 34 56 56");
        assert_eq!(tb6(&ck, 0xabc, 0x123456).bytes[..], tb6_out);
        assert_eq!(tb6(&ck, 1 << 12, 0).refusal, 10);
        assert_eq!(tb6(&ck, 0, 1 << 24).refusal, 10);
        assert_eq!(tb6(&[0; 11], 0, 1 << 24).refusal, 11);
        let gck0 = hex("12 34 56 12 34 56 12 34 56 07");
        let int = hex("00 00 00 00 00 00 00 00 00 07");
        assert_eq!(ta101(&[9; 16], &gck0, 0x123456), ta11(&[9; 16], &int));
        assert_eq!(ta101(&[9; 16], &gck0, 1 << 24).refusal, 10);
    }

    #[test]
    fn masks_choose_and_refuse() {
        let (key, challenge) = (upward::<16>(), upward::<10>());
        let out = ta11(&key, &challenge).bytes;
        let split = ta12(&key, &challenge, 0x8005 | 0x0100, 0x7c3e & !4 | 0x0040);
        assert_eq!(split.refusal, 0);
        assert_eq!(split.response, pick(&out, 15, [15, 8, 2, 0]));
        assert_eq!(
            split.key,
            pick(&out, 15, [14, 13, 12, 11, 10, 6, 5, 4, 3, 1])
        );
        assert_eq!(
            ta22(&key, &challenge, 0xf000, 0x03ff).response,
            pick(&out, 15, [15, 14, 13, 12])
        );
        assert_eq!(
            ta12(&key, &challenge, 0xf000, 0x07ff),
            Authentication::refused(7)
        );
        assert_eq!(ta12(&key, &challenge, 0xe000, 0xffc0).refusal, 7);
        assert_eq!(ta12(&key, &challenge, 0xf000, 0xffc0).refusal, 8);
        assert_eq!(ta12(&key[1..], &challenge, 0, 0).refusal, 11);
    }

    #[test]
    fn ring_is_made() {
        let mut random = Random::new(6);
        let root = random.bytes::<16>();
        let [rs, rso, rand1, rand2, c]: [[u8; 10]; 5] = from_fn(|_| random.bytes());
        let group_key = upward::<12>();
        let made = |rand1, rand2, sides| {
            ring(
                &root, &rs, &rso, rand1, rand2, &c, &group_key, sides, 0x000f, 0xffc0,
            )
        };
        let both = made(&rand1, &rand2, 3);
        assert_eq!(both.refusal, 0);
        let mut reversed = rs;
        reversed.reverse();
        let one = ta11(&ta11(&root, &rs).bytes, &rand1).bytes;
        let two = ta11(&ta11(&root, &reversed).bytes, &rand2).bytes;
        let d: [u8; 10] = from_fn(|i| one[i] ^ two[i]);
        assert_eq!(both.ring[..10], d);
        assert_eq!(both.ring[10..26], ta41(&root, &rso).bytes);
        assert_eq!(both.ring[26..36], c);
        let g = hex("01 02 03 00 04 05 06 07 07 08 09 06 0a 0b 0c 0d");
        assert_eq!(both.ring[36..], g);
        assert_eq!(both.response1, one[12..]);
        assert_eq!(both.response2, two[12..]);

        let mut wanted = both;
        wanted.ring[..10].copy_from_slice(&one[..10]);
        wanted.response2 = [0; 4];
        assert_eq!(made(&rand1, &[0; 10], 1), wanted);
        wanted.ring[..10].copy_from_slice(&two[..10]);
        wanted.response1 = [0; 4];
        wanted.response2.copy_from_slice(&two[12..]);
        assert_eq!(made(&[0; 10], &rand2, 2), wanted);
    }

    #[test]
    fn ring_is_refused() {
        let (root, a, group_key) = ([1; 16], [2; 10], [3; 13]);
        let (right, short) = (&a[..], &a[..9]);
        let made = |rand1, rand2, group_key, sides, response_mask, key_mask| {
            let made = ring(
                &root,
                &a,
                &a,
                rand1,
                rand2,
                &a,
                group_key,
                sides,
                response_mask,
                key_mask,
            );
            assert_eq!(made, RingMade::refused(made.refusal));
            made.refusal
        };
        let refusal = |rand1, rand2, sides, response_mask, key_mask| {
            let group_key = &group_key[..12];
            made(rand1, rand2, group_key, sides, response_mask, key_mask)
        };
        for sides in 1..=3 {
            assert_eq!(refusal(right, right, sides, 0x000f, 0xff80), 7);
            assert_eq!(refusal(right, right, sides, 0x000f, 0x03ff), 8);
            assert_eq!(refusal(short, right, sides, 0x000f, 0xffc0), 11);
            assert_eq!(refusal(right, short, sides, 0x000f, 0xffc0), 11);
        }
        for sides in [0, 4, 259, (1 << 32) + 1, u64::MAX] {
            assert_eq!(refusal(right, right, sides, 0x000f, 0xffc0), 13);
            assert_eq!(refusal(right, right, sides, 0, 0), 13);
            assert_eq!(refusal(right, short, sides, 0, 0), 11);
        }
        for length in [0, 10, 11, 13] {
            let group_key = &group_key[..length];
            assert_eq!(made(right, right, group_key, 3, 0x000f, 0xffc0), 11);
            assert_eq!(made(right, right, group_key, 0, 0, 0), 11);
        }
    }

    #[test]
    fn ta71_as_formula() {
        let (a, b) = (
            upward::<10>(),
            [0x10, 0x20, 0x30, 0x40, 0x50, 0x60, 0x70, 0x80, 0x90, 0xa0],
        );
        let key = hex("01 02 03 04 05 06 17 28 39 4a 50 60 70 80 90 a0");
        let out = ta11(&key, &tb4(&a, &b).bytes).bytes;
        assert_eq!(ta71(&a, &b).bytes, out[3..13]);
    }
}
