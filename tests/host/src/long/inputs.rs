//! What the calls get in a long run: mostly what they accept, and every refusal
//! among it.

use crate::both::{sealed_by_reference, CHALLENGE, MOST, PLAIN, RING, SEALED};
use crate::changes::{change, change_byte, change_length};
use crate::damaged::{sealed, under_version};
use crate::diffusion;
use crate::engine::null;
use crate::lineage;
use crate::other;
use crate::random::Random;
use crate::sheets::{sheet, wrong, SHAPES};
use crate::taa1::{exp1, exp3, exp4, x16};
use std::array::from_fn;

/// The inputs of one call.
#[derive(Debug, Clone, PartialEq)]
pub struct Inputs {
    /// Byte strings and numbers, each in the order of the header.
    pub strings: Vec<Vec<u8>>,
    pub numbers: Vec<u64>,
    /// The bytes of the output, if the call has one.
    pub room: usize,
    /// Whether byte strings and outputs of no bytes are null pointers.
    pub null: bool,
}

pub type Draw = fn(&mut Random) -> Inputs;

/// How the inputs of a call are drawn. There is none for what is no call.
pub fn draw(call: &str) -> Option<Draw> {
    let draw: Draw = match call {
        "encrypt" | "decrypt" | "encrypt_register" | "decrypt_register" => |random| {
            let strings = strings(random, [16, 8]);
            single(random, strings, [])
        },
        "register" => |random| {
            let (strings, bits) = (strings(random, [16]), random.below(64));
            let steps = random.number() >> bits;
            single(random, strings, [steps])
        },
        "ta11" | "ta21" | "ta41" => |random| {
            let strings = strings(random, [16, 10]);
            single(random, strings, [])
        },
        "ta12" | "ta22" => |random| {
            let (strings, masks) = (strings(random, [16, 10]), masks(random));
            single(random, strings, masks)
        },
        "ta31" => |random| seal(random, [10, 10], |random| vec![sixteen(random)]),
        "ta51" => |random| {
            seal(random, [10, 16], |random| {
                vec![sixteen(random), small(random)]
            })
        },
        "ta81" => |random| {
            seal(random, [10, 16], |random| {
                vec![sixteen(random), sixteen(random)]
            })
        },
        "ta91" => |random| seal(random, [12, 16], |random| vec![sixteen(random)]),
        "ta32" => |random| unseal(random, &TA31),
        "ta52" => |random| unseal(random, &TA51),
        "ta82" => |random| unseal(random, &TA81),
        "ta92" => |random| unseal(random, &TA91),
        "ta61" | "ta61_inverse" => |random| {
            let (strings, identity) = (strings(random, [10]), value(random, 24));
            single(random, strings, [identity])
        },
        "ta71" | "tb4" => |random| {
            let strings = strings(random, [10, 10]);
            single(random, strings, [])
        },
        "ta101" => |random| {
            let (strings, mni) = (strings(random, [16, 10]), value(random, 24));
            single(random, strings, [mni])
        },
        "tb1" => |random| {
            let numbers = repeated(random);
            single(random, vec![], numbers)
        },
        "tb2" => |random| {
            let strings = strings(random, [16]);
            single(random, strings, [])
        },
        "tb3" => |random| {
            let (strings, numbers) = (strings(random, [16]), repeated(random));
            single(random, strings, numbers)
        },
        "tb5" => |random| {
            let (strings, cell) = (strings(random, [10]), cell(random));
            single(random, strings, cell)
        },
        "tb6" => |random| {
            let (strings, pair) = (strings(random, [10]), carrier_identity(random));
            single(random, strings, pair)
        },
        "tb7" => |random| {
            let strings = strings(random, [12]);
            single(random, strings, [])
        },
        "tb1_inverse" => |random| {
            let [value, width] = repeated(random);
            let result = other::tb1(value, width).bytes.to_vec();
            let result = result_of(random, result);
            single(random, vec![result], [width])
        },
        "tb3_inverse" => |random| {
            let (input, [value, width]) = (random.vec(16), repeated(random));
            let result = other::tb3(&input, value, width).bytes.to_vec();
            let result = result_of(random, result);
            single(random, vec![input, result], [width])
        },
        "tb5_inverse" => |random| {
            let (key, [location_area, carrier, colour_code]) = (random.vec(10), cell(random));
            let result = other::tb5(&key, location_area, carrier, colour_code);
            let result = result_of(random, result.bytes.to_vec());
            single(random, vec![key, result], [])
        },
        "tb6_inverse" => |random| {
            let (key, [carrier, identity]) = (random.vec(10), carrier_identity(random));
            let result = other::tb6(&key, carrier, identity).bytes.to_vec();
            let result = result_of(random, result);
            single(random, vec![key, result], [])
        },
        "restore_card" => card,
        "ring" => |random| {
            let strings = strings(random, [16, 10, 10, 10, 10, 10, 12]);
            let ([response_mask, key_mask], sides) = (masks(random), sides(random));
            single(random, strings, [sides, response_mask, key_mask])
        },
        "seal_book" => |random| {
            let (ring, plain) = (random.vec(RING), plain_book(random));
            book(random, ring, plain, PLAIN, SEALED)
        },
        "open_book" => |random| {
            let (ring, sealed) = sealed_book(random);
            book(random, ring, sealed, SEALED, PLAIN)
        },
        "check_plain" => |random| {
            let plain = plain_book(random);
            let mut inputs = book(random, vec![], plain, PLAIN, 0);
            inputs.strings.remove(0);
            inputs
        },
        "ta12_class" => |random| {
            let strings = vec![random.vec(16), any_list(random, CHALLENGE)];
            let masks = masks(random);
            on_list(random, strings, masks, CHALLENGE, 14)
        },
        "lineage" => |random| {
            let sheet = lineage_sheet(random);
            on_list(random, vec![sheet], [], lineage::RECORD, lineage::VALUE)
        },
        "plain_to_columns" | "plain_from_columns" => |random| {
            let list = any_list(random, PLAIN);
            on_list(random, vec![list], [], PLAIN, PLAIN)
        },
        "sealed_to_columns" | "sealed_from_columns" => |random| {
            let list = any_list(random, SEALED);
            on_list(random, vec![list], [], SEALED, SEALED)
        },
        "diffusion" => |random| {
            let list = any_list(random, diffusion::RECORD);
            on_list(random, vec![list], [], diffusion::RECORD, 0)
        },
        _ => return None,
    };
    Some(draw)
}

/// The bytes of a record of the list that a call takes, as its last byte string. A
/// single call takes none.
pub fn record_bytes(call: &str) -> Option<usize> {
    match call {
        // begin lists, made by `contracts write`
        "ta12_class" => Some(10),
        "seal_book" | "check_plain" | "plain_to_columns" | "plain_from_columns" => Some(18),
        "open_book" | "sealed_to_columns" | "sealed_from_columns" => Some(21),
        "lineage" => Some(22),
        "diffusion" => Some(24),
        // end lists
        _ => None,
    }
}

impl Inputs {
    /// A byte string as a call gets it.
    pub fn string(&self, at: usize) -> &[u8] {
        let string = &self.strings[at][..];
        if self.null && string.is_empty() {
            null()
        } else {
            string
        }
    }
}

// ---- single calls

fn strings<const N: usize>(random: &mut Random, lengths: [usize; N]) -> Vec<Vec<u8>> {
    lengths.map(|length| random.vec(length)).into()
}

/// The inputs of a call without an output. Now and then a string gets another length.
fn single(random: &mut Random, mut strings: Vec<Vec<u8>>, numbers: impl Into<Vec<u64>>) -> Inputs {
    if !strings.is_empty() {
        while random.below(24) == 0 {
            let string = random.below(strings.len());
            let length = match random.below(4) {
                0 => 256 + strings[string].len(),
                1 => 0,
                _ => random.below(40),
            };
            strings[string] = random.vec(length);
        }
    }
    Inputs {
        strings,
        numbers: numbers.into(),
        room: 0,
        null: random.below(2) == 0,
    }
}

/// A value for so many bits; now and then one at an edge, or one or two bits wider.
fn value(random: &mut Random, bits: u64) -> u64 {
    let limit = (1 << bits) - 1;
    match random.below(64) {
        0 => limit + 1,
        1 => u64::MAX,
        2 => limit,
        3 => 0,
        4..=6 => random.number() >> (62 - bits),
        _ => random.number() & limit,
    }
}

fn sixteen(random: &mut Random) -> u64 {
    random.number() & 0xffff
}

/// Mostly a number up to 31.
fn small(random: &mut Random) -> u64 {
    match random.below(16) {
        0 => sixteen(random),
        1 => random.number() % 64,
        _ => random.number() % 32,
    }
}

/// Mostly a right pair.
fn masks(random: &mut Random) -> [u64; 2] {
    let (response_mask, key_mask) = match random.below(16) {
        0 => (random.mask(4), random.mask(10)),
        1 => (random.number() as u16, random.number() as u16),
        _ => random.masks(),
    };
    [response_mask.into(), key_mask.into()]
}

/// Mostly a right number.
fn sides(random: &mut Random) -> u64 {
    let bits = random.below(64);
    match random.below(16) {
        0 => random.number() >> bits,
        _ => 1 + random.number() % 3,
    }
}

/// A value and its width; widths from 15 to 33, and a few that are far too wide.
fn repeated(random: &mut Random) -> [u64; 2] {
    let width = 15 + random.number() % 19;
    let value = value(random, width);
    match random.below(64) {
        0 => [value, width << 32],
        _ => [value, width],
    }
}

fn cell(random: &mut Random) -> [u64; 3] {
    [14, 12, 6].map(|bits| value(random, bits))
}

fn carrier_identity(random: &mut Random) -> [u64; 2] {
    [12, 24].map(|bits| value(random, bits))
}

/// Mostly this result; now and then with a byte changed, or any.
fn result_of(random: &mut Random, mut result: Vec<u8>) -> Vec<u8> {
    match random.below(8) {
        0 => random.fill(&mut result),
        1 | 2 => change_byte(&mut result, random),
        _ => {}
    }
    result
}

/// A card with what its mask calls unreadable written over; now and then another byte
/// is wrong, or all are, or the mask is any.
fn card(random: &mut Random) -> Inputs {
    let mut card = other::tb7(&random.bytes::<12>()).bytes.to_vec();
    let one_each = (0..4).fold(0, |mask, group| mask | 1 << (4 * group + random.below(4)));
    let few = random.number() & random.number() & random.number();
    let unreadable = match random.below(8) {
        0 => random.number(),
        1 => few,
        2 => one_each,
        _ => one_each & random.number(),
    } & 0xffff;
    for i in (0..16).filter(|i| unreadable >> i & 1 == 1) {
        card[15 - i] = random.number() as u8;
    }
    match random.below(16) {
        0 => random.fill(&mut card),
        1 | 2 => change_byte(&mut card, random),
        _ => {}
    }
    single(random, vec![card], [unreadable])
}

// ---- seals

/// A key under a sealing key: their lengths, and the numbers.
fn seal(random: &mut Random, lengths: [usize; 2], numbers: fn(&mut Random) -> Vec<u64>) -> Inputs {
    let (strings, numbers) = (strings(random, lengths), numbers(random));
    single(random, strings, numbers)
}

/// How a text comes about: any key and number with their check bytes, and the key that
/// the cipher gets of a sealing key and a version.
struct Form {
    sealing_key: usize,
    expanded: fn(&mut Random) -> [u8; 15],
    cipher_key: fn(&[u8], u16) -> [u8; 16],
}

static TA31: Form = Form {
    sealing_key: 10,
    expanded: |random| exp1(&random.bytes()),
    cipher_key: |key, version| exp4(&under_version(from_fn(|i| key[i]), version)),
};

static TA51: Form = Form {
    sealing_key: 16,
    expanded: |random| {
        let mut bytes = random.bytes::<11>();
        bytes[10] %= 32;
        exp3(&bytes)
    },
    cipher_key: whole_key,
};

static TA81: Form = Form {
    sealing_key: 16,
    expanded: |random| {
        let bytes = x16(&random.bytes());
        from_fn(|i| bytes[i])
    },
    cipher_key: whole_key,
};

static TA91: Form = Form {
    sealing_key: TA81.sealing_key,
    expanded: TA81.expanded,
    cipher_key: TA81.cipher_key,
};

fn whole_key(key: &[u8], version: u16) -> [u8; 16] {
    under_version(from_fn(|i| key[i]), version)
}

impl Form {
    /// A text: as sealing gives it, or with a byte changed, before it is sealed or after.
    fn text(&self, random: &mut Random, sealing_key: &[u8], version: u16) -> [u8; 15] {
        let mut bytes = (self.expanded)(random);
        let damage = random.below(4);
        if damage == 0 {
            change_byte(&mut bytes, random);
        }
        let mut text = sealed(&(self.cipher_key)(sealing_key, version), bytes);
        if damage == 1 {
            change_byte(&mut text, random);
        }
        text
    }
}

fn unseal(random: &mut Random, form: &Form) -> Inputs {
    let (sealing_key, version) = (random.vec(form.sealing_key), random.number() as u16);
    let text = form.text(random, &sealing_key, version).to_vec();
    single(random, vec![text, sealing_key], [version.into()])
}

// ---- calls on lists

/// A number of records: nine in ten times at most 8, once in a hundred more than 64;
/// now and then too many.
fn count(random: &mut Random) -> usize {
    match random.below(256) {
        0 => MOST + 1 + random.below(2),
        1 | 2 => 65 + random.below(MOST - 64),
        3..=20 => 9 + random.below(56),
        _ => random.below(9),
    }
}

/// Any bytes of so many records.
fn any_list(random: &mut Random, size: usize) -> Vec<u8> {
    let count = count(random);
    random.vec(size * count)
}

fn plain_book(random: &mut Random) -> Vec<u8> {
    let count = count(random);
    random.plain_book(count)
}

/// A ring and a book sealed under it; in every second one a record has a text that may
/// be damaged.
fn sealed_book(random: &mut Random) -> (Vec<u8>, Vec<u8>) {
    let (ring, plain) = (random.vec(RING), plain_book(random));
    let mut book = sealed_by_reference(&ring, &plain);
    let count = book.len() / SEALED;
    if count > 0 && random.below(2) == 0 {
        let record = &mut book[SEALED * random.below(count)..][..SEALED];
        let (d, o, g) = (&ring[..10], &ring[10..26], &ring[36..]);
        let (form, key) = match record[0] {
            1 => (&TA31, d),
            2 => (&TA51, o),
            3 => (&TA81, o),
            4 => (&TA91, o),
            5 => (&TA51, g),
            _ => (&TA81, g),
        };
        let version = u16::from_be_bytes([record[4], record[5]]);
        record[6..].copy_from_slice(&form.text(random, key, version));
    }
    (ring, book)
}

/// A sheet; in every second one, if it has the room, a record is wrong or has a byte
/// changed.
fn lineage_sheet(random: &mut Random) -> Vec<u8> {
    let (shape, count) = (SHAPES[random.below(3)], count(random));
    let mut sheet = sheet(random, shape, count);
    match random.below(4) {
        0 if count > 2 => {
            let index = 2 + random.below(count - 2);
            let wrong = wrong(index);
            sheet[index] = wrong[random.below(wrong.len())].1;
        }
        1 if count > 0 => {
            let index = random.below(count);
            change_byte(&mut sheet[index], random);
        }
        _ => {}
    }
    sheet.concat()
}

/// The room of an output: mostly what the result needs, or somewhat more.
fn room(random: &mut Random, need: usize) -> usize {
    match random.below(16) {
        0 => random.below(need + 1),
        1..=4 => need + 1 + random.below(50),
        _ => need,
    }
}

/// The inputs of a call on a list, the last byte string. Now and then the list or
/// another string has another length, or the output is short.
fn on_list(
    random: &mut Random,
    mut strings: Vec<Vec<u8>>,
    numbers: impl Into<Vec<u64>>,
    size: usize,
    to: usize,
) -> Inputs {
    let list = strings.len() - 1;
    let room = room(random, strings[list].len() / size * to);
    if random.below(32) == 0 {
        change_length(&mut strings[list], random);
    }
    if random.below(32) == 0 {
        change_length(&mut strings[0], random);
    }
    Inputs {
        strings,
        numbers: numbers.into(),
        room,
        null: random.below(2) == 0,
    }
}

/// A ring and a book for sealing or opening; every second time one, two or three things
/// are changed.
fn book(
    random: &mut Random,
    mut ring: Vec<u8>,
    mut book: Vec<u8>,
    size: usize,
    to: usize,
) -> Inputs {
    let mut room = room(random, book.len() / size * to);
    for _ in 0..random.below(2) * (1 + random.below(3)) {
        change(random, size, &mut ring, &mut book, &mut room);
    }
    Inputs {
        strings: vec![ring, book],
        numbers: vec![],
        room,
        null: random.below(2) == 0,
    }
}
