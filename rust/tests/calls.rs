// SPDX-License-Identifier: MIT
//! Every call and the refusals through the wrapper.

use std::array::from_fn;
use std::thread;

use taa1::{
    Authentication, Book, BookRefusal, Card, CarrierIdentity, Cell, CountedBook, CountedRefusal,
    FailedChecks, KeyNumber, Kind, Refusal, Release, RingMade, Sitting, Tally, Unsealed,
    UnsealedNumbered, Version, CHALLENGE_BYTES, MOST_RECORDS, PLAIN_RECORD_BYTES, RING_BYTES,
    SEALED_RECORD_BYTES, SHEET_RECORD_BYTES, SHEET_VALUE_BYTES, TALLY_RECORD_BYTES,
};

const ROOT: [u8; 16] = *b"a root or key...";
const KEY: [u8; 10] = *b"cipher key";
const CLEAR: FailedChecks = FailedChecks(0);
const VERSION: Version = Version(0x0708);
const RESPONSE_MASK: u16 = 0xf000;
const KEY_MASK: u16 = 0x0ffc;

// The expansions of the bytes 01 02 .. upward: the cases a to f of the engine's
// paper, with the zero byte that sealing puts after EXP1 and EXP3.
const EXP1_ZERO: [u8; 16] = [1, 2, 3, 3, 4, 7, 5, 6, 3, 7, 8, 15, 9, 10, 3, 0];
const EXP2: [u8; 16] = [1, 2, 3, 3, 4, 7, 5, 6, 3, 7, 8, 15, 9, 10, 3, 31];
const EXP4: [u8; 16] = [19, 3, 1, 2, 7, 3, 4, 11, 5, 6, 15, 7, 8, 19, 9, 10];
const EXP3_ZERO: [u8; 16] = [1, 2, 3, 3, 4, 5, 2, 6, 7, 8, 9, 9, 10, 11, 8, 0];
const X16: [u8; 16] = [1, 2, 3, 4, 4, 5, 6, 7, 8, 12, 9, 10, 11, 12, 4, 0];
const TB7: [u8; 16] = [1, 2, 3, 0, 4, 5, 6, 7, 7, 8, 9, 6, 10, 11, 12, 13];

/// The bytes 01 02 .. upward.
fn upward<const N: usize>() -> [u8; N] {
    from_fn(|i| i as u8 + 1)
}

fn xor<const N: usize>(a: [u8; N], b: [u8; N]) -> [u8; N] {
    from_fn(|i| a[i] ^ b[i])
}

/// A string, xor [`VERSION`] repeated.
fn with_version<const N: usize>(a: [u8; N]) -> [u8; N] {
    xor(a, from_fn(|i| [7, 8][i % 2]))
}

/// Two blocks, the second xor the first's encryption.
fn bl1(key: [u8; 16], data: [u8; 16]) -> [u8; 16] {
    let left = taa1::encrypt(&key, &data[..8]).unwrap();
    let mixed: [u8; 8] = from_fn(|i| data[8 + i] ^ left[i]);
    let right = taa1::encrypt(&key, &mixed).unwrap();
    [left, right].concat().try_into().unwrap()
}

/// The text of expanded data: byte 8 is left out, where byte 0 is rightmost.
fn sealed(key: [u8; 16], data: [u8; 16]) -> [u8; 15] {
    let text = bl1(key, data);
    from_fn(|i| text[if i < 7 { i } else { i + 1 }])
}

/// A plain record of the identity 123456 and [`VERSION`].
fn record(kind: Kind, body: [u8; 12]) -> [u8; PLAIN_RECORD_BYTES] {
    let head = [kind as u8, 0x12, 0x34, 0x56, 7, 8];
    [&head[..], &body].concat().try_into().unwrap()
}

/// The body of a cipher key and what follows it.
fn body(key: [u8; 10], end: [u8; 2]) -> [u8; 12] {
    [&key[..], &end].concat().try_into().unwrap()
}

/// A sheet's record of a given key.
fn given(key: &[u8]) -> [u8; SHEET_RECORD_BYTES] {
    let head = [0, 0, 0, 0, 0, key.len() as u8];
    from_fn(|i| *head.iter().chain(key).nth(i).unwrap_or(&0))
}

/// A sheet's record of an operation on two others.
fn derived(operation: u8, first: u16, second: u16) -> [u8; SHEET_RECORD_BYTES] {
    let ([a, b], [c, d]) = (first.to_be_bytes(), second.to_be_bytes());
    let head = [operation, a, b, c, d];
    from_fn(|i| head.get(i).copied().unwrap_or(0))
}

/// A key with zeros after it.
fn value(key: &[u8]) -> [u8; SHEET_VALUE_BYTES] {
    from_fn(|i| key.get(i).copied().unwrap_or(0))
}

/// The archive is of this crate's release.
#[test]
fn the_release_is_told() {
    let Release {
        major,
        minor,
        patch,
    } = taa1::release();
    assert_eq!(format!("{major}.{minor}.{patch}"), taa1::VERSION);
    assert_eq!(major, 1);
}

#[test]
fn decryption_undoes_encryption() {
    let encrypted = [0xd1, 0x84, 0x10, 0x8a, 0x86, 0xbe, 0xfa, 0x5a];
    let (key, block) = (upward::<16>(), upward());
    assert_eq!(taa1::encrypt(&key, &block), Ok(encrypted));
    assert_eq!(taa1::decrypt(&key, &encrypted), Ok(block));
}

#[test]
fn one_register_does_as_well() {
    let (key, block) = (upward::<16>(), upward::<8>());
    let encrypted = taa1::encrypt(&key, &block).unwrap();
    assert_eq!(taa1::encrypt_register(&key, &block), Ok(encrypted));
    assert_eq!(taa1::decrypt_register(&key, &encrypted), Ok(block));
    let refused = Err(Refusal::WrongLength);
    assert_eq!(taa1::encrypt_register(&key, &key), refused);
    assert_eq!(taa1::decrypt_register(&block, &block), refused);
}

#[test]
fn the_register_turns_until_the_key_is_back() {
    const A: [usize; 16] = [5, 5, 5, 5, 3, 7, 5, 5, 5, 5, 7, 3, 5, 5, 5, 5];
    const D: [u8; 16] = *b"\x3c\xa7\xec\x25\x79\x57\xdf\xc0\x38\x0a\x33\x1e\xf3\x8c\xf4\xf7";
    let mut wanted = ROOT;
    for (step, rotation) in (0..).zip(A) {
        for turns in [0, 1, u64::MAX / 16] {
            assert_eq!(taa1::register(&ROOT, 16 * turns + step), Ok(wanted));
        }
        wanted.rotate_left(rotation);
        wanted = xor(wanted, D);
    }
    assert_eq!(wanted, ROOT);
    assert_eq!(taa1::register(&KEY, 0), Err(Refusal::WrongLength));
}

#[test]
fn session_keys_are_made() {
    let mut seed = upward::<10>();
    let key = Ok(bl1(ROOT, EXP2));
    assert_eq!(taa1::ta11(&ROOT, &seed), key);
    assert_eq!(taa1::ta41(&ROOT, &seed), key);
    seed.reverse();
    assert_eq!(taa1::ta21(&ROOT, &seed), key);
}

#[test]
fn masks_choose() {
    let (challenge, out) = (upward::<10>(), bl1(ROOT, EXP2));
    let chosen = Ok(Authentication {
        response: from_fn(|i| out[i]),
        key: from_fn(|i| out[4 + i]),
    });
    let (response_mask, key_mask) = (RESPONSE_MASK, KEY_MASK);
    let ta12 = taa1::ta12(&ROOT, &challenge, response_mask, key_mask);
    let ta22 = taa1::ta22(&ROOT, &challenge, response_mask, key_mask);
    assert_eq!((ta12, ta22), (chosen, chosen));
}

/// The figures of the single encryptions, for no records and a few.
#[test]
fn flips_are_tallied() {
    let records: Vec<[u8; TALLY_RECORD_BYTES]> =
        vec![[0; 24], upward(), [0xff; 24], from_fn(|i| (i * i) as u8)];
    for n in 0..=records.len() {
        let changes: Vec<u32> = records[..n].iter().flat_map(changes).collect();
        let wanted = Tally {
            flips: 64 * n as u32,
            total: changes.iter().sum(),
            least: changes.iter().copied().min().unwrap_or(0),
            greatest: changes.iter().copied().max().unwrap_or(0),
        };
        assert_eq!(taa1::diffusion(&records[..n].concat()), Ok(wanted));
    }
    let longest = taa1::diffusion(&[7; TALLY_RECORD_BYTES * MOST_RECORDS]).unwrap();
    let one = taa1::diffusion(&[7; TALLY_RECORD_BYTES]).unwrap();
    assert_eq!((longest.flips, longest.total), (65_536, 1024 * one.total));
}

/// The bits that change for each of the 64 flips.
fn changes(record: &[u8; TALLY_RECORD_BYTES]) -> Vec<u32> {
    let (key, block) = record.split_at(16);
    let output = taa1::encrypt(key, block).unwrap();
    let change = |i: usize| {
        let mut flipped = block.to_vec();
        flipped[i / 8] ^= 1 << (i % 8);
        let other = taa1::encrypt(key, &flipped).unwrap();
        xor(output, other).iter().map(|x| x.count_ones()).sum()
    };
    (0..64).map(change).collect()
}

#[test]
fn tallies_are_refused() {
    let long = [0; TALLY_RECORD_BYTES * MOST_RECORDS + 1];
    assert_eq!(taa1::diffusion(&long), Err(Refusal::BookTooLong));
    assert_eq!(taa1::diffusion(&long[..25]), Err(Refusal::BookNotWhole));
}

/// The empty class and repeated challenges among them.
#[test]
fn classes_are_answered_one_by_one() {
    let (a, b) = (upward::<10>(), KEY);
    let longest = [a, b].concat().repeat(MOST_RECORDS / 2);
    for class in [vec![], a.to_vec(), [a, b, b, a, a].concat(), longest] {
        let single = |challenge| taa1::ta12(&ROOT, challenge, RESPONSE_MASK, KEY_MASK).unwrap();
        let wanted = class.chunks(CHALLENGE_BYTES).map(single).collect();
        let answers = taa1::ta12_class(&ROOT, &class, RESPONSE_MASK, KEY_MASK);
        assert_eq!(answers, Ok(wanted));
    }
}

/// In their order, all but the short output, which cannot arise here.
#[test]
fn classes_are_refused() {
    let refused = |key: &[u8], class: &[u8], response_mask, key_mask| {
        let refused = taa1::ta12_class(key, class, response_mask, key_mask).unwrap_err();
        assert_eq!(refused.index, 0);
        refused.refusal
    };
    let long = [0; CHALLENGE_BYTES * MOST_RECORDS + 1];
    assert_eq!(refused(&KEY, &long, 0, 0), Refusal::WrongLength);
    assert_eq!(refused(&ROOT, &long, 0, 0), Refusal::BookTooLong);
    assert_eq!(refused(&ROOT, &long[..11], 0, 0), Refusal::BookNotWhole);
    for class in [&long[..0], &long[..20]] {
        assert_eq!(refused(&ROOT, class, 0, 0), Refusal::WrongMask);
        let shared = refused(&ROOT, class, 0x3c00, KEY_MASK);
        assert_eq!(shared, Refusal::SharedBit);
    }
}

/// Each operation on given and on derived keys, a record cited often, and the
/// empty sheet.
#[test]
fn lineage_is_that_of_single_calls() {
    let seed = upward::<10>();
    let mut sheet = vec![given(&ROOT), given(&KEY), given(&seed)];
    let ta11 = taa1::ta11(&ROOT, &KEY).unwrap();
    let ta21 = taa1::ta21(&ta11, &seed).unwrap();
    let tb4 = taa1::tb4(&KEY, &seed).unwrap();
    let ta71 = taa1::ta71(&tb4, &KEY).unwrap();
    let ta41 = taa1::ta41(&ta21, &ta71).unwrap();
    sheet.extend([derived(1, 0, 1), derived(2, 3, 2), derived(4, 1, 2)]);
    sheet.extend([derived(5, 5, 1), derived(3, 4, 6)]);
    let mut values = vec![ROOT, value(&KEY), value(&seed), ta11, ta21];
    values.extend([value(&tb4), value(&ta71), ta41]);
    assert_eq!(taa1::lineage(&sheet.concat()), Ok(values));
    assert_eq!(taa1::lineage(&[]), Ok(vec![]));
}

/// The longest sheet, a chain: each key is made from the one before it.
#[test]
fn chains_are_long() {
    let (mut sheet, mut values) = (vec![given(&ROOT), given(&KEY)], vec![ROOT, value(&KEY)]);
    for i in 2..MOST_RECORDS {
        let first = if i == 2 { 0 } else { i - 1 };
        sheet.push(derived(1, first as u16, 1));
        values.push(taa1::ta11(&values[first], &KEY).unwrap());
    }
    assert_eq!(taa1::lineage(&sheet.concat()), Ok(values));
    sheet.push(given(&KEY));
    let refusal = Refusal::BookTooLong;
    let refused = Err(BookRefusal { refusal, index: 0 });
    assert_eq!(taa1::lineage(&sheet.concat()), refused);
}

/// The first record decides, and in it 14 before 15 before 16.
#[test]
fn sheets_are_refused() {
    let refused = |records: &[[u8; SHEET_RECORD_BYTES]], refusal, index| {
        let sheet = [&[given(&ROOT), given(&KEY)], records].concat().concat();
        let wanted = Err(BookRefusal { refusal, index });
        assert_eq!(taa1::lineage(&sheet), wanted);
    };
    let changed = |mut record: [u8; SHEET_RECORD_BYTES], at: usize| {
        record[at] = 1;
        record
    };
    let bad = derived(6, 0, 1);
    refused(&[bad], Refusal::WrongFilling, 2);
    for at in [1, 2, 3, 4, 16, 21] {
        refused(&[changed(given(&KEY), at)], Refusal::WrongFilling, 2);
    }
    refused(&[given(&upward::<11>())], Refusal::WrongFilling, 2);
    refused(&[changed(derived(1, 2, 2), 5)], Refusal::WrongFilling, 2);
    refused(&[changed(derived(5, 1, 0), 21)], Refusal::WrongFilling, 2);
    refused(&[derived(1, 2, 1), bad], Refusal::WrongParent, 2);
    refused(&[derived(1, 1, 2)], Refusal::WrongParent, 2);
    refused(&[derived(3, 0, 256)], Refusal::WrongParent, 2);
    refused(&[derived(1, 1, 0), bad], Refusal::ParentLength, 2);
    refused(
        &[derived(1, 0, 1), derived(2, 2, 2)],
        Refusal::ParentLength,
        3,
    );
    refused(
        &[derived(4, 1, 1), derived(5, 0, 2)],
        Refusal::ParentLength,
        3,
    );
    let short = taa1::lineage(&given(&KEY)[1..]).unwrap_err();
    assert_eq!((short.refusal, short.index), (Refusal::BookNotWhole, 0));
}

#[test]
fn kind_1_is_sealed() {
    let (key, sealing_key) = (upward(), with_version::<10>(upward()));
    let text = sealed(EXP4, EXP1_ZERO);
    assert_eq!(taa1::ta31(&key, VERSION, &sealing_key), Ok(text));
    let opened = Unsealed {
        key,
        failed_checks: CLEAR,
    };
    assert_eq!(taa1::ta32(&text, &sealing_key, VERSION), Ok(opened));
}

#[test]
fn kind_2_is_sealed() {
    let (key, sealing_key, number) = (upward(), with_version(ROOT), KeyNumber(0x0b));
    let text = sealed(ROOT, EXP3_ZERO);
    assert_eq!(taa1::ta51(&key, VERSION, &sealing_key, number), Ok(text));
    let opened = UnsealedNumbered {
        key,
        number,
        failed_checks: CLEAR,
    };
    assert_eq!(taa1::ta52(&text, &sealing_key, VERSION), Ok(opened));
}

#[test]
fn kind_3_is_sealed() {
    let (key, sealing_key, number) = (upward(), with_version(ROOT), KeyNumber(0x0b0c));
    let text = sealed(ROOT, X16);
    assert_eq!(taa1::ta81(&key, VERSION, &sealing_key, number), Ok(text));
    let opened = UnsealedNumbered {
        key,
        number,
        failed_checks: CLEAR,
    };
    assert_eq!(taa1::ta82(&text, &sealing_key, VERSION), Ok(opened));
}

#[test]
fn kind_4_is_sealed() {
    let (key, sealing_key) = (upward(), with_version(ROOT));
    let text = sealed(ROOT, X16);
    assert_eq!(taa1::ta91(&key, VERSION, &sealing_key), Ok(text));
    let opened = Unsealed {
        key,
        failed_checks: CLEAR,
    };
    assert_eq!(taa1::ta92(&text, &sealing_key, VERSION), Ok(opened));
}

/// Each check fails by itself where its byte, or the number byte's top bit, is
/// another.
#[test]
fn failed_checks_are_told_apart() {
    fn failed<const N: usize>(
        expanded: [u8; 16],
        at: [usize; N],
        failing: impl Fn([u8; 15]) -> FailedChecks,
    ) {
        for (place, at) in (0..).zip(at) {
            let mut other = expanded;
            other[at] ^= 1;
            let failed = failing(sealed(ROOT, other));
            assert!(!failed.is_clear());
            assert_eq!(failed.places().collect::<Vec<u32>>(), [place]);
        }
    }
    let key = with_version(ROOT);
    failed(EXP3_ZERO, [2, 6, 10, 14], |text| {
        taa1::ta52(&text, &key, VERSION).unwrap().failed_checks
    });
    failed(X16, [4, 9, 14], |text| {
        taa1::ta82(&text, &key, VERSION).unwrap().failed_checks
    });
    failed(X16, [4, 9, 14], |text| {
        taa1::ta92(&text, &key, VERSION).unwrap().failed_checks
    });
    // bits 5 to 7 of the number byte, and the byte inserted after it with them
    let mut wide = EXP3_ZERO;
    wide[13] ^= 0x80;
    wide[14] ^= 0x80;
    let opened = taa1::ta52(&sealed(ROOT, wide), &key, VERSION).unwrap();
    assert_eq!(opened.failed_checks, FailedChecks(0b10000));
    let key = with_version::<10>(upward());
    for (place, at) in [2, 5, 8, 11, 14].into_iter().enumerate() {
        let mut other = EXP1_ZERO;
        other[at] ^= 1;
        let opened = taa1::ta32(&sealed(EXP4, other), &key, VERSION).unwrap();
        assert_eq!(opened.failed_checks, FailedChecks(1 << place));
    }
}

/// The first record of the sample sitting.
#[test]
fn identities_come_back() {
    let common_key: [u8; 10] = from_fn(|i| 0xc0 + i as u8);
    assert_eq!(taa1::ta61(&common_key, 1), Ok(0xa29afc));
    assert_eq!(taa1::ta61_inverse(&common_key, 0xa29afc), Ok(1));
}

#[test]
fn keys_are_made_from_keys() {
    let (a, b) = (upward::<10>(), KEY);
    let key: [u8; 16] = from_fn(|i| match i {
        0..=5 => a[i],
        6..=9 => a[i] ^ b[i - 6],
        _ => b[i - 6],
    });
    let out = taa1::ta11(&key, &xor(a, b)).unwrap();
    assert_eq!(taa1::ta71(&a, &b), Ok(from_fn(|i| out[3 + i])));

    let copies = [0x12, 0x34, 0x56, 0x12, 0x34, 0x56, 0x12, 0x34, 0x56, 0];
    let wanted = taa1::ta11(&ROOT, &xor(KEY, copies));
    assert_eq!(taa1::ta101(&ROOT, &KEY, 0x123456), wanted);
}

#[test]
fn keys_are_mixed() {
    let copy = [0x12, 0x34, 0x51, 0x23, 0x45];
    let repeated = from_fn(|i| copy[i % 5]);
    assert_eq!(taa1::tb1(0x12345, 20), Ok(repeated));
    assert_eq!(taa1::tb2(&ROOT), Ok(ROOT));
    assert_eq!(taa1::tb3(&ROOT, 0x12345, 20), Ok(xor(ROOT, repeated)));
    assert_eq!(taa1::tb4(&upward::<10>(), &KEY), Ok(xor(upward(), KEY)));
    assert_eq!(taa1::tb7(&upward::<12>()), Ok(TB7));
}

/// Any one byte of each group, whatever stands in its place.
#[test]
fn cards_are_restored() {
    let whole = Card {
        key: upward(),
        card: TB7,
    };
    assert_eq!(taa1::restore_card(&TB7, 0), Ok(whole));
    for places in 0..256 {
        let mut smudged = TB7;
        let mut unreadable = 0;
        for group in 0..4 {
            let i = 4 * group + (places >> (2 * group)) % 4;
            smudged[i] ^= 0x5a;
            unreadable |= 1 << (15 - i);
        }
        assert_eq!(taa1::restore_card(&smudged, unreadable), Ok(whole));
        let disagrees = taa1::restore_card(&smudged, unreadable & 0x0fff);
        assert_eq!(disagrees, Err(Refusal::GroupDisagrees));
    }
}

/// In their order: 18 in any group before 19 in any.
#[test]
fn cards_are_refused() {
    let mut card = TB7;
    let length = taa1::restore_card(&TB7[1..], 0xffff);
    assert_eq!(length, Err(Refusal::WrongLength));
    card[0] ^= 1;
    assert_eq!(taa1::restore_card(&card, 0), Err(Refusal::GroupDisagrees));
    for unreadable in [0x0003, 0x0009, 0x0070, 0x0f00, 0xffff] {
        let refused = taa1::restore_card(&card, unreadable);
        assert_eq!(refused, Err(Refusal::GroupUnreadable));
    }
}

#[test]
fn keys_are_made_for_cells() {
    let one = [0, 0, 0, 1, 0, 0, 0x40, 0, 0x10, 0];
    assert_eq!(taa1::tb5(&[0; 10], 0, 0, 1), Ok(one));
    assert_eq!(taa1::tb5(&KEY, 0, 0, 1), Ok(xor(KEY, one)));
    // Each field at its widest, so that none is taken for another.
    let widest = taa1::tb5(&[0; 10], 0x3fff, 0xfff, 0x3f);
    assert_eq!(widest, Ok([0xff; 10]));
    let carried = [0xab, 0xc1, 0x23, 0x45, 0x6a, 0xbc, 0x12, 0x34, 0x56, 0x56];
    assert_eq!(taa1::tb6(&KEY, 0xabc, 0x123456), Ok(xor(KEY, carried)));
}

#[test]
fn inputs_are_found() {
    for (value, width) in [(0x12345, 20), (0, 16), (0xffff, 16), (0xfedcba98, 32)] {
        let repeated = taa1::tb1(value, width).unwrap();
        assert_eq!(taa1::tb1_inverse(&repeated, width), Ok(value as u32));
        let mixed = xor(ROOT, repeated);
        assert_eq!(taa1::tb3_inverse(&ROOT, &mixed, width), Ok(value as u32));
    }
    let cell = Cell {
        location_area: 0x2abc,
        carrier: 0xdef,
        colour_code: 0x15,
    };
    let made = taa1::tb5(&KEY, 0x2abc, 0xdef, 0x15).unwrap();
    assert_eq!(taa1::tb5_inverse(&KEY, &made), Ok(cell));
    let carried = CarrierIdentity {
        carrier: 0xabc,
        identity: 0x123456,
    };
    let made = taa1::tb6(&KEY, 0xabc, 0x123456).unwrap();
    assert_eq!(taa1::tb6_inverse(&KEY, &made), Ok(carried));
}

/// No input gives a result with one bit changed, but where that is a bit of TB5's
/// location area, which stands there once.
#[test]
fn results_without_an_input_are_refused() {
    let none = Some(Refusal::NoInput);
    for bit in 0..128 {
        let mut result = taa1::tb1(0x12345, 20).unwrap();
        result[bit / 8] ^= 0x80 >> (bit % 8);
        assert_eq!(taa1::tb1_inverse(&result, 20).err(), none, "bit {bit}");
        let mixed = xor(ROOT, result);
        assert_eq!(taa1::tb3_inverse(&ROOT, &mixed, 20).err(), none);
    }
    for bit in 0..80 {
        let mut cell = taa1::tb5(&KEY, 1, 2, 3).unwrap();
        cell[bit / 8] ^= 0x80 >> (bit % 8);
        let once = bit < 14;
        let found = taa1::tb5_inverse(&KEY, &cell);
        assert_eq!(found.err(), none.filter(|_| !once), "bit {bit}");
        let mut carried = taa1::tb6(&KEY, 1, 2).unwrap();
        carried[bit / 8] ^= 0x80 >> (bit % 8);
        assert_eq!(taa1::tb6_inverse(&KEY, &carried).err(), none, "bit {bit}");
    }
}

/// A sitting of so many sides.
fn sitting(sides: u64) -> Sitting<'static> {
    Sitting {
        root: &ROOT,
        rs: b"first seed",
        rso: b"other seed",
        rand1: b"challenge1",
        rand2: b"challenge2",
        c: b"common key",
        group_key: b"a group key.",
        sides,
        response_mask: RESPONSE_MASK,
        key_mask: KEY_MASK,
    }
}

#[test]
fn rings_are_made() {
    let Sitting {
        rs,
        rso,
        rand1,
        rand2,
        c,
        group_key,
        ..
    } = sitting(3);
    let key1 = taa1::ta11(&ROOT, rs).unwrap();
    let key2 = taa1::ta21(&ROOT, rs).unwrap();
    let first = taa1::ta12(&key1, rand1, RESPONSE_MASK, KEY_MASK).unwrap();
    let second = taa1::ta22(&key2, rand2, RESPONSE_MASK, KEY_MASK).unwrap();
    let o = taa1::ta41(&ROOT, rso).unwrap();
    let g = taa1::tb7(group_key).unwrap();
    let idle = Authentication {
        response: [0; 4],
        key: [0; 10],
    };
    for (sides, first, second) in [(1, first, idle), (2, idle, second), (3, first, second)] {
        let d = taa1::tb4(&first.key, &second.key).unwrap();
        let wanted = RingMade {
            ring: [&d[..], &o, c, &g].concat().try_into().unwrap(),
            response1: first.response,
            response2: second.response,
        };
        assert_eq!(taa1::ring(&sitting(sides)), Ok(wanted), "sides {sides}");
    }
}

#[test]
fn idle_challenges_change_nothing() {
    let (first, second) = (sitting(1), sitting(2));
    let other = Sitting {
        rand2: &KEY,
        ..first
    };
    assert_eq!(taa1::ring(&other), taa1::ring(&first));
    let other = Sitting {
        rand1: &KEY,
        ..second
    };
    assert_eq!(taa1::ring(&other), taa1::ring(&second));
}

#[test]
fn books_are_sealed_and_opened() {
    let (ring, key, group_key) = (upward::<RING_BYTES>(), upward(), upward());
    let (d, o, c, g) = (&ring[..10], &ring[10..26], &ring[26..36], &ring[36..]);
    let plain = [
        record(Kind::Ta31, body(key, [0, 0])),
        record(Kind::Ta51, body(key, [0, 31])),
        record(Kind::Ta81, body(key, [11, 12])),
        record(Kind::Ta91, group_key),
        record(Kind::Ta51G, body(key, [0, 31])),
        record(Kind::Ta81G, body(key, [11, 12])),
    ]
    .concat();
    let texts = [
        taa1::ta31(&key, VERSION, d),
        taa1::ta51(&key, VERSION, o, KeyNumber(31)),
        taa1::ta81(&key, VERSION, o, KeyNumber(0x0b0c)),
        taa1::ta91(&group_key, VERSION, o),
        taa1::ta51(&key, VERSION, g, KeyNumber(31)),
        taa1::ta81(&key, VERSION, g, KeyNumber(0x0b0c)),
    ];
    let identity = taa1::ta61(c, 0x123456).unwrap().to_be_bytes();
    let mut wanted = Vec::new();
    for (kind, text) in (1..).zip(texts) {
        wanted.push(kind);
        wanted.extend(&identity[1..]);
        wanted.extend([7, 8]);
        wanted.extend(text.unwrap());
    }

    let book = |bytes: &[u8], runs| {
        Ok(CountedBook {
            records: 6,
            bytes: bytes.into(),
            runs,
        })
    };
    assert_eq!(taa1::seal_book(&ring, &plain), book(&wanted, 13));
    assert_eq!(taa1::open_book(&ring, &wanted), book(&plain, 25));
    assert_eq!(taa1::check_plain(&plain), Ok(6));
}

#[test]
fn longest_and_empty_books_are_sealed_and_opened() {
    let ring = upward::<RING_BYTES>();
    for (records, sealing, opening) in [(0, 0, 0), (MOST_RECORDS, 2049, 4097)] {
        let plain = record(Kind::Ta91, upward()).repeat(records);
        assert_eq!(taa1::check_plain(&plain), Ok(records));
        let sealed = taa1::seal_book(&ring, &plain).unwrap();
        assert_eq!((sealed.records, sealed.runs), (records, sealing));
        let opened = taa1::open_book(&ring, &sealed.bytes).unwrap();
        assert_eq!((opened.bytes, opened.runs), (plain, opening));
    }
}

type Filing = fn(&[u8]) -> Result<Book, BookRefusal>;

/// The size of a record, and the calls into columns and back.
const FILINGS: [(usize, Filing, Filing); 2] = [
    (
        PLAIN_RECORD_BYTES,
        taa1::plain_to_columns,
        taa1::plain_from_columns,
    ),
    (
        SEALED_RECORD_BYTES,
        taa1::sealed_to_columns,
        taa1::sealed_from_columns,
    ),
];

#[test]
fn books_are_filed_by_column() {
    for (size, to, from) in FILINGS {
        for records in [0, 1, 2, 3, MOST_RECORDS - 1, MOST_RECORDS] {
            let bytes: Vec<u8> = (0..size * records).map(|i| (i % 251) as u8).collect();
            let column = |j| bytes.iter().skip(j).step_by(size).copied();
            let columns: Vec<u8> = (0..size).flat_map(column).collect();
            let book = |bytes: &[u8]| {
                Ok(Book {
                    records,
                    bytes: bytes.into(),
                })
            };
            assert_eq!(to(&bytes), book(&columns));
            assert_eq!(from(&columns), book(&bytes));
        }
    }
}

/// All but the short output, which cannot arise here.
#[test]
fn filings_are_refused() {
    let refused = |refusal| Err(BookRefusal { refusal, index: 0 });
    for (size, to, from) in FILINGS {
        for call in [to, from] {
            let long = vec![0; size * MOST_RECORDS + 1];
            assert_eq!(call(&long), refused(Refusal::BookTooLong));
            assert_eq!(call(&long[..size + 1]), refused(Refusal::BookNotWhole));
        }
    }
}

/// The calls share nothing: eight threads at once get what one gets.
#[test]
fn threads_do_not_meet() {
    let play = |number: u8| {
        let ring = [number; RING_BYTES];
        let plain = record(Kind::Ta91, [number; 12]).repeat(MOST_RECORDS);
        let sealed = taa1::seal_book(&ring, &plain).unwrap().bytes;
        assert_eq!(taa1::open_book(&ring, &sealed).unwrap().bytes, plain);
        sealed
    };
    let alone: Vec<_> = (0..8).map(play).collect();
    thread::scope(|scope| {
        for (number, wanted) in (0..).zip(&alone) {
            scope.spawn(move || (0..20).for_each(|_| assert_eq!(&play(number), wanted)));
        }
    });
}

/// All but the short output, which cannot arise here.
#[test]
fn books_are_refused() {
    let refused = |refusal, index| Some(BookRefusal { refusal, index });
    let after = |refusal, index, runs| {
        Some(CountedRefusal {
            refusal,
            index,
            runs,
        })
    };
    let check = |plain: &[u8]| taa1::check_plain(plain).err();
    let seal = |plain: &[u8]| taa1::seal_book(&upward::<RING_BYTES>(), plain).err();
    let open = |sealed: &[u8]| taa1::open_book(&upward::<RING_BYTES>(), sealed).err();
    let good = record(Kind::Ta91, upward());

    let long = Refusal::BookTooLong;
    let bytes = [0; SEALED_RECORD_BYTES * MOST_RECORDS + 1];
    assert_eq!(
        check(&bytes[..PLAIN_RECORD_BYTES * MOST_RECORDS + 1]),
        refused(long, 0)
    );
    assert_eq!(open(&bytes), after(long, 0, 0));
    assert_eq!(seal(&good[1..]), after(Refusal::BookNotWhole, 0, 0));
    let kind = [good, [0; PLAIN_RECORD_BYTES]].concat();
    assert_eq!(seal(&kind), after(Refusal::WrongKind, 1, 0));
    let end = [good, good, record(Kind::Ta31, upward())].concat();
    assert_eq!(check(&end), refused(Refusal::NotZero, 2));
    for kind in [Kind::Ta51, Kind::Ta51G] {
        let number = [good, record(kind, body(KEY, [0, 32]))].concat();
        assert_eq!(seal(&number), after(Refusal::WrongNumber, 1, 0));
    }
    let short = taa1::seal_book(&upward::<{ RING_BYTES - 1 }>(), &good).err();
    assert_eq!(short, after(Refusal::WrongLength, 0, 0));

    // A refused opening counts the records that were unsealed by then.
    let sealed = taa1::seal_book(&upward::<RING_BYTES>(), &good.repeat(2));
    let third = |kind: u8| {
        [
            sealed.clone().unwrap().bytes,
            vec![kind; SEALED_RECORD_BYTES],
        ]
        .concat()
    };
    assert_eq!(open(&third(1)), after(Refusal::FlagSet, 2, 6));
    assert_eq!(open(&third(0)), after(Refusal::WrongKind, 2, 4));
}

#[test]
fn single_calls_are_refused() {
    let number = taa1::ta51(&KEY, VERSION, &ROOT, KeyNumber(32));
    assert_eq!(number, Err(Refusal::WrongNumber));
    let few = taa1::ta12(&ROOT, &KEY, 0x7000, KEY_MASK);
    assert_eq!(few, Err(Refusal::WrongMask));
    let shared = taa1::ta22(&ROOT, &KEY, 0x3c00, KEY_MASK);
    assert_eq!(shared, Err(Refusal::SharedBit));
    assert_eq!(taa1::tb1(1, 15), Err(Refusal::WrongWidth));
    assert_eq!(taa1::tb3(&ROOT, 1, 33), Err(Refusal::WrongWidth));
    assert_eq!(taa1::tb1(1 << 16, 16), Err(Refusal::ValueWide));
    assert_eq!(taa1::ta61(&KEY, 1 << 24), Err(Refusal::ValueWide));
    assert_eq!(taa1::encrypt(&KEY, b"8 bytes."), Err(Refusal::WrongLength));
    // The length goes before the width, the width before the input.
    assert_eq!(taa1::tb1_inverse(&KEY, 15), Err(Refusal::WrongLength));
    assert_eq!(taa1::tb1_inverse(&ROOT, 15), Err(Refusal::WrongWidth));
    let wide = taa1::tb3_inverse(&ROOT, &ROOT, 33);
    assert_eq!(wide, Err(Refusal::WrongWidth));
    assert_eq!(taa1::tb1_inverse(&ROOT, 16), Err(Refusal::NoInput));
    for sides in [0, 4, 259, (1 << 32) + 1, u64::MAX] {
        let made = taa1::ring(&sitting(sides));
        assert_eq!(made, Err(Refusal::WrongSides), "sides {sides}");
    }
}

#[test]
fn refusals_have_their_numbers() {
    for (refusal, number) in Refusal::ALL.into_iter().zip(1..) {
        assert_eq!(refusal.number(), number);
    }
}

#[test]
fn refusals_have_their_texts() {
    let refusal = Refusal::WrongKind;
    assert_eq!(refusal.to_string(), "refused 3 (kind not 1 to 6)");
    let refused = BookRefusal { refusal, index: 7 };
    assert_eq!(refused.to_string(), "refused 3 at 7 (kind not 1 to 6)");
    let counted = CountedRefusal {
        refusal,
        index: 7,
        runs: 14,
    };
    assert_eq!(counted.to_string(), format!("{refused}, 14 runs"));
    for refusal in Refusal::ALL {
        assert_eq!(Refusal::text(refusal.number()), refusal.name());
    }
    assert_eq!(Refusal::text(0), "accepted");
    assert_eq!(Refusal::text(20), "not in the list");
    assert_eq!(Refusal::text(u32::MAX), "not in the list");
}
