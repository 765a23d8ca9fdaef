//! Books: sealing, opening, and the check of a plain book.

use crate::edges::{self, counts, rooms};
use host::both::{check_plain, sealed, Call, MOST, OPEN, PLAIN, RING, SEAL, SEALED};
use host::damaged::{self, flipped, under_version};
use host::engine::{self, null};
use host::random::Random;
use host::taa1::{exp1, exp3, exp4, x16};
use host::tally::{Group, Tally};
use std::array::from_fn;

const KINDS: [u8; 6] = [1, 2, 3, 4, 5, 6];

/// The length of a ring without a group key.
const SHORT_RING: usize = 36;

/// Kinds with the last two bytes of their bodies: a right one of each kind, wrong
/// kinds, bytes that must be zero and are not, and numbers above 31.
const ENDS: [(u8, [u8; 2]); 20] = [
    (1, [0, 0]),
    (2, [0, 31]),
    (3, [255, 255]),
    (4, [1, 32]),
    (5, [0, 31]),
    (6, [255, 255]),
    (0, [0, 0]),
    (7, [0, 32]),
    (255, [1, 32]),
    (1, [0, 1]),
    (1, [1, 0]),
    (1, [1, 32]),
    (2, [0, 32]),
    (2, [0, 255]),
    (2, [1, 0]),
    (2, [1, 32]),
    (5, [0, 32]),
    (5, [0, 255]),
    (5, [1, 0]),
    (5, [1, 32]),
];

/// A ring, a plain book and its sealed form.
struct Book {
    ring: [u8; RING],
    plain: Vec<u8>,
    sealed: Vec<u8>,
}

impl Book {
    fn new(ring: [u8; RING], plain: Vec<u8>) -> Self {
        let sealed = sealed(&ring, &plain);
        Book {
            ring,
            plain,
            sealed,
        }
    }

    fn random(random: &mut Random, records: usize) -> Self {
        Book::new(random.bytes(), random.plain_book(records))
    }

    /// One record of each of these kinds.
    fn of_kinds(random: &mut Random, kinds: impl IntoIterator<Item = u8>) -> Self {
        let plain = kinds.into_iter().flat_map(|kind| random.record(kind));
        let plain = plain.collect();
        Book::new(random.bytes(), plain)
    }

    /// Both forms, each with the call that takes it.
    fn forms(&self) -> [(&'static Call, &[u8]); 2] {
        [(&SEAL, &self.plain), (&OPEN, &self.sealed)]
    }
}

pub fn run(tally: &mut Tally, random: &mut Random) {
    tally.group("books (random)", |group| {
        for _ in 0..10_000 {
            let records = random.below(9);
            let book = Book::random(random, records);
            for (call, bytes) in book.forms() {
                let room = (call.room(bytes) + random.below(40)).saturating_sub(2);
                call.compare(group, &book.ring, bytes, room);
            }
            check_plain(group, &book.plain);
        }
    });
    tally.group("books (there and back)", |group| {
        for _ in 0..5_000 {
            let records = random.below(9);
            let book = Book::random(random, records);
            if group.turn() {
                SEAL.want(group, &book.ring, &book.plain, &book.sealed);
                OPEN.want(group, &book.ring, &book.sealed, &book.plain);
            }
        }
    });
    tally.group("books (numbers of records and outputs)", |group| {
        for records in counts().chain([17]) {
            let book = Book::random(random, records);
            for (call, bytes) in book.forms() {
                for room in rooms(call.room(bytes)) {
                    call.compare(group, &book.ring, bytes, room);
                }
            }
            check_plain(group, &book.plain);
        }
    });
    tally.group("books (each kind at every place)", |group| {
        for records in counts() {
            for first in 0..KINDS.len() {
                // Kinds in turn, and one kind all through.
                for step in [1, KINDS.len()] {
                    let kinds = KINDS.into_iter().cycle().skip(first).step_by(step);
                    let book = Book::of_kinds(random, kinds.take(records));
                    plain(group, &book.ring, &book.plain);
                    OPEN.there_and_back(group, &book.ring, &book.sealed);
                }
            }
        }
    });
    tally.group("books (lengths)", |group| lengths(group, random));
    tally.group("books (rings, lengths and outputs at once)", |group| {
        orders(group, random);
    });
    tally.group("books (rings of every other length)", |group| {
        let bytes = random.bytes::<{ 2 * RING }>();
        let book = Book::of_kinds(random, KINDS);
        for length in (0..RING).chain(RING + 1..=2 * RING) {
            for (call, records) in book.forms() {
                for records in [records, &[]] {
                    let room = call.room(records);
                    call.want_refused(group, &bytes[..length], records, room, (11, 0, 0));
                    call.want_refused(group, &bytes[..length], records, 0, (11, 0, 0));
                }
            }
        }
    });
    tally.group("books (three records, faults in any)", |group| {
        faults(group, random);
    });
    tally.group("books (faults at every place)", |group| {
        for records in 1..=9 {
            placed_faults(group, random, records);
        }
    });
    tally.group("books (faults in a long book)", |group| {
        for records in MOST - 3..=MOST {
            long_faults(group, random, records);
        }
    });
    tally.group("books (runs of refused ones, at every index)", |group| {
        for records in (1..=9).chain([40, MOST]) {
            runs(group, &Book::random(random, records));
        }
    });
    record_groups(tally, random);
    damage_groups(tally, random);
    tally.group("books (zeros, ones, single bits)", |group| {
        let book = Book::of_kinds(random, KINDS);
        for ring in edges::strings::<RING>() {
            for (call, bytes) in book.forms() {
                call.there_and_back(group, &ring, bytes);
            }
        }
        for mut record in edges::strings::<PLAIN>() {
            for kind in KINDS {
                record[0] = kind;
                plain(group, &book.ring, &record);
            }
        }
        for mut record in edges::strings::<SEALED>() {
            for kind in KINDS {
                record[0] = kind;
                OPEN.there_and_back(group, &book.ring, &record);
            }
        }
    });
    tally.group("books (garbage)", |group| {
        for i in 0..20_000 {
            let (ring, length) = (random.bytes::<RING>(), random.below(130));
            let mut bytes = random.vec(length);
            if i % 2 == 0 {
                // The kinds at least are right, wherever a record may start.
                for byte in bytes.iter_mut().step_by(3) {
                    *byte = 1 + *byte % 6;
                }
            }
            for call in [&SEAL, &OPEN] {
                call.there_and_back(group, &ring, &bytes);
                call.there_and_back(group, &ring, &bytes[..length - length % call.from]);
            }
            check_plain(group, &bytes);
            check_plain(group, &bytes[..length - length % PLAIN]);
        }
    });
}

/// Every comparison of a plain book but those of short outputs.
fn plain(group: &mut Group, ring: &[u8], plain: &[u8]) {
    SEAL.there_and_back(group, ring, plain);
    check_plain(group, plain);
}

fn lengths(group: &mut Group, random: &mut Random) {
    let book = Book::random(random, MOST + 3);
    let around = |length| length - 30..length + 50;
    let some = (0..=64)
        .chain(around(PLAIN * MOST))
        .chain(around(SEALED * MOST));
    for length in some {
        for (call, bytes) in book.forms() {
            if let Some(bytes) = bytes.get(..length) {
                for room in rooms(call.room(bytes)) {
                    call.compare(group, &book.ring, bytes, room);
                }
            }
        }
        if let Some(plain) = book.plain.get(..length) {
            check_plain(group, plain);
        }
    }
    // Lengths whose low bits would be right.
    let zeros = vec![0; (1 << 24) + PLAIN * SEALED];
    for bits in [15, 16, 20, 24] {
        for length in [0, PLAIN, SEALED, PLAIN * SEALED] {
            let bytes = &zeros[..(1 << bits) + length];
            for call in [&SEAL, &OPEN] {
                for room in [0, 1 << 15] {
                    call.compare(group, &book.ring, bytes, room);
                }
            }
            check_plain(group, bytes);
        }
    }
}

/// Refusals 11, 1, 2, 12 and 3, alone and together.
fn orders(group: &mut Group, random: &mut Random) {
    let mut book = Book::random(random, MOST + 1);
    let bytes = random.bytes::<{ 256 + RING }>();
    let lengths = [
        0,
        1,
        SHORT_RING,
        RING - 1,
        RING,
        RING + 1,
        2 * RING,
        256 + RING,
    ];
    let rings = lengths.map(|length| &bytes[..length]);
    for round in 0..2 {
        for ring in rings.into_iter().chain([null(), &book.ring]) {
            for (call, bytes) in book.forms() {
                let long = MOST * call.from;
                for length in [
                    0,
                    1,
                    call.from,
                    call.from + 1,
                    long - 1,
                    long,
                    long + 1,
                    long + call.from,
                ] {
                    for room in rooms(call.room(&bytes[..length])) {
                        call.compare(group, ring, &bytes[..length], room);
                    }
                }
                for room in [0, 1] {
                    call.compare(group, ring, null(), room);
                }
            }
        }
        check_plain(group, null());
        if round == 0 {
            book.plain[0] = 0;
            book.sealed[0] = 0;
        }
    }
}

fn with_end(random: &mut Random, (kind, end): (u8, [u8; 2])) -> [u8; PLAIN] {
    let mut record = random.bytes();
    record[0] = kind;
    record[16..].copy_from_slice(&end);
    record
}

/// The first record with a fault decides, and in it 3 comes before 4 and 5 or 6.
fn faults(group: &mut Group, random: &mut Random) {
    let ring = random.bytes::<RING>();
    for all in 0..ENDS.len().pow(3) {
        let ends = from_fn::<_, 3, _>(|i| ENDS[all / ENDS.len().pow(i as u32) % ENDS.len()]);
        let book = ends.map(|end| with_end(random, end)).concat();
        plain(group, &ring, &book);
    }
    let records = sealed_records(random, &ring);
    for first in &records {
        for second in &records {
            for third in &records {
                OPEN.there_and_back(group, &ring, &[*first, *second, *third].concat());
            }
        }
    }
}

/// A right sealed record of each kind; the same with a wrong text; some with a
/// wrong version, with another kind and with the kind that has the same body; wrong
/// kinds with right and with wrong texts.
fn sealed_records(random: &mut Random, ring: &[u8; RING]) -> Vec<[u8; SEALED]> {
    let right = KINDS.map(|kind| {
        let sealed = sealed(ring, &random.record(kind));
        from_fn::<u8, SEALED, _>(|i| sealed[i])
    });
    let mut records = right.to_vec();
    for record in right {
        records.push(flipped(record, 8 * SEALED - 1));
    }
    for (kind, at, byte) in [
        (1, 5, 1),
        (5, 5, 1),
        (1, 0, 2),
        (2, 0, 5),
        (6, 0, 3),
        (1, 0, 0),
        (1, 0, 7),
    ] {
        let mut record = right[kind - 1];
        record[at] = byte;
        records.push(record);
    }
    let mut record = random.bytes();
    record[0] = 255;
    records.push(record);
    records
}

/// Each fault at every place, alone and with each fault after it.
fn placed_faults(group: &mut Group, random: &mut Random, records: usize) {
    let book = Book::random(random, records);
    let wrong_ends = ENDS[KINDS.len()..].iter();
    let wrong_plain = wrong_ends.flat_map(|end| with_end(random, *end)).collect();
    let wrong_sealed = sealed_records(random, &book.ring)[KINDS.len()..].concat();
    for ((call, bytes), wrong) in book.forms().into_iter().zip([wrong_plain, wrong_sealed]) {
        for first in 0..records {
            for second in first..records {
                for fault in wrong.chunks(call.from) {
                    // At the same place only the first fault stands.
                    let others = if second == first { 1 } else { wrong.len() };
                    for other in wrong.chunks(call.from).take(others) {
                        let mut list: Vec<&[u8]> = bytes.chunks(call.from).collect();
                        list[second] = other;
                        list[first] = fault;
                        let bytes = list.concat();
                        call.compare(group, &book.ring, &bytes, call.room(&bytes));
                        if call.from == PLAIN {
                            check_plain(group, &bytes);
                        }
                    }
                }
            }
        }
    }
}

fn long_faults(group: &mut Group, random: &mut Random, records: usize) {
    let book = Book::random(random, records);
    let places: Vec<usize> = (0..4)
        .chain([MOST / 2])
        .chain(records - 4..records)
        .collect();
    for &first in &places {
        for end in &ENDS[KINDS.len()..] {
            let mut bytes = book.plain.clone();
            bytes[PLAIN * first..][..PLAIN].copy_from_slice(&with_end(random, *end));
            // A second fault, of a lower number, here or elsewhere.
            bytes[PLAIN * places[random.below(places.len())]] = 0;
            plain(group, &book.ring, &bytes);
        }
        for second in &places {
            let mut bytes = book.sealed.clone();
            bytes[SEALED * first + 6 + random.below(15)] ^= 1;
            OPEN.there_and_back(group, &book.ring, &bytes);
            bytes[SEALED * second] = 9;
            OPEN.there_and_back(group, &book.ring, &bytes);
        }
    }
}

/// Faults in every record from an index on. The record whose flag is set counts, one
/// of a wrong kind does not, nor do those after it; what is not sealed counts nothing.
fn runs(group: &mut Group, book: &Book) {
    let Book {
        ring,
        plain,
        sealed,
    } = book;
    let wrong = plain.chunks_exact(PLAIN).flat_map(|record| {
        let record = from_fn(|i| record[i]);
        let (key, bytes) = expanded(ring, &record);
        resealed(&record, &key, flipped(bytes, 8 * 15 - 1))
    });
    let wrong: Vec<u8> = wrong.collect();
    let (room, plain_room) = (SEAL.room(plain), OPEN.room(sealed));
    for index in 0..plain.len() / PLAIN {
        let mut bytes = plain.clone();
        bytes[PLAIN * index..].fill(2);
        SEAL.want_refused(group, ring, &bytes, room, (4, index, 0));
        bytes[PLAIN * index + 16..][..2].copy_from_slice(&[0, 32]);
        SEAL.want_refused(group, ring, &bytes, room, (5, index, 0));
        bytes[PLAIN * index] = 0;
        SEAL.want_refused(group, ring, &bytes, room, (3, index, 0));

        let mut bytes = [&sealed[..SEALED * index], &wrong[SEALED * index..]].concat();
        let runs = 2 * index;
        OPEN.want_refused(group, ring, &bytes, plain_room, (6, index, runs + 2));
        bytes[SEALED * index] = 7;
        OPEN.want_refused(group, ring, &bytes, plain_room, (3, index, runs));
        OPEN.want_refused(group, ring, &bytes, plain_room - 1, (12, 0, 0));
    }
}

fn record_groups(tally: &mut Tally, random: &mut Random) {
    tally.group("books (every kind byte)", |group| {
        let records = 7; // four, and a rest of three
        let book = Book::random(random, records);
        for kind in 0..=255 {
            for i in 0..records {
                for (call, bytes) in book.forms() {
                    let mut bytes = bytes.to_vec();
                    bytes[call.from * i] = kind;
                    call.there_and_back(group, &book.ring, &bytes);
                }
                let mut bytes = book.plain.clone();
                bytes[PLAIN * i] = kind;
                check_plain(group, &bytes);
            }
        }
    });
    tally.group("books (every end of a body)", |group| {
        let ring = random.bytes::<RING>();
        for kind in KINDS {
            for byte in 0..=255 {
                for other in [0, 1, 31, 32, 255] {
                    for end in [[byte, other], [other, byte]] {
                        let records = [(3, [0, 0]), (kind, end)];
                        let book = records.map(|end| with_end(random, end)).concat();
                        plain(group, &ring, &book);
                    }
                }
            }
        }
    });
    tally.group("books (every sealed number byte)", |group| {
        for i in 0..20 {
            let (ring, record) = (random.bytes(), random.record([2, 5][i % 2]));
            for byte in 0..=255 {
                let (key, mut bytes) = expanded(&ring, &record);
                bytes[14] ^= bytes[13] ^ byte; // its check byte stays right
                bytes[13] = byte;
                OPEN.there_and_back(group, &ring, &resealed(&record, &key, bytes));
            }
        }
    });
    tally.group("books (beside the single calls)", |group| {
        for _ in 0..2_000 {
            let ring = random.bytes();
            for kind in KINDS {
                let record = random.record(kind);
                if group.turn() {
                    let sealed = composed(&ring, &record);
                    SEAL.want(group, &ring, &record, &sealed);
                    OPEN.want(group, &ring, &sealed, &record);
                }
            }
        }
    });
}

/// The sealed record that the engine's single calls make of a well-formed one.
fn composed(ring: &[u8; RING], record: &[u8; PLAIN]) -> [u8; SEALED] {
    let (d, o, c, g) = (&ring[..10], &ring[10..26], &ring[26..36], &ring[36..]);
    let (head, body) = record.split_at(6);
    let two = |at: usize| u16::from_be_bytes([record[at], record[at + 1]]);
    let (key, version, number) = (&body[..10], two(4).into(), two(16).into());
    let text = match record[0] {
        1 => engine::ta31(key, version, d),
        2 => engine::ta51(key, version, o, number),
        3 => engine::ta81(key, version, o, number),
        4 => engine::ta91(body, version, o),
        5 => engine::ta51(key, version, g, number),
        _ => engine::ta81(key, version, g, number),
    };
    let identity = u32::from_be_bytes([0, head[1], head[2], head[3]]);
    let identity = engine::ta61(c, identity.into()).identity.to_be_bytes();
    from_fn(|i| match i {
        1..=3 => identity[i],
        0 | 4 | 5 => head[i],
        _ => text.bytes[i - 6],
    })
}

fn damage_groups(tally: &mut Tally, random: &mut Random) {
    tally.group("books (each byte changed to every other)", |group| {
        let book = Book::of_kinds(random, KINDS);
        for (call, bytes) in book.forms() {
            for at in 0..bytes.len() {
                for change in 1..=255 {
                    let mut bytes = bytes.to_vec();
                    bytes[at] ^= change;
                    call.there_and_back(group, &book.ring, &bytes);
                    if call.from == PLAIN {
                        check_plain(group, &bytes);
                    }
                }
            }
        }
    });
    tally.group("books (each bit of a sealed record flipped)", |group| {
        for _ in 0..20 {
            let ring = random.bytes();
            for record in &sealed_records(random, &ring)[..KINDS.len()] {
                for bit in 0..8 * SEALED {
                    OPEN.there_and_back(group, &ring, &flipped(*record, bit));
                }
            }
        }
    });
    tally.group("books (each bit flipped before sealing)", |group| {
        for _ in 0..20 {
            let ring = random.bytes();
            for kind in KINDS {
                let record = random.record(kind);
                let (key, bytes) = expanded(&ring, &record);
                for bit in 0..8 * 15 {
                    let record = resealed(&record, &key, flipped(bytes, bit));
                    OPEN.there_and_back(group, &ring, &record);
                }
            }
        }
    });
    tally.group("books (each bit of the ring flipped)", |group| {
        let book = Book::of_kinds(random, KINDS);
        for bit in 0..8 * RING {
            let ring = flipped(book.ring, bit);
            for (call, bytes) in book.forms() {
                for record in bytes.chunks(call.from) {
                    call.there_and_back(group, &ring, record);
                }
            }
        }
    });
}

/// What the cipher gets for a well-formed record: its key, and the record's key
/// and number with their check bytes.
fn expanded(ring: &[u8; RING], record: &[u8; PLAIN]) -> ([u8; 16], [u8; 15]) {
    let version = u16::from_be_bytes([record[4], record[5]]);
    let body: [u8; 12] = from_fn(|i| record[6 + i]);
    let d = under_version(from_fn(|i| ring[i]), version);
    let at = if record[0] < 5 { 10 } else { 36 };
    let long = under_version(from_fn(|i| ring[at + i]), version);
    match record[0] {
        1 => (exp4(&d), exp1(&from_fn(|i| body[i]))),
        2 | 5 => (long, exp3(&from_fn(|i| body[if i < 10 { i } else { 11 }]))),
        _ => (long, from_fn(|i| x16(&body)[i])),
    }
}

/// A sealed record of these bytes, whether their check bytes are right or not.
/// The identity needs no care: any three bytes are some identity's.
fn resealed(record: &[u8; PLAIN], key: &[u8; 16], bytes: [u8; 15]) -> [u8; SEALED] {
    let text = damaged::sealed(key, bytes);
    from_fn(|i| if i < 6 { record[i] } else { text[i - 6] })
}
