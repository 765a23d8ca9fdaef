//! Lineage sheets that are right, and records that are wrong in one.

use crate::lineage::RECORD;
use crate::random::Random;
use std::array::from_fn;

pub type Record = [u8; RECORD];

/// A record that holds a key.
pub fn given(key: &[u8]) -> Record {
    from_fn(|i| match i {
        5 => key.len() as u8,
        6.. if i - 6 < key.len() => key[i - 6],
        _ => 0,
    })
}

/// A record of two parents.
pub fn made(operation: u8, [first, second]: [usize; 2]) -> Record {
    let mut record = [0; RECORD];
    record[0] = operation;
    record[1..3].copy_from_slice(&(first as u16).to_be_bytes());
    record[3..5].copy_from_slice(&(second as u16).to_be_bytes());
    record
}

/// Bytes of a right record's value.
pub fn size(record: &Record) -> usize {
    match record[0] {
        0 => record[5].into(),
        1..=3 => 16,
        _ => 10,
    }
}

/// Where the records of a sheet have their parents: anywhere, close before them, or
/// at the sheet's start.
#[derive(Clone, Copy)]
pub enum Shape {
    Tree,
    Chain,
    Star,
}

pub const SHAPES: [Shape; 3] = [Shape::Tree, Shape::Chain, Shape::Star];

/// The index of a record before that has a value of so many bytes.
fn parent(random: &mut Random, shape: Shape, before: &[Record], wanted: usize) -> usize {
    let right: Vec<usize> = (0..before.len())
        .filter(|&i| size(&before[i]) == wanted)
        .collect();
    let some = match shape {
        Shape::Tree => &right[..],
        Shape::Chain => &right[right.len().saturating_sub(2)..],
        Shape::Star => &right[..right.len().min(2)],
    };
    some[random.below(some.len())]
}

/// A right sheet. The first two records are given; in a tree others are, too.
pub fn sheet(random: &mut Random, shape: Shape, count: usize) -> Vec<Record> {
    let mut sheet = vec![given(&random.bytes::<16>()), given(&random.bytes::<10>())];
    while sheet.len() < count {
        let operation = match shape {
            Shape::Tree => random.below(6),
            _ => 1 + random.below(5),
        };
        let sizes = [if operation < 4 { 16 } else { 10 }, 10];
        let parents = sizes.map(|size| parent(random, shape, &sheet, size));
        let (length, key) = ([10, 16][random.below(2)], random.bytes::<16>());
        sheet.push(match operation {
            0 => given(&key[..length]),
            _ => made(operation as u8, parents),
        });
    }
    sheet.truncate(count);
    sheet
}

/// Wrong records for an index above 1 of a sheet whose first two records have 16
/// and 10 bytes, with the first refusal that applies.
pub fn wrong(index: usize) -> Vec<(u32, Record)> {
    let changed = |mut record: Record, at: usize, byte: u8| {
        record[at] = byte;
        (14, record)
    };
    let mut wrong = Vec::new();
    for operation in [6, 7, 128, 255] {
        wrong.push((14, made(operation, [0, 1])));
    }
    for length in [0, 1, 9, 11, 15, 17, 26, 255] {
        wrong.push(changed(given(&[7; 10]), 5, length));
    }
    for key in [&[7; 10][..], &[7; 16]] {
        for at in 1..5 {
            wrong.push(changed(given(key), at, 1));
        }
    }
    for at in 16..RECORD {
        wrong.push(changed(given(&[7; 10]), at, 0x80));
    }
    let behind = [index, index + 1, 256 + index, usize::from(u16::MAX)];
    for operation in 1..=5 {
        let right = if operation < 4 { [0, 1] } else { [1, 1] };
        for (at, byte) in (5..RECORD).zip([10, 16, 1, 0xff].into_iter().cycle()) {
            wrong.push(changed(made(operation, right), at, byte));
            wrong.push(changed(made(operation, [index, index]), at, byte));
        }
        for parent in behind {
            for other in [0, 1, parent] {
                wrong.push((15, made(operation, [parent, other])));
                wrong.push((15, made(operation, [other, parent])));
            }
        }
        for parents in [[0, 0], [0, 1], [1, 0], [1, 1]] {
            if parents != right {
                wrong.push((16, made(operation, parents)));
            }
        }
    }
    wrong
}
