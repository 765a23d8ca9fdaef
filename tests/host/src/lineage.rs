//! The lineage sheet, from document 02, request 5.

use crate::books::{answer, count, room, BookAnswer, Refusal};
use crate::taa1::{ta11, ta21, ta41, ta71, tb4};

/// Bytes of a record.
pub const RECORD: usize = 22;
/// Bytes that a value gets in the output.
pub const VALUE: usize = 16;

/// One record of a sheet.
struct Record<'a> {
    operation: u8,
    parents: [usize; 2],
    length: u8,
    value: &'a [u8],
}

impl Record<'_> {
    fn read(bytes: &[u8]) -> Record<'_> {
        let parent = |at: usize| u16::from_be_bytes([bytes[at], bytes[at + 1]]).into();
        Record {
            operation: bytes[0],
            parents: [parent(1), parent(3)],
            length: bytes[5],
            value: &bytes[6..],
        }
    }

    /// How many bytes its value has, by the record alone.
    fn size(&self) -> usize {
        match self.operation {
            0 => self.length.into(),
            1..=3 => 16,
            _ => 10,
        }
    }

    /// Refusals 14, 15 and 16, after the records before it passed.
    fn check(&self, before: &[Record]) -> Result<(), u32> {
        let given = self.operation == 0;
        let zeros = |bytes: &[u8]| bytes.iter().all(|&byte| byte == 0);
        let filled = match (self.operation, self.length) {
            (0, 10 | 16) => self.parents == [0, 0] && zeros(&self.value[self.size()..]),
            (1..=5, 0) => zeros(self.value),
            _ => false,
        };
        let wanted = match self.operation {
            1..=3 => [16, 10],
            _ => [10, 10],
        };
        if !filled {
            Err(14)
        } else if !given && self.parents.iter().any(|&parent| parent >= before.len()) {
            Err(15)
        } else if !given && self.parents.map(|parent| before[parent].size()) != wanted {
            Err(16)
        } else {
            Ok(())
        }
    }
}

/// The value of a record that passed, along its parents. What is known is not
/// worked out again.
fn value(records: &[Record], index: usize, known: &mut [Option<Vec<u8>>]) -> Vec<u8> {
    if known[index].is_none() {
        let record = &records[index];
        known[index] = Some(match record.operation {
            0 => record.value[..record.size()].to_vec(),
            operation => {
                let [first, second] = record.parents.map(|parent| value(records, parent, known));
                match operation {
                    1 => ta11(&first, &second).bytes.to_vec(),
                    2 => ta21(&first, &second).bytes.to_vec(),
                    3 => ta41(&first, &second).bytes.to_vec(),
                    4 => tb4(&first, &second).bytes.to_vec(),
                    _ => ta71(&first, &second).bytes.to_vec(),
                }
            }
        });
    }
    known[index].clone().unwrap()
}

/// The value of each record of a sheet, with zeros after the shorter ones.
pub fn lineage(sheet: &[u8], out: &mut [u8]) -> BookAnswer {
    answer(written(sheet, out))
}

fn written(sheet: &[u8], out: &mut [u8]) -> Result<(usize, usize), Refusal> {
    let count = count(sheet.len(), RECORD)?;
    let written = room(count, VALUE, out)?;
    let records: Vec<Record> = sheet.chunks_exact(RECORD).map(Record::read).collect();
    for (index, record) in records.iter().enumerate() {
        let checked = record.check(&records[..index]);
        checked.map_err(|refusal| (refusal, index))?;
    }
    let mut known = vec![None; count];
    // The last first, so that every value but the given ones comes along its parents.
    for index in (0..count).rev() {
        let mut value = value(&records, index, &mut known);
        value.resize(VALUE, 0);
        out[VALUE * index..][..VALUE].copy_from_slice(&value);
    }
    Ok((count, written))
}

#[cfg(test)]
mod tests {
    use super::*;

    fn given(key: &[u8]) -> [u8; RECORD] {
        let mut record = [0; RECORD];
        record[5] = key.len() as u8;
        record[6..][..key.len()].copy_from_slice(key);
        record
    }

    fn made(operation: u8, first: u16, second: u16) -> [u8; RECORD] {
        let mut record = [0; RECORD];
        record[0] = operation;
        record[1..3].copy_from_slice(&first.to_be_bytes());
        record[3..5].copy_from_slice(&second.to_be_bytes());
        record
    }

    #[test]
    fn every_operation() {
        let (root, seed, other) = ([7; 16], [1, 2, 3, 4, 5, 6, 7, 8, 9, 10], [9; 10]);
        let sheet = [
            given(&root),
            given(&seed),
            given(&other),
            made(1, 0, 1),
            made(2, 3, 2),
            made(3, 0, 1),
            made(4, 1, 2),
            made(5, 6, 1),
            made(1, 4, 7),
        ];
        let padded = |value: &[u8]| {
            let mut value = value.to_vec();
            value.resize(VALUE, 0);
            value
        };
        let ks = ta11(&root, &seed).bytes;
        let deeper = ta21(&ks, &other).bytes;
        let mixed = tb4(&seed, &other).bytes;
        let derived = ta71(&mixed, &seed).bytes;
        let wanted = [
            padded(&root),
            padded(&seed),
            padded(&other),
            padded(&ks),
            padded(&deeper),
            padded(&ks),
            padded(&mixed),
            padded(&derived),
            padded(&ta11(&deeper, &derived).bytes),
            vec![0x55; 3],
        ];
        let mut out = [0x55; 9 * VALUE + 3];
        let accepted = BookAnswer {
            refusal: 0,
            index: 9,
            written: 9 * VALUE,
        };
        assert_eq!(lineage(&sheet.concat(), &mut out), accepted);
        assert_eq!(out[..], wanted.concat());
    }

    #[test]
    fn refusals_in_order() {
        let refused = |sheet: &[u8], room: usize| {
            let mut out = [0x77; 4 * VALUE];
            let answer = lineage(sheet, &mut out[..room]);
            assert_eq!(out, [0x77; 4 * VALUE]);
            assert_eq!(answer.written, 0);
            (answer.refusal, answer.index)
        };
        assert_eq!(refused(&[0xff; 1024 * RECORD + 1], 0), (1, 0));
        assert_eq!(refused(&[0xff; 1024 * RECORD - 1], 0), (2, 0));
        assert_eq!(refused(&[0xff; 2 * RECORD], 31), (12, 0));
        let with = |third: [u8; RECORD]| {
            let sheet = [given(&[1; 16]), given(&[2; 10]), third, [0xff; RECORD]];
            refused(&sheet.concat(), 4 * VALUE)
        };
        assert_eq!(with(given(&[3; 10])), (14, 3));
        assert_eq!(with(given(&[3; 11])), (14, 2));
        assert_eq!(with(made(0, 0, 1)), (14, 2));
        assert_eq!(with(made(6, 0, 1)), (14, 2));
        let mut unfilled = made(1, 2, 2);
        unfilled[21] = 1;
        assert_eq!(with(unfilled), (14, 2));
        assert_eq!(with(made(1, 2, 0)), (15, 2));
        assert_eq!(with(made(4, 0, 2)), (15, 2));
        assert_eq!(with(made(1, 1, 1)), (16, 2));
        assert_eq!(with(made(5, 1, 0)), (16, 2));
        assert_eq!(with(made(1, 0, 1)), (14, 3));
    }

    /// Along one parent each, and both: an unremembered walk would never end.
    #[test]
    fn long_chains_end() {
        let mut sheet = vec![given(&[1; 16]), given(&[2; 10])];
        for index in 2..1024 {
            sheet.push(made(4 + (index % 2) as u8, index - 1, index - 1));
        }
        let mut out = [0; 1024 * VALUE];
        assert_eq!(lineage(&sheet.concat(), &mut out).refusal, 0);
        assert_eq!(out[2 * VALUE..3 * VALUE], [0; VALUE]);
        assert_ne!(out[3 * VALUE..4 * VALUE], [0; VALUE]);
    }
}
