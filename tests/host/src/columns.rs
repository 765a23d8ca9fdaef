//! Books filed by column, from document 02, request 9.

use crate::books::{answer, count, room, BookAnswer, PLAIN, SEALED};

/// Byte 0 of each record, in their order, then byte 1 of each, up to the last.
fn by_column(records: &[u8], size: usize) -> Vec<u8> {
    let column = |place| records.iter().skip(place).step_by(size);
    (0..size).flat_map(column).copied().collect()
}

/// The first byte of every column, then the second of every column, and so on.
fn by_record(columns: &[u8], size: usize) -> Vec<u8> {
    by_column(columns, columns.len() / size)
}

fn filed(
    book: &[u8],
    size: usize,
    out: &mut [u8],
    rearranged: fn(&[u8], usize) -> Vec<u8>,
) -> BookAnswer {
    answer(count(book.len(), size).and_then(|records| {
        let written = room(records, size, out)?;
        out[..written].copy_from_slice(&rearranged(book, size));
        Ok((records, written))
    }))
}

pub fn plain_to_columns(plain: &[u8], out: &mut [u8]) -> BookAnswer {
    filed(plain, PLAIN, out, by_column)
}

pub fn plain_from_columns(columns: &[u8], out: &mut [u8]) -> BookAnswer {
    filed(columns, PLAIN, out, by_record)
}

pub fn sealed_to_columns(sealed: &[u8], out: &mut [u8]) -> BookAnswer {
    filed(sealed, SEALED, out, by_column)
}

pub fn sealed_from_columns(columns: &[u8], out: &mut [u8]) -> BookAnswer {
    filed(columns, SEALED, out, by_record)
}

#[cfg(test)]
mod tests {
    use super::*;

    #[test]
    fn three_records_of_four_bytes() {
        let records = b"abcdABCD0123";
        let columns = b"aA0bB1cC2dD3";
        assert_eq!(by_column(records, 4), columns);
        assert_eq!(by_record(columns, 4), records);
        assert_eq!(by_column(b"", 4), b"");
        assert_eq!(by_record(b"", 4), b"");
    }

    #[test]
    fn each_undoes_the_other() {
        for size in 1..30 {
            for records in 0..30 {
                let bytes: Vec<u8> = (0..size * records).map(|i| (i * 31 / 7) as u8).collect();
                assert_eq!(by_record(&by_column(&bytes, size), size), bytes);
                assert_eq!(by_column(&by_record(&bytes, size), size), bytes);
            }
        }
    }

    #[test]
    fn refusals_in_order() {
        let refused = |book: &[u8], room| {
            let mut out = [0x77; 2 * PLAIN];
            let answer = plain_to_columns(book, &mut out[..room]);
            assert_eq!(out, [0x77; 2 * PLAIN]);
            assert_eq!((answer.index, answer.written), (0, 0));
            answer.refusal
        };
        assert_eq!(refused(&[1; 1024 * PLAIN + 1], 0), 1);
        assert_eq!(refused(&[1; 1024 * PLAIN - 1], 0), 2);
        assert_eq!(refused(&[1; 2 * PLAIN], 2 * PLAIN - 1), 12);
        let mut out = [0x77; 2 * PLAIN + 1];
        let accepted = BookAnswer {
            refusal: 0,
            index: 2,
            written: 2 * PLAIN,
        };
        assert_eq!(plain_from_columns(&[0xff; 2 * PLAIN], &mut out), accepted);
        assert_eq!(out[..2 * PLAIN], [0xff; 2 * PLAIN]);
        assert_eq!(out[2 * PLAIN], 0x77);
    }
}
