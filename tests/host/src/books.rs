//! Books of sealed keys and their listing, from document 01 and, for the group key
//! and its kinds and for the count of cipher runs, 02, 4 and 8.

use crate::hurdle;
use crate::taa1::{self, exact, k_strings, KStrings, RING};
use std::fmt::Write;

/// Most records in a book.
const MOST: usize = 1024;
/// Bytes of a plain record.
pub(crate) const PLAIN: usize = 18;
/// Bytes of a sealed record.
pub(crate) const SEALED: usize = 21;

/// Answer of a book call. `index` is the offending record's on a refusal,
/// the number of records otherwise.
#[derive(Debug, Clone, Copy, PartialEq, Eq)]
pub struct BookAnswer {
    pub refusal: u32,
    pub index: usize,
    pub written: usize,
}

/// The same of sealing and opening, with the runs of the cipher.
#[derive(Debug, Clone, Copy, PartialEq, Eq)]
pub struct CountedAnswer {
    pub refusal: u32,
    pub index: usize,
    pub written: usize,
    pub runs: usize,
}

/// A refusal number and a record's index.
pub(crate) type Refusal = (u32, usize);

/// The four keys of a ring.
struct Ring<'a> {
    d: &'a [u8],
    o: &'a [u8],
    c: &'a [u8],
    g: &'a [u8],
}

impl<'a> Ring<'a> {
    fn of(ring: &'a [u8]) -> Result<Ring<'a>, Refusal> {
        if ring.len() != RING {
            return Err((11, 0));
        }
        let (d, rest) = ring.split_at(10);
        let (o, rest) = rest.split_at(16);
        let (c, g) = rest.split_at(10);
        Ok(Ring { d, o, c, g })
    }

    /// What hides identities, by one run of the cipher.
    fn strings(&self) -> KStrings {
        k_strings(&exact(self.c).expect("ten bytes"))
    }

    /// The key that seals a kind.
    fn sealing_key(&self, kind: u8) -> &'a [u8] {
        match kind {
            1 => self.d,
            2..=4 => self.o,
            _ => self.g,
        }
    }
}

/// One plain record.
struct Record {
    kind: u8,
    identity: u64,
    version: u16,
    body: [u8; 12],
}

impl Record {
    fn read(bytes: &[u8]) -> Record {
        let mut body = [0; 12];
        body.copy_from_slice(&bytes[6..PLAIN]);
        let (identity, version) = head(bytes);
        Record {
            kind: bytes[0],
            identity,
            version,
            body,
        }
    }

    fn write(&self) -> Vec<u8> {
        joined(self.kind, self.identity, self.version, &self.body)
    }

    /// The last two bytes of the body as a number.
    fn number(&self) -> u16 {
        u16::from_be_bytes([self.body[10], self.body[11]])
    }

    /// The key's bytes.
    fn key(&self) -> &[u8] {
        &self.body[..if self.kind == 4 { 12 } else { 10 }]
    }

    /// Refusals 3, 4 and 5.
    fn check(&self) -> Result<(), u32> {
        let [high, low] = self.number().to_be_bytes();
        match self.kind {
            1 if (high, low) != (0, 0) => Err(4),
            2 | 5 if high != 0 => Err(4),
            2 | 5 if low > 31 => Err(5),
            1..=6 => Ok(()),
            _ => Err(3),
        }
    }

    /// The sealed record of a record without fault.
    fn seal(&self, ring: &Ring, strings: &KStrings) -> Vec<u8> {
        let (key, sealing_key) = (self.key(), ring.sealing_key(self.kind));
        let text = match self.kind {
            1 => taa1::ta31(key, self.version, sealing_key),
            2 | 5 => taa1::ta51(key, self.version, sealing_key, self.number()),
            3 | 6 => taa1::ta81(key, self.version, sealing_key, self.number()),
            _ => taa1::ta91(key, self.version, sealing_key),
        };
        let identity = strings.hide(self.identity).into();
        joined(self.kind, identity, self.version, &text.bytes)
    }

    /// Unseals a sealed record; refusals 3 and 6. The identity stays hidden.
    fn unseal(sealed: &[u8], ring: &Ring) -> Result<Record, u32> {
        let kind = sealed[0];
        let (identity, version) = head(sealed);
        let (text, sealing_key) = (&sealed[6..], ring.sealing_key(kind));
        let (key, number, failed_checks) = match kind {
            1 => {
                let opened = taa1::ta32(text, sealing_key, version);
                (
                    opened.key.to_vec(),
                    0u16.to_be_bytes().to_vec(),
                    opened.failed_checks,
                )
            }
            2 | 3 | 5 | 6 => {
                let unseal = match kind {
                    2 | 5 => taa1::ta52,
                    _ => taa1::ta82,
                };
                let opened = unseal(text, sealing_key, version);
                (
                    opened.key.to_vec(),
                    opened.number.to_be_bytes().to_vec(),
                    opened.failed_checks,
                )
            }
            4 => {
                let opened = taa1::ta92(text, sealing_key, version);
                (opened.key.to_vec(), Vec::new(), opened.failed_checks)
            }
            _ => return Err(3),
        };
        if failed_checks != 0 {
            return Err(6);
        }
        let mut body = [0; 12];
        body.copy_from_slice(&[key, number].concat());
        Ok(Record {
            kind,
            identity,
            version,
            body,
        })
    }
}

/// Identity and version, which stand alike in both forms.
fn head(record: &[u8]) -> (u64, u16) {
    let identity = record[1..4].iter().fold(0, |n, &b| n << 8 | u64::from(b));
    (identity, u16::from_be_bytes([record[4], record[5]]))
}

/// The bytes of a record of either form.
fn joined(kind: u8, identity: u64, version: u16, rest: &[u8]) -> Vec<u8> {
    [
        &[kind],
        &identity.to_be_bytes()[5..],
        &version.to_be_bytes(),
        rest,
    ]
    .concat()
}

/// The number of records; refusals 1 and 2.
pub(crate) fn count(length: usize, size: usize) -> Result<usize, Refusal> {
    let (records, rest) = (length / size, length % size);
    if length > MOST * size {
        Err((1, 0))
    } else if rest > 0 {
        Err((2, 0))
    } else {
        Ok(records)
    }
}

/// The bytes of so many records; refusal 12.
pub(crate) fn room(records: usize, size: usize, out: &[u8]) -> Result<usize, Refusal> {
    let bytes = records * size;
    if out.len() < bytes {
        Err((12, 0))
    } else {
        Ok(bytes)
    }
}

pub(crate) fn answer(outcome: Result<(usize, usize), Refusal>) -> BookAnswer {
    match outcome {
        Ok((index, written)) => BookAnswer {
            refusal: 0,
            index,
            written,
        },
        Err((refusal, index)) => BookAnswer {
            refusal,
            index,
            written: 0,
        },
    }
}

/// An answer with the runs of the cipher that the call took.
fn counted(call: impl FnOnce() -> Result<(usize, usize), Refusal>) -> CountedAnswer {
    let before = hurdle::runs();
    let BookAnswer {
        refusal,
        index,
        written,
    } = answer(call());
    CountedAnswer {
        refusal,
        index,
        written,
        runs: hurdle::runs() - before,
    }
}

/// A plain book's records, if it is well formed.
fn records(plain: &[u8]) -> Result<Vec<Record>, Refusal> {
    count(plain.len(), PLAIN)?;
    let one = |(index, bytes)| {
        let record = Record::read(bytes);
        record.check().map_err(|refusal| (refusal, index))?;
        Ok(record)
    };
    plain.chunks_exact(PLAIN).enumerate().map(one).collect()
}

/// Seals a plain book.
pub fn seal_book(ring: &[u8], plain: &[u8], out: &mut [u8]) -> CountedAnswer {
    counted(|| {
        let ring = Ring::of(ring)?;
        let count = count(plain.len(), PLAIN)?;
        let written = room(count, SEALED, out)?;
        let records = records(plain)?;
        if count > 0 {
            let strings = ring.strings();
            for (record, place) in records.iter().zip(out.chunks_exact_mut(SEALED)) {
                place.copy_from_slice(&record.seal(&ring, &strings));
            }
        }
        Ok((count, written))
    })
}

/// Opens a sealed book: a first pass looks for what is wrong, a second writes.
pub fn open_book(ring: &[u8], sealed: &[u8], out: &mut [u8]) -> CountedAnswer {
    counted(|| {
        let ring = Ring::of(ring)?;
        let count = count(sealed.len(), SEALED)?;
        let written = room(count, PLAIN, out)?;
        let unsealed = |index: usize| {
            let record = Record::unseal(&sealed[SEALED * index..][..SEALED], &ring);
            record.map_err(|refusal| (refusal, index))
        };
        for index in 0..count {
            unsealed(index)?;
        }
        if count > 0 {
            let strings = ring.strings();
            for (index, place) in out[..written].chunks_exact_mut(PLAIN).enumerate() {
                let mut record = unsealed(index)?;
                record.identity = strings.show(record.identity).into();
                place.copy_from_slice(&record.write());
            }
        }
        Ok((count, written))
    })
}

/// The refusals 1 to 5 of a plain book.
pub fn check_plain(plain: &[u8]) -> BookAnswer {
    answer(records(plain).map(|records| (records.len(), 0)))
}

/// What program plainlist prints for a plain book.
pub fn listing(plain: &[u8]) -> Vec<u8> {
    let mut text = String::new();
    match records(plain) {
        Err((refusal, index)) => writeln!(text, "refused {refusal} at {index}").unwrap(),
        Ok(records) => {
            for (index, record) in records.iter().enumerate() {
                let Record {
                    kind,
                    identity,
                    version,
                    ..
                } = record;
                let key: String = record.key().iter().map(|b| format!("{b:02x}")).collect();
                let number = match kind {
                    2 | 3 | 5 | 6 => record.number().to_string(),
                    _ => "-".to_string(),
                };
                writeln!(
                    text,
                    "entry {index} kind {kind} identity {identity:06x} version {version} \
                     key {key} number {number}"
                )
                .unwrap();
            }
            writeln!(text, "entries {}", records.len()).unwrap();
        }
    }
    text.into_bytes()
}

#[cfg(test)]
mod tests {
    use super::*;
    use crate::random::Random;

    fn refused(refusal: u32, index: usize) -> BookAnswer {
        BookAnswer {
            refusal,
            index,
            written: 0,
        }
    }

    fn accepted(index: usize, written: usize, runs: usize) -> CountedAnswer {
        CountedAnswer {
            refusal: 0,
            index,
            written,
            runs,
        }
    }

    /// The refusal that stands in an answer, whose runs are those of the rules.
    fn refusal(answer: CountedAnswer, sealing: bool) -> BookAnswer {
        let CountedAnswer { refusal, index, .. } = answer;
        let runs = match refusal {
            3 if !sealing => 2 * index,
            6 => 2 * (index + 1),
            _ => 0,
        };
        assert_eq!((answer.written, answer.runs), (0, runs));
        refused(refusal, index)
    }

    #[test]
    fn sealed_books_open() {
        let mut random = Random::new(7);
        for records in [0, 1, 2, 3, 4, 5, 40] {
            let (ring, plain) = (random.vec(RING), random.plain_book(records));
            assert_eq!(
                check_plain(&plain),
                BookAnswer {
                    refusal: 0,
                    index: records,
                    written: 0
                }
            );
            let strings = usize::from(records > 0);
            let mut sealed = vec![0x55; SEALED * records + 3];
            let answer = accepted(records, SEALED * records, strings + 2 * records);
            assert_eq!(seal_book(&ring, &plain, &mut sealed), answer);
            assert_eq!(sealed[SEALED * records..], [0x55; 3]);
            let mut opened = vec![0x55; PLAIN * records + 3];
            let answer = accepted(records, PLAIN * records, strings + 4 * records);
            assert_eq!(
                open_book(&ring, &sealed[..SEALED * records], &mut opened),
                answer
            );
            assert_eq!(opened[..PLAIN * records], plain);
            assert_eq!(opened[PLAIN * records..], [0x55; 3]);
        }
    }

    /// A sealed record holds the single calls' results.
    #[test]
    fn records_by_hand() {
        let ring: Vec<u8> = (0..RING as u8).collect();
        let identity = taa1::ta61(&ring[26..36], 0x123456).identity.to_be_bytes();
        for kind in [2, 3, 5, 6] {
            let plain = [
                kind, 0x12, 0x34, 0x56, 1, 2, 9, 8, 7, 6, 5, 4, 3, 2, 1, 0, 0, 0x1d,
            ];
            let mut sealed = [0; SEALED];
            assert_eq!(seal_book(&ring, &plain, &mut sealed).refusal, 0);
            let seal = [taa1::ta81, taa1::ta51][usize::from(kind % 3 == 2)];
            let key = [&ring[10..26], &ring[36..]][usize::from(kind > 4)];
            assert_eq!(sealed[0], kind);
            assert_eq!(sealed[1..4], identity[1..]);
            assert_eq!(sealed[4..6], [1, 2]);
            assert_eq!(sealed[6..], seal(&plain[6..16], 0x0102, key, 0x1d).bytes);
        }
    }

    #[test]
    fn refusals_in_order() {
        let mut random = Random::new(8);
        let (ring, plain) = (random.vec(RING), random.plain_book(6));
        let mut good = vec![0; 6 * SEALED];
        assert_eq!(seal_book(&ring, &plain, &mut good).refusal, 0);

        let mut out = [0x77; 6 * SEALED];
        let mut seal = |ring: &[u8], plain: &[u8], room: usize| {
            let answer = seal_book(ring, plain, &mut out[..room]);
            assert_eq!(out, [0x77; 6 * SEALED]);
            refusal(answer, true)
        };
        let long = vec![9; PLAIN * MOST + 1];
        assert_eq!(seal(&ring[1..], &long, 0), refused(11, 0));
        assert_eq!(seal(&ring, &long, 0), refused(1, 0));
        assert_eq!(seal(&ring, &[9; 17], 0), refused(2, 0));
        assert_eq!(seal(&ring, &[9; 2 * PLAIN], 2 * SEALED - 1), refused(12, 0));
        let mut faulty = plain.clone();
        faulty[5 * PLAIN] = 7;
        assert_eq!(seal(&ring, &faulty, 126), refused(3, 5));
        faulty[4 * PLAIN] = 5;
        faulty[4 * PLAIN + 16] = 0;
        faulty[4 * PLAIN + 17] = 32;
        assert_eq!(seal(&ring, &faulty, 126), refused(5, 4));
        faulty[4 * PLAIN + 16] = 1;
        assert_eq!(seal(&ring, &faulty, 126), refused(4, 4));
        faulty[3 * PLAIN] = 1;
        faulty[3 * PLAIN + 16] = 0;
        faulty[3 * PLAIN + 17] = 1;
        assert_eq!(seal(&ring, &faulty, 126), refused(4, 3));
        assert_eq!(check_plain(&faulty), refused(4, 3));
        assert_eq!(listing(&faulty), b"refused 4 at 3\n");
        faulty[0] = 0;
        assert_eq!(seal(&ring, &faulty, 126), refused(3, 0));

        let mut out = [0x77; 6 * PLAIN];
        let mut open = |ring: &[u8], sealed: &[u8], room: usize| {
            let answer = open_book(ring, sealed, &mut out[..room]);
            assert_eq!(out, [0x77; 6 * PLAIN]);
            refusal(answer, false)
        };
        let long = vec![9; SEALED * MOST + 1];
        assert_eq!(open(&[0; 36], &long, 0), refused(11, 0));
        assert_eq!(open(&ring, &long, 0), refused(1, 0));
        assert_eq!(open(&ring, &good[1..], 0), refused(2, 0));
        assert_eq!(open(&ring, &good, 107), refused(12, 0));
        let mut faulty = good.clone();
        faulty[5 * SEALED] = 0;
        assert_eq!(open(&ring, &faulty, 108), refused(3, 5));
        faulty[2 * SEALED + 20] ^= 1;
        assert_eq!(open(&ring, &faulty, 108), refused(6, 2));
        faulty[SEALED] = 255;
        assert_eq!(open(&ring, &faulty, 108), refused(3, 1));
    }

    #[test]
    fn most_records() {
        let mut random = Random::new(9);
        let (ring, plain) = (random.vec(RING), random.plain_book(MOST + 1));
        let mut sealed = vec![0; SEALED * (MOST + 1)];
        let answer = seal_book(&ring, &plain, &mut sealed);
        assert_eq!(refusal(answer, true), refused(1, 0));
        assert_eq!(check_plain(&plain), refused(1, 0));
        assert_eq!(listing(&plain), b"refused 1 at 0\n");
        let plain = &plain[..PLAIN * MOST];
        let sealed = &mut sealed[..SEALED * MOST];
        let answer = accepted(MOST, SEALED * MOST, 1 + 2 * MOST);
        assert_eq!(seal_book(&ring, plain, sealed), answer);
        let mut opened = vec![0; PLAIN * MOST];
        let answer = accepted(MOST, PLAIN * MOST, 1 + 4 * MOST);
        assert_eq!(open_book(&ring, sealed, &mut opened), answer);
        assert_eq!(opened, plain);
        let last = "\nentries 1024\n".as_bytes();
        assert!(listing(plain).ends_with(last));
    }

    #[test]
    fn listings() {
        let two = [
            2, 0x12, 0x34, 0x56, 0, 7, 1, 2, 3, 4, 5, 6, 7, 8, 9, 10, 0, 3,
        ];
        let line = "entry 0 kind 2 identity 123456 version 7 key 0102030405060708090a number 3\n";
        assert_eq!(listing(&two), format!("{line}entries 1\n").into_bytes());
        assert_eq!(listing(&[]), b"entries 0\n");
        assert_eq!(listing(&two[1..]), b"refused 2 at 0\n");
        let one = [1, 0, 0, 1, 0xff, 0xff, 1, 2, 3, 4, 5, 6, 7, 8, 9, 10, 0, 0];
        let four = [4, 0xab, 0, 0, 1, 0, 1, 2, 3, 4, 5, 6, 7, 8, 9, 10, 11, 0xff];
        let three = [3, 0, 0, 0, 0, 0, 0, 0, 0, 0, 0, 0, 0, 0, 0, 0, 0x12, 0x34];
        let five = [5, 0, 0, 0, 0, 0, 0, 0, 0, 0, 0, 0, 0, 0, 0, 0, 0, 31];
        let six = [6, 0, 0, 0, 0, 0, 0, 0, 0, 0, 0, 0, 0, 0, 0, 0, 0xff, 0xff];
        let text = "entry 0 kind 1 identity 000001 version 65535 key 0102030405060708090a number -\n\
                    entry 1 kind 4 identity ab0000 version 256 key 0102030405060708090a0bff number -\n\
                    entry 2 kind 3 identity 000000 version 0 key 00000000000000000000 number 4660\n\
                    entry 3 kind 5 identity 000000 version 0 key 00000000000000000000 number 31\n\
                    entry 4 kind 6 identity 000000 version 0 key 00000000000000000000 number 65535\n\
                    entries 5\n";
        let book = [one, four, three, five, six].concat();
        assert_eq!(listing(&book), text.as_bytes());
    }
}
