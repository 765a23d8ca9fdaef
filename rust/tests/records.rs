// SPDX-License-Identifier: MIT
//! Records as their fields, beside what the engine checks, seals and opens.

use taa1::{
    check_plain, open_book, seal_book, ta61, BookRefusal, CountedRefusal, EntryKey, KeyNumber,
    Kind, PlainEntry, Refusal, SealedRecord, Version, PLAIN_RECORD_BYTES, RECORD_NUMBER_AT,
    RING_BYTES, SEALED_RECORD_BYTES,
};

const CIPHER_KEY: [u8; 10] = [1, 2, 3, 4, 5, 6, 7, 8, 9, 10];
const GROUP_KEY: [u8; 12] = [1, 2, 3, 4, 5, 6, 7, 8, 9, 10, 11, 12];

fn entry(key: EntryKey) -> PlainEntry {
    PlainEntry {
        identity: 0x123456,
        version: Version(0x0708),
        key,
    }
}

/// One entry of each kind, in their order.
fn entries() -> [PlainEntry; 6] {
    [
        EntryKey::Ta31(CIPHER_KEY),
        EntryKey::Ta51(CIPHER_KEY, KeyNumber(31)),
        EntryKey::Ta81(CIPHER_KEY, KeyNumber(0x0b0c)),
        EntryKey::Ta91(GROUP_KEY),
        EntryKey::Ta51G(CIPHER_KEY, KeyNumber(0)),
        EntryKey::Ta81G(CIPHER_KEY, KeyNumber(0xffff)),
    ]
    .map(entry)
}

#[test]
fn kinds_are_bytes() {
    for byte in 0..=u8::MAX {
        match Kind::try_from(byte) {
            Ok(kind) => assert_eq!(u8::from(kind), byte),
            Err(refusal) => assert_eq!(refusal, Refusal::WrongKind),
        }
        assert_eq!(Kind::try_from(byte).is_ok(), (1..=6).contains(&byte));
    }
}

#[test]
fn plain_records_have_their_layout() {
    let bytes = entries()[1].to_bytes().unwrap();
    let wanted = [
        2, 0x12, 0x34, 0x56, 7, 8, 1, 2, 3, 4, 5, 6, 7, 8, 9, 10, 0, 31,
    ];
    assert_eq!(bytes, wanted);
    for (entry, kind) in entries().iter().zip(Kind::ALL) {
        let bytes = entry.to_bytes().unwrap();
        assert_eq!((entry.kind(), bytes[0]), (kind, kind.into()));
        assert_eq!(PlainEntry::from_bytes(&bytes), Ok(*entry));
        assert_eq!(bytes[6..6 + entry.key.bytes().len()], *entry.key.bytes());
    }
}

#[test]
fn what_a_plain_book_refuses_is_refused() {
    let good = entries().map(|entry| entry.to_bytes().unwrap());
    for record in good {
        for at in [0, RECORD_NUMBER_AT, PLAIN_RECORD_BYTES - 1] {
            for byte in 0..=u8::MAX {
                let mut record = record;
                record[at] = byte;
                let checked = check_plain(&record).map_err(|refused| refused.refusal);
                let read = PlainEntry::from_bytes(&record);
                assert_eq!(read.map(|_| 1), checked, "{record:02x?}");
                if let Ok(entry) = read {
                    assert_eq!(entry.to_bytes(), Ok(record));
                }
            }
        }
    }
    for length in [0, 17, 19, 21] {
        let refused = PlainEntry::from_bytes(&vec![1; length]);
        assert_eq!(refused, Err(Refusal::WrongLength));
    }
    for number in [32, 255, 256, 0x0101, 0xffff].map(KeyNumber) {
        for key in [
            EntryKey::Ta51(CIPHER_KEY, number),
            EntryKey::Ta51G(CIPHER_KEY, number),
        ] {
            assert_eq!(entry(key).to_bytes(), Err(Refusal::WrongNumber));
        }
    }
    let wide = PlainEntry {
        identity: 1 << 24,
        ..entries()[0]
    };
    assert_eq!(wide.to_bytes(), Err(Refusal::ValueWide));
}

#[test]
fn sealed_records_are_those_of_the_engine() {
    let ring: [u8; RING_BYTES] = std::array::from_fn(|i| i as u8);
    let plain: Vec<u8> = entries()
        .iter()
        .flat_map(|entry| entry.to_bytes().unwrap())
        .collect();
    let sealed = seal_book(&ring, &plain).unwrap().bytes;
    let identity = ta61(&ring[26..36], 0x123456).unwrap();
    for (record, kind) in sealed.chunks_exact(SEALED_RECORD_BYTES).zip(Kind::ALL) {
        let read = SealedRecord::from_bytes(record).unwrap();
        assert_eq!(
            (read.kind, read.encrypted_identity, read.version),
            (kind, identity, Version(0x0708))
        );
        assert_eq!(read.text[..], record[6..]);
        assert_eq!(read.to_bytes().unwrap()[..], *record);
    }
    let opened = open_book(&ring, &sealed).unwrap().bytes;
    let read: Vec<PlainEntry> = opened
        .chunks_exact(PLAIN_RECORD_BYTES)
        .map(|record| PlainEntry::from_bytes(record).unwrap())
        .collect();
    assert_eq!(read, entries());
    let mut record = SealedRecord::from_bytes(&sealed[..SEALED_RECORD_BYTES]).unwrap();
    record.encrypted_identity = 1 << 24;
    assert_eq!(record.to_bytes(), Err(Refusal::ValueWide));
    let unknown = [7; SEALED_RECORD_BYTES];
    assert_eq!(SealedRecord::from_bytes(&unknown), Err(Refusal::WrongKind));
    let short = &unknown[1..];
    assert_eq!(SealedRecord::from_bytes(short), Err(Refusal::WrongLength));
}

/// `?` leads from each to each.
#[test]
fn refusals_turn_into_each_other() {
    fn counted() -> Result<(), CountedRefusal> {
        seal_book(&[0; RING_BYTES], &[0; 36])?;
        Ok(())
    }
    fn of_book() -> Result<(), BookRefusal> {
        Ok(counted()?)
    }
    fn bare() -> Result<(), Refusal> {
        of_book()?;
        Ok(counted()?)
    }
    let (refusal, index, runs) = (Refusal::WrongKind, 0, 0);
    let refused = BookRefusal { refusal, index };
    assert_eq!((of_book(), bare()), (Err(refused), Err(refusal)));
    let wanted = CountedRefusal {
        refusal,
        index,
        runs,
    };
    assert_eq!(
        (counted(), CountedRefusal::from(refusal)),
        (Err(wanted), wanted)
    );
    assert_eq!(BookRefusal::from(refusal), refused);
}
