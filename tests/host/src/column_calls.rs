//! Books filed by column.

use crate::list::List;
use host::both::{MOST, PLAIN, SEALED};
use host::random::Random;
use host::tally::{Group, Tally};
use host::{columns, engine};

macro_rules! list {
    ($call:ident, $size:ident) => {
        List {
            name: stringify!($call),
            engine: engine::$call,
            other: columns::$call,
            from: $size,
            to: $size,
        }
    };
}

/// To columns and back, for plain and for sealed books.
static PAIRS: [[List; 2]; 2] = [
    [
        list!(plain_to_columns, PLAIN),
        list!(plain_from_columns, PLAIN),
    ],
    [
        list!(sealed_to_columns, SEALED),
        list!(sealed_from_columns, SEALED),
    ],
];

const COUNTS: [usize; 9] = [0, 1, 2, 3, 4, 5, 17, MOST - 1, MOST];

pub fn run(tally: &mut Tally, random: &mut Random) {
    for [to, from] in &PAIRS {
        let bytes = random.vec(to.from * (MOST + 3));
        for call in [to, from] {
            call.groups(tally, &bytes);
        }
        tally.group(
            &format!("{}, {} (byte by byte)", to.name, from.name),
            |group| {
                for count in COUNTS {
                    by_bytes(group, [to, from], &bytes[..to.from * count]);
                }
            },
        );
        tally.group(
            &format!("{}, {} (there and back)", to.name, from.name),
            |group| {
                for count in (0..=200).chain(COUNTS) {
                    let bytes = &bytes[..to.from * count];
                    from.want(group, &to.made(bytes), bytes);
                    to.want(group, &from.made(bytes), bytes);
                }
            },
        );
    }
    tally.group("columns (random)", |group| {
        for _ in 0..5_000 {
            for call in PAIRS.iter().flatten() {
                let count = random.below(12);
                let bytes = random.vec(call.from * count);
                let room = (call.room(&bytes) + random.below(40)).saturating_sub(2);
                call.compare(group, &bytes, room);
            }
        }
    });
}

/// Byte j of record i stands at place i of column j.
fn by_bytes(group: &mut Group, [to, from]: [&List; 2], records: &[u8]) {
    let (size, count) = (to.from, records.len() / to.from);
    let mut columns = vec![0; records.len()];
    for i in 0..count {
        for j in 0..size {
            columns[count * j + i] = records[size * i + j];
        }
    }
    to.want(group, records, &columns);
    from.want(group, &columns, records);
}
