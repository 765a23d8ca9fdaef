//! The lineage sheet.

use crate::list::List;
use host::both::MOST;
use host::engine;
use host::lineage::{self, RECORD, VALUE};
use host::random::Random;
use host::sheets::{given, made, sheet, size, wrong, Record, Shape, SHAPES};
use host::tally::{Group, Tally};
use std::array::from_fn;

static LINEAGE: List = List {
    name: "lineage",
    engine: engine::lineage,
    other: lineage::lineage,
    from: RECORD,
    to: VALUE,
};

pub fn run(tally: &mut Tally, random: &mut Random) {
    tally.group("lineage (random)", |group| {
        for i in 0..10_000 {
            let count = random.below(12);
            let sheet = sheet(random, SHAPES[i % 3], count).concat();
            let room = (LINEAGE.room(&sheet) + random.below(40)).saturating_sub(2);
            LINEAGE.compare(group, &sheet, room);
        }
    });
    LINEAGE.groups(tally, &sheet(random, Shape::Tree, MOST + 3).concat());
    tally.group("lineage (long chains, one record that all cite)", |group| {
        for shape in SHAPES {
            for count in [MOST - 1, MOST] {
                LINEAGE.compare_rooms(group, &sheet(random, shape, count).concat());
            }
        }
    });
    tally.group("lineage (beside the single calls)", |group| {
        for i in 0..2_000 {
            let count = 2 + random.below(12);
            single(group, &sheet(random, SHAPES[i % 3], count));
        }
        for shape in SHAPES {
            single(group, &sheet(random, shape, MOST));
        }
    });
    tally.group("lineage (another sheet with the same ancestors)", |group| {
        for i in 0..2_000 {
            let count = 2 + random.below(12);
            let sheet = sheet(random, SHAPES[i % 3], count);
            let index = random.below(count);
            same_ancestors(group, random, &sheet, index);
        }
        let sheet = sheet(random, Shape::Tree, MOST);
        for index in (0..MOST).step_by(41) {
            same_ancestors(group, random, &sheet, index);
        }
    });
    tally.group("lineage (faults alone and together)", |group| {
        for count in [3, 4, 5, 6, 300, MOST - 1, MOST] {
            faults(group, random, count);
        }
    });
    tally.group("lineage (parents before and after)", |group| {
        parents(group, random);
    });
    tally.group("lineage (each byte changed to every other)", |group| {
        let sheet = sheet(random, Shape::Tree, 8).concat();
        for at in 0..sheet.len() {
            for change in 1..=255 {
                let mut sheet = sheet.clone();
                sheet[at] ^= change;
                LINEAGE.compare(group, &sheet, 8 * VALUE + 1);
            }
        }
    });
    tally.group("lineage (garbage)", |group| {
        for _ in 0..20_000 {
            let mut sheet = random.vec(4 * RECORD);
            for byte in &mut sheet {
                *byte = match random.below(8) {
                    0 => *byte,
                    1 => *byte % 8,
                    2 => [10, 16][random.below(2)],
                    _ => 0,
                };
            }
            LINEAGE.compare(group, &sheet, 4 * VALUE + 1);
        }
    });
}

/// Wants each value to be what the engine's single calls make of the values at the
/// parents' indexes.
fn single(group: &mut Group, sheet: &[Record]) {
    let values = LINEAGE.made(&sheet.concat());
    let wanted = sheet.iter().flat_map(|record| {
        let [first, second] = [1, 3].map(|at| {
            let parent = usize::from(u16::from_be_bytes([record[at], record[at + 1]]));
            &values[VALUE * parent..]
        });
        let value = match record[0] {
            0 => record[6..].to_vec(),
            1 => engine::ta11(&first[..16], &second[..10]).bytes.to_vec(),
            2 => engine::ta21(&first[..16], &second[..10]).bytes.to_vec(),
            3 => engine::ta41(&first[..16], &second[..10]).bytes.to_vec(),
            4 => engine::tb4(&first[..10], &second[..10]).bytes.to_vec(),
            _ => engine::ta71(&first[..10], &second[..10]).bytes.to_vec(),
        };
        from_fn::<u8, VALUE, _>(|i| value.get(i).copied().unwrap_or(0))
    });
    LINEAGE.want(group, &sheet.concat(), &wanted.collect::<Vec<u8>>());
}

/// Another given key of the same length in the place of each record that is no
/// ancestor of one, and records after it cut: its value stays.
fn same_ancestors(group: &mut Group, random: &mut Random, sheet: &[Record], index: usize) {
    let mut kept = vec![false; sheet.len()];
    kept[index] = true;
    for i in (0..=index).rev().filter(|&i| sheet[i][0] != 0) {
        if kept[i] {
            for at in [1, 3] {
                kept[usize::from(u16::from_be_bytes([sheet[i][at], sheet[i][at + 1]]))] = true;
            }
        }
    }
    let other: Vec<Record> = (0..sheet.len())
        .map(|i| match kept[i] {
            true => sheet[i],
            false => given(&random.vec(size(&sheet[i]))),
        })
        .collect();
    if group.turn() {
        let value = |sheet: &[Record]| -> [u8; VALUE] {
            let values = LINEAGE.made(&sheet.concat());
            from_fn(|i| values[VALUE * index + i])
        };
        let wanted = value(sheet);
        for other in [&other[..], &other[..=index]] {
            let inputs: [(&str, &dyn std::fmt::Debug); 2] = [("sheet", &sheet), ("index", &index)];
            group.same("lineage", &inputs, value(other), wanted);
        }
    }
}

/// The first wrong record decides, and in it the first of 14, 15 and 16.
fn faults(group: &mut Group, random: &mut Random, count: usize) {
    let sheet = sheet(random, Shape::Tree, count);
    let room = VALUE * count;
    for index in [2, 3, count / 2, count - 1] {
        if (2..count).contains(&index) {
            let mut sheet = sheet.clone();
            for (refusal, record) in wrong(index) {
                sheet[index] = record;
                LINEAGE.want_refused(group, &sheet.concat(), room, (refusal, index));
                // A second fault, of another number, after it.
                if index + 1 < count {
                    let mut sheet = sheet.clone();
                    let later = wrong(count - 1);
                    sheet[count - 1] = later[random.below(later.len())].1;
                    LINEAGE.want_refused(group, &sheet.concat(), room, (refusal, index));
                }
                LINEAGE.want_refused(group, &sheet.concat(), room - 1, (12, 0));
            }
        }
    }
}

/// Every operation with every pair of parents in a short sheet, as its last record
/// and as its first.
fn parents(group: &mut Group, random: &mut Random) {
    let right = sheet(random, Shape::Tree, 7);
    for operation in 0..=7 {
        for first in 0..9 {
            for second in 0..9 {
                for index in [0, 1, 6] {
                    let mut sheet = right.clone();
                    sheet[index] = made(operation, [first, second]);
                    LINEAGE.compare_rooms(group, &sheet.concat());
                    LINEAGE.compare_rooms(group, &sheet[..=index].concat());
                }
            }
        }
    }
}
