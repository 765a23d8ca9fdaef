//! Keys mixed without the cipher: TB1 to TB7.

use crate::edges;
use host::compare;
use host::engine;
use host::random::Random;
use host::tally::Tally;
use std::fmt::Debug;

const TIMES: usize = 50_000;
pub const LOCATION_AREA_BITS: u64 = 14;
pub const CARRIER_BITS: u64 = 12;
pub const COLOUR_CODE_BITS: u64 = 6;
pub const IDENTITY_BITS: u64 = 24;

pub fn run(tally: &mut Tally, random: &mut Random) {
    repeated_groups(tally, random);
    cell_groups(tally, random);
    tally.group("tb2, tb4, tb7 (random)", |group| {
        for _ in 0..TIMES {
            let (input, group_key) = (random.bytes::<16>(), random.bytes::<12>());
            let (input1, input2) = (random.bytes::<10>(), random.bytes::<10>());
            compare!(group, tb2([input]));
            compare!(group, tb4([input1], [input2]));
            compare!(group, tb7([group_key]));
        }
    });
    tally.group("tb2, tb4, tb7 (lengths)", |group| {
        edges::lengths(random, [16], |[input]| compare!(group, tb2([input])));
        edges::lengths(random, [10, 10], |[input1, input2]| {
            compare!(group, tb4([input1], [input2]));
        });
        edges::lengths(random, [12], |[group_key]| {
            compare!(group, tb7([group_key]));
        });
    });
}

/// All around 16 to 32, and wide ones whose low bits are right.
pub fn widths() -> impl Iterator<Item = u64> {
    let wide = [8, 16, 32, 63].into_iter().flat_map(|bit| {
        let wide = 1 << bit;
        [wide, wide + 16, wide + 32]
    });
    (0..=130).chain(wide).chain([u64::MAX - 1, u64::MAX])
}

fn repeated_groups(tally: &mut Tally, random: &mut Random) {
    tally.group("tb1, tb3 (random)", |group| {
        for _ in 0..TIMES {
            let (input, width) = (random.bytes::<16>(), 16 + random.number() % 17);
            let value = random.number() >> (64 - width);
            compare!(group, tb1(value, width));
            compare!(group, tb3([input], value, width));
        }
    });
    tally.group("tb1, tb3 (widths and values)", |group| {
        for width in widths() {
            let input = random.bytes::<16>();
            // Values at the edges of the width, or of the nearest right one.
            for value in edges::values(random, width.clamp(16, 32)) {
                compare!(group, tb1(value, width));
                compare!(group, tb3([input], value, width));
            }
        }
    });
    tally.group("tb1 (bit by bit)", |group| {
        for width in 16..=32 {
            for value in edges::values(random, width) {
                let value = value & ((1 << width) - 1);
                let bytes = engine::tb1(value, width).bytes;
                for i in 0..128 {
                    let got = bytes[i / 8] >> (7 - i % 8) & 1;
                    let wanted = (value >> (width - 1 - i as u64 % width) & 1) as u8;
                    let inputs: [(&str, &dyn Debug); 3] =
                        [("value", &value), ("width", &width), ("bit", &i)];
                    group.same("tb1", &inputs, got, wanted);
                }
            }
        }
    });
    tally.group("tb3 (lengths, beside wrong widths and values)", |group| {
        edges::lengths(random, [16], |[input]| {
            for width in [0, 15, 16, 32, 33, u64::MAX] {
                for value in edges::few_values(16)
                    .into_iter()
                    .chain(edges::few_values(32))
                {
                    compare!(group, tb3([input], value, width));
                }
            }
        });
    });
}

fn cell_groups(tally: &mut Tally, random: &mut Random) {
    tally.group("tb5, tb6 (random)", |group| {
        for _ in 0..TIMES {
            let cipher_key = random.bytes::<10>();
            let location_area = random.number() >> (64 - LOCATION_AREA_BITS);
            let carrier = random.number() >> (64 - CARRIER_BITS);
            let colour_code = random.number() >> (64 - COLOUR_CODE_BITS);
            let identity = random.number() >> (64 - IDENTITY_BITS);
            compare!(
                group,
                tb5([cipher_key], location_area, carrier, colour_code)
            );
            compare!(group, tb6([cipher_key], carrier, identity));
        }
    });
    tally.group("tb5, tb6 (fields)", |group| {
        let cipher_key = random.bytes::<10>();
        for carrier in edges::values(random, CARRIER_BITS) {
            for location_area in edges::values(random, LOCATION_AREA_BITS) {
                for colour_code in edges::values(random, COLOUR_CODE_BITS) {
                    compare!(
                        group,
                        tb5([cipher_key], location_area, carrier, colour_code)
                    );
                }
            }
            for identity in edges::values(random, IDENTITY_BITS) {
                compare!(group, tb6([cipher_key], carrier, identity));
            }
        }
    });
    tally.group("tb5, tb6 (lengths, beside wrong fields)", |group| {
        edges::lengths(random, [10], |[cipher_key]| {
            for carrier in edges::few_values(CARRIER_BITS) {
                for location_area in edges::few_values(LOCATION_AREA_BITS) {
                    for colour_code in edges::few_values(COLOUR_CODE_BITS) {
                        compare!(
                            group,
                            tb5([cipher_key], location_area, carrier, colour_code)
                        );
                    }
                }
                for identity in edges::few_values(IDENTITY_BITS) {
                    compare!(group, tb6([cipher_key], carrier, identity));
                }
            }
        });
    });
}
