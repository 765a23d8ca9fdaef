//! A class of challenges under one session key.

use crate::edges::{self, counts, list_lengths, long_lists, rooms};
use crate::masks;
use host::both::{same_output, Start, AUTHENTICATION, CHALLENGE, MOST};
use host::class;
use host::engine::{self, null, null_out, BookAnswer};
use host::random::Random;
use host::tally::{Group, Tally};

const KEY: usize = 16;
/// A right pair of masks.
const PAIR: (u16, u16) = (0x9240, 0x6db6);

/// What the call gets, but for its output.
struct Class<'a> {
    session_key: &'a [u8],
    challenges: &'a [u8],
    pair: (u16, u16),
}

impl Class<'_> {
    /// The room that the whole challenges need.
    fn need(&self) -> usize {
        self.challenges.len() / CHALLENGE * AUTHENTICATION
    }

    fn engine(&self, out: &mut [u8]) -> BookAnswer {
        let (response_mask, key_mask) = self.pair;
        engine::ta12_class(
            self.session_key,
            self.challenges,
            response_mask,
            key_mask,
            out,
        )
    }

    fn other(&self, out: &mut [u8]) -> BookAnswer {
        let (response_mask, key_mask) = self.pair;
        class::ta12_class(
            self.session_key,
            self.challenges,
            response_mask,
            key_mask,
            out,
        )
        .into()
    }

    /// Compares with the independent implementation. An output without room is null too.
    fn compare(&self, group: &mut Group, room: usize) {
        if group.turn() {
            self.same(group, room, |out| self.engine(out), |out| self.other(out));
            if room == 0 {
                let null = |_: &mut [u8]| self.engine(null_out());
                self.same(group, room, null, |out| self.other(out));
            }
        }
    }

    /// Compares with one TA12 of the engine for each challenge.
    fn compare_single(&self, group: &mut Group) {
        if group.turn() {
            self.same(
                group,
                self.need() + 1,
                |out| self.engine(out),
                |out| self.one_by_one(out),
            );
        }
    }

    fn one_by_one(&self, out: &mut [u8]) -> BookAnswer {
        let (response_mask, key_mask) = self.pair;
        let challenges = self.challenges.chunks_exact(CHALLENGE);
        for (challenge, record) in challenges.zip(out.chunks_exact_mut(AUTHENTICATION)) {
            let one = engine::ta12(self.session_key, challenge, response_mask, key_mask);
            record[..4].copy_from_slice(&one.response);
            record[4..].copy_from_slice(&one.key);
        }
        BookAnswer {
            refusal: 0,
            index: self.challenges.len() / CHALLENGE,
            written: self.need(),
        }
    }

    /// Wants the class refused, the index 0 and the output as it was.
    fn want_refused(&self, group: &mut Group, room: usize, refusal: u32) {
        let refused = |_: &mut [u8]| BookAnswer {
            refusal,
            index: 0,
            written: 0,
        };
        if group.turn() {
            self.same(group, room, |out| self.engine(out), refused);
        }
    }

    fn same(
        &self,
        group: &mut Group,
        room: usize,
        got: impl FnOnce(&mut [u8]) -> BookAnswer,
        wanted: impl FnOnce(&mut [u8]) -> BookAnswer,
    ) {
        let inputs: [(&str, &dyn std::fmt::Debug); 4] = [
            ("session_key", &self.session_key),
            ("challenges", &Start(self.challenges)),
            ("masks", &self.pair),
            ("room", &room),
        ];
        same_output(group, "ta12_class", &inputs, room, got, wanted);
    }
}

pub fn run(tally: &mut Tally, random: &mut Random) {
    tally.group("ta12_class (random)", |group| {
        for _ in 0..10_000 {
            let (key, count) = (random.bytes::<KEY>(), random.below(9));
            let challenges = random.vec(CHALLENGE * count);
            let class = Class {
                session_key: &key,
                challenges: &challenges,
                pair: random.masks(),
            };
            let room = (class.need() + random.below(40)).saturating_sub(2);
            class.compare(group, room);
            class.compare_single(group);
        }
    });
    let key = random.bytes::<KEY>();
    let bytes = random.vec(CHALLENGE * (MOST + 3));
    let class = |length: usize, pair| Class {
        session_key: &key,
        challenges: &bytes[..length],
        pair,
    };
    tally.group("ta12_class (numbers of challenges and outputs)", |group| {
        for count in counts() {
            let class = class(CHALLENGE * count, PAIR);
            for room in rooms(class.need()) {
                class.compare(group, room);
            }
            if count <= MOST {
                class.compare_single(group);
            }
        }
    });
    tally.group("ta12_class (lengths)", |group| {
        for length in list_lengths(CHALLENGE) {
            let class = class(length, PAIR);
            for room in rooms(class.need()) {
                class.compare(group, room);
            }
        }
        long_lists(CHALLENGE, |challenges| {
            let class = Class {
                session_key: &key,
                challenges,
                pair: PAIR,
            };
            for room in [0, 1 << 15] {
                class.compare(group, room);
            }
        });
    });
    tally.group("ta12_class (session keys, beside wrong lists)", |group| {
        edges::lengths(random, [KEY], |[session_key]| {
            for length in [0, 1, CHALLENGE, CHALLENGE * MOST + 1] {
                for pair in masks::FEW {
                    let class = Class {
                        session_key,
                        ..class(length, pair)
                    };
                    for room in [0, AUTHENTICATION] {
                        class.compare(group, room);
                    }
                }
            }
        });
    });
    tally.group("ta12_class (null)", |group| {
        for session_key in [null(), &key] {
            for pair in masks::FEW {
                let class = Class {
                    session_key,
                    challenges: null(),
                    pair,
                };
                for room in [0, 1] {
                    class.compare(group, room);
                }
            }
        }
    });
    tally.group("ta12_class (faults alone and together)", |group| {
        faults(group, random);
    });
    tally.group("ta12_class (repeated challenges)", |group| {
        repeated(group, random);
    });
    tally.group("ta12_class (zeros, ones, single bits)", |group| {
        let challenges = edges::strings::<CHALLENGE>().concat();
        for session_key in edges::strings::<KEY>() {
            let class = Class {
                session_key: &session_key,
                challenges: &challenges,
                pair: random.masks(),
            };
            class.compare(group, class.need());
            class.compare_single(group);
        }
    });
    // The masks are tested where there is no challenge, too.
    let both = |group: &mut Group, pair| {
        for count in [0, 2] {
            let class = class(CHALLENGE * count, pair);
            class.compare(group, class.need());
        }
    };
    tally.group("ta12_class (right pairs of masks)", |group| {
        masks::right().step_by(7).for_each(|pair| both(group, pair));
    });
    tally.group("ta12_class (every mask beside a right one)", |group| {
        masks::each_beside(random.masks()).for_each(|pair| both(group, pair));
    });
    tally.group("ta12_class (every pair of counts of ones)", |group| {
        for _ in 0..20 {
            masks::counts(random).for_each(|pair| both(group, pair));
        }
    });
    tally.group("ta12_class (one bit shared)", |group| {
        for _ in 0..20 {
            masks::one_shared(random.masks()).for_each(|pair| both(group, pair));
        }
    });
}

/// The first of the refusals 11, 1, 2, 12, 7 and 8 that applies.
fn faults(group: &mut Group, random: &mut Random) {
    let (key, bytes) = (
        random.bytes::<{ KEY + 1 }>(),
        random.vec(CHALLENGE * (MOST + 1)),
    );
    let most = CHALLENGE * MOST;
    let keys = [(0, KEY), (11, 0), (11, KEY - 1), (11, KEY + 1)];
    let lengths = [
        (0, 0),
        (0, CHALLENGE),
        (0, most),
        (1, most + 1),
        (1, most + CHALLENGE),
        (2, 1),
        (2, CHALLENGE + 1),
        (2, most - 1),
    ];
    let pairs = [
        (0, PAIR),
        (7, (0x0007, 0xffc0)),
        (7, (0x000f, 0xff80)),
        (7, (0xffff, 0xffff)),
        (8, (0x000f, 0x03ff)),
    ];
    for (wrong_key, key_length) in keys {
        for (wrong_length, length) in lengths {
            for (wrong_masks, pair) in pairs {
                let class = Class {
                    session_key: &key[..key_length],
                    challenges: &bytes[..length],
                    pair,
                };
                for room in rooms(class.need()) {
                    let short = if room < class.need() { 12 } else { 0 };
                    let faults = [wrong_key, wrong_length, short, wrong_masks];
                    match faults.into_iter().find(|&refusal| refusal != 0) {
                        None => class.compare(group, room),
                        Some(refusal) => class.want_refused(group, room, refusal),
                    }
                }
            }
        }
    }
}

/// One challenge all through, and two in any order.
fn repeated(group: &mut Group, random: &mut Random) {
    let key = random.bytes::<KEY>();
    let two = [random.bytes::<CHALLENGE>(), random.bytes()];
    let mut compare = |challenges: &[u8]| {
        let class = Class {
            session_key: &key,
            challenges,
            pair: PAIR,
        };
        class.compare(group, class.need());
        class.compare_single(group);
    };
    for count in [2, 3, 4, 5, MOST] {
        compare(&two[0].repeat(count));
    }
    for order in 0..1 << 8 {
        compare(&std::array::from_fn::<_, 8, _>(|i| two[order >> i & 1]).concat());
    }
}
