//! Books of one record of each kind, and the group key of a ring. osmo-tetra has no
//! TA61, so the identities are left out.

use host::both::{PLAIN, RING, SEALED};
use host::engine::{self, CountedAnswer};
use host::random::Random;
use host::tally::{Group, Tally};
use host::{books, taa1};
use peer::osmo;
use std::array::from_fn;
use std::fmt::Debug;

const TIMES: usize = 5_000;
const TEXT: usize = 15;

type Call = fn(&[u8], &[u8], &mut [u8]) -> CountedAnswer;

/// Sealing and opening.
const CALLS: [(&str, Call, Call); 2] = [
    ("books", engine::seal_book, engine::open_book),
    (
        "books, independent",
        |ring, plain, out| books::seal_book(ring, plain, out).into(),
        |ring, sealed, out| books::open_book(ring, sealed, out).into(),
    ),
];

pub fn run(tally: &mut Tally, random: &mut Random) {
    for kind in 1..=6 {
        let name = format!("books of kind {kind} beside osmo-tetra");
        tally.group(&name, |group| {
            for _ in 0..TIMES {
                let (ring, record) = (random.bytes(), random.record(kind));
                let bit = random.below(8 * TEXT);
                for (name, seal, open) in CALLS {
                    if group.turn() {
                        one(group, name, (seal, open), &ring, &record, bit);
                    }
                }
            }
        });
    }
    tally.group("group keys of rings beside osmo-tetra", |group| {
        for _ in 0..TIMES {
            if group.turn() {
                group_key(group, &random.bytes());
            }
        }
    });
}

/// Wants osmo-tetra's text in the sealed record, the record back from it, and with
/// a bit of it flipped refusal 6 exactly where osmo-tetra sets the flag.
fn one(
    group: &mut Group,
    name: &str,
    (seal, open): (Call, Call),
    ring: &[u8; RING],
    record: &[u8; PLAIN],
    bit: usize,
) {
    let (mut sealed, mut opened) = ([0; SEALED], [0; PLAIN]);
    let inputs: [(&str, &dyn Debug); 3] = [("ring", ring), ("record", record), ("bit", &bit)];
    let parts = Parts::of(ring, record);
    let refusal = seal(ring, record, &mut sealed).refusal;
    let text = from_fn(|i| sealed[6 + i]);
    group.same(name, &inputs, (refusal, text), (0, parts.text()));
    let refusal = open(ring, &sealed, &mut opened).refusal;
    group.same(name, &inputs, (refusal, opened), (0, *record));
    sealed[6 + bit / 8] ^= 0x80 >> (bit % 8);
    let refusal = open(ring, &sealed, &mut opened).refusal;
    let flag = parts.flag(&from_fn(|i| sealed[6 + i]));
    group.same(name, &inputs, refusal, if flag { 6u32 } else { 0 });
}

/// What osmo-tetra takes for a well-formed record.
struct Parts {
    kind: u8,
    version: [u8; 2],
    body: [u8; 12],
    key: [u8; 10],
    d: [u8; 10],
    /// O, or G for the kinds 5 and 6.
    long: [u8; 16],
}

impl Parts {
    fn of(ring: &[u8; RING], record: &[u8; PLAIN]) -> Self {
        let version = [record[4], record[5]];
        let start = if record[0] < 5 { 10 } else { 36 };
        Parts {
            kind: record[0],
            version,
            body: from_fn(|i| record[6 + i]),
            key: from_fn(|i| record[6 + i]),
            d: osmo::repaired(&from_fn(|i| ring[i]), u16::from_be_bytes(version)),
            long: from_fn(|i| ring[start + i]),
        }
    }

    fn text(&self) -> [u8; TEXT] {
        let (key, version, [.., high, low]) = (&self.key, &self.version, self.body);
        match self.kind {
            1 => osmo::ta31(key, version, &self.d),
            2 | 5 => osmo::ta51(key, version, &self.long, &[low]),
            3 | 6 => osmo::ta81(key, version, &[high, low], &self.long),
            _ => osmo::ta91(&self.body, version, &self.long),
        }
    }

    fn flag(&self, text: &[u8; TEXT]) -> bool {
        let [flag] = match self.kind {
            1 => osmo::ta32(text, &self.version, &self.d).1,
            2 | 5 => osmo::ta52(text, &self.long, &self.version).1,
            3 | 6 => osmo::ta82(text, &self.version, &self.long).1,
            _ => osmo::ta92(text, &self.version, &self.long).1,
        };
        flag != 0
    }
}

/// The last sixteen bytes of a ring are osmo-tetra's TB7 of the group key.
fn group_key(group: &mut Group, group_key: &[u8; 12]) {
    let (root, ten, g) = ([0; 16], [0; 10], osmo::tb7(group_key));
    macro_rules! compare {
        ($name:literal, $ring:path) => {
            let made = $ring(
                &root, &ten, &ten, &ten, &ten, &ten, group_key, 3, 0x000f, 0xffc0,
            );
            let inputs: [(&str, &dyn Debug); 1] = [("group_key", group_key)];
            group.same(
                $name,
                &inputs,
                (made.refusal, &made.ring[36..]),
                (0, &g[..]),
            );
        };
    }
    compare!("ring", engine::ring);
    compare!("ring, independent", taa1::ring);
}
