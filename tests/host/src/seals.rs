//! Seals and unseals: TA31, TA32, TA51, TA52, TA81, TA82, TA91 and TA92.

use crate::edges;
use host::compare;
use host::damaged::{flipped, sealed, under_version};
use host::engine::{self, Unsealed, UnsealedNumbered};
use host::random::Random;
use host::taa1;
use host::tally::{Group, Tally};

const TEXT_BITS: usize = 120;
const VERSIONS: [u16; 5] = [0, 1, 0x00ff, 0xff00, 0xffff];
const NUMBERS: [u16; 8] = [0, 1, 31, 32, 255, 256, 0x8000, 0xffff];

/// What a seal takes. Not every kind has a number.
#[derive(Clone, Copy)]
struct Inputs<'a> {
    key: &'a [u8],
    version: u16,
    sealing_key: &'a [u8],
    number: u16,
}

/// The calls of a kind, in one shape for all kinds. An unseal takes a text and
/// the version and sealing key of the inputs.
struct Calls {
    name: &'static str,
    compare_seal: fn(&mut Group, Inputs),
    compare_unseal: fn(&mut Group, &[u8], Inputs),
    seal: fn(Inputs) -> [u8; 15],
    /// Wants the inputs' key and number, and these failed checks, from an unseal.
    want: fn(&mut Group, &[u8], Inputs, u16),
}

macro_rules! calls {
    ($seal:ident, $unseal:ident, $answer:ident { key $(, $number:ident)? }) => {
        Calls {
            name: concat!(stringify!($seal), ", ", stringify!($unseal)),
            compare_seal: |group, inputs| {
                let Inputs { key, version, sealing_key, .. } = inputs;
                $(let $number = inputs.$number;)?
                compare!(group, $seal([key], version, [sealing_key] $(, $number)?));
            },
            compare_unseal: |group, text, Inputs { version, sealing_key, .. }| {
                compare!(group, $unseal([text], [sealing_key], version));
            },
            seal: |inputs| {
                let Inputs { key, version, sealing_key, .. } = inputs;
                engine::$seal(key, version.into(), sealing_key $(, inputs.$number.into())?).bytes
            },
            want: |group, text, inputs, failed_checks| {
                let Inputs { key, version, sealing_key, .. } = inputs;
                let wanted = $answer {
                    refusal: 0,
                    key: fixed(key),
                    $($number: inputs.$number,)?
                    failed_checks,
                };
                compare!(group, $unseal([text], [sealing_key], version), wanted);
            },
        }
    };
}

struct Kind {
    calls: Calls,
    key_length: usize,
    sealing_key_length: usize,
    highest_number: u16,
    /// Key and number with their check bytes.
    expanded: fn(Inputs) -> [u8; 15],
    /// Where the check bytes stand among those.
    checks: &'static [usize],
    /// The key that the cipher gets.
    cipher_key: fn(Inputs) -> [u8; 16],
}

const KINDS: [Kind; 4] = [
    Kind {
        calls: calls!(ta31, ta32, Unsealed { key }),
        key_length: 10,
        sealing_key_length: 10,
        highest_number: 0,
        expanded: |inputs| taa1::exp1(&fixed(inputs.key)),
        checks: &[2, 5, 8, 11, 14],
        cipher_key: |inputs| taa1::exp4(&under_version(fixed(inputs.sealing_key), inputs.version)),
    },
    Kind {
        calls: calls!(ta51, ta52, UnsealedNumbered { key, number }),
        key_length: 10,
        sealing_key_length: 16,
        highest_number: 31,
        expanded: |inputs| taa1::exp3(&fixed(&[inputs.key, &[inputs.number as u8]].concat())),
        checks: &[2, 6, 10, 14],
        cipher_key: |inputs| under_version(fixed(inputs.sealing_key), inputs.version),
    },
    Kind {
        calls: calls!(ta81, ta82, UnsealedNumbered { key, number }),
        key_length: 10,
        sealing_key_length: 16,
        highest_number: u16::MAX,
        expanded: |inputs| x15(&[inputs.key, &inputs.number.to_be_bytes()].concat()),
        checks: &[4, 9, 14],
        cipher_key: |inputs| under_version(fixed(inputs.sealing_key), inputs.version),
    },
    Kind {
        calls: calls!(ta91, ta92, Unsealed { key }),
        key_length: 12,
        sealing_key_length: 16,
        highest_number: 0,
        expanded: |inputs| x15(inputs.key),
        checks: &[4, 9, 14],
        cipher_key: |inputs| under_version(fixed(inputs.sealing_key), inputs.version),
    },
];

fn fixed<const N: usize>(bytes: &[u8]) -> [u8; N] {
    bytes.try_into().expect("a right length")
}

/// X16 without its zero byte.
fn x15(bytes: &[u8]) -> [u8; 15] {
    fixed(&taa1::x16(&fixed(bytes))[..15])
}

type Check = fn(&Kind, &mut Group, &mut Random, Inputs);

/// The groups of every kind, and how many times each runs with new inputs.
const GROUPS: [(&str, usize, Check); 9] = [
    ("random", 50_000, Kind::random),
    ("there and back", 50_000, Kind::there_and_back),
    ("each bit flipped", 200, Kind::flipped),
    ("each bit flipped before sealing", 200, Kind::flipped_before),
    ("every subset of failed checks", 1_000, Kind::subsets),
    ("another version", 200, Kind::another_version),
    ("versions and numbers", 200, Kind::versions_and_numbers),
    ("zeros, ones, single bits", 1, Kind::edges),
    ("lengths, beside wrong numbers", 1, Kind::lengths),
];

pub fn run(tally: &mut Tally, random: &mut Random) {
    for kind in &KINDS {
        for (about, times, check) in GROUPS {
            kind.group(tally, random, about, times, check);
        }
    }
    KINDS[1].group(tally, random, "every number byte", 200, Kind::number_bytes);
}

impl Kind {
    fn group(
        &self,
        tally: &mut Tally,
        random: &mut Random,
        about: &str,
        times: usize,
        check: Check,
    ) {
        tally.group(&format!("{} ({about})", self.calls.name), |group| {
            for _ in 0..times {
                let bytes = random.bytes();
                let inputs = self.inputs(&bytes, random);
                check(self, group, random, inputs);
            }
        });
    }

    fn inputs<'a>(&self, bytes: &'a [u8; 28], random: &mut Random) -> Inputs<'a> {
        Inputs {
            key: &bytes[..self.key_length],
            version: random.number() as u16,
            sealing_key: &bytes[12..][..self.sealing_key_length],
            number: random.number() as u16 & self.highest_number,
        }
    }

    fn random(&self, group: &mut Group, random: &mut Random, inputs: Inputs) {
        (self.calls.compare_seal)(group, inputs);
        (self.calls.compare_unseal)(group, &random.bytes::<15>(), inputs);
    }

    fn there_and_back(&self, group: &mut Group, _: &mut Random, inputs: Inputs) {
        let text = (self.calls.seal)(inputs);
        (self.calls.want)(group, &text, inputs, 0);
    }

    fn flipped(&self, group: &mut Group, _: &mut Random, inputs: Inputs) {
        let text = (self.calls.seal)(inputs);
        for bit in 0..TEXT_BITS {
            (self.calls.compare_unseal)(group, &flipped(text, bit), inputs);
        }
    }

    /// Here a check or two fail and no other.
    fn flipped_before(&self, group: &mut Group, _: &mut Random, inputs: Inputs) {
        let cipher_key = (self.cipher_key)(inputs);
        for bit in 0..TEXT_BITS {
            let text = sealed(&cipher_key, flipped((self.expanded)(inputs), bit));
            (self.calls.compare_unseal)(group, &text, inputs);
        }
    }

    /// Key and number stay right. TA52 has one more check, of the number byte's
    /// three bits, which its check byte follows.
    fn subsets(&self, group: &mut Group, random: &mut Random, inputs: Inputs) {
        let (cipher_key, count) = ((self.cipher_key)(inputs), self.checks.len());
        let zero_bits = usize::from(self.highest_number == 31);
        for failed_checks in 0..1 << (count + zero_bits) {
            let mut bytes = (self.expanded)(inputs);
            for (i, &at) in self.checks.iter().enumerate() {
                if failed_checks >> i & 1 == 1 {
                    bytes[at] ^= 1 + random.below(255) as u8;
                }
            }
            if failed_checks >> count == 1 {
                let three_bits = (1 + random.below(7) as u8) << 5;
                bytes[13] ^= three_bits;
                bytes[14] ^= three_bits;
            }
            let text = sealed(&cipher_key, bytes);
            (self.calls.want)(group, &text, inputs, failed_checks);
        }
    }

    fn another_version(&self, group: &mut Group, _: &mut Random, mut inputs: Inputs) {
        let text = (self.calls.seal)(inputs);
        let version = inputs.version;
        for bit in 0..16 {
            inputs.version = version ^ 1 << bit;
            (self.calls.compare_unseal)(group, &text, inputs);
        }
    }

    fn versions_and_numbers(&self, group: &mut Group, _: &mut Random, mut inputs: Inputs) {
        for version in VERSIONS {
            for number in NUMBERS {
                (inputs.version, inputs.number) = (version, number);
                (self.calls.compare_seal)(group, inputs);
                (self.calls.compare_unseal)(group, &(self.calls.seal)(inputs), inputs);
            }
        }
    }

    fn edges(&self, group: &mut Group, random: &mut Random, inputs: Inputs) {
        for key in edges::strings::<12>() {
            for sealing_key in edges::strings::<16>() {
                let bytes = fixed(&[&key[..], &sealing_key].concat());
                let inputs = self.inputs(&bytes, random);
                (self.calls.compare_seal)(group, inputs);
                self.there_and_back(group, random, inputs);
            }
        }
        for text in edges::strings::<15>() {
            (self.calls.compare_unseal)(group, &text, inputs);
        }
    }

    fn lengths(&self, group: &mut Group, random: &mut Random, inputs: Inputs) {
        let right = [self.key_length, self.sealing_key_length];
        edges::lengths(random, right, |[key, sealing_key]| {
            let mut inputs = inputs;
            (inputs.key, inputs.sealing_key) = (key, sealing_key);
            for number in NUMBERS {
                inputs.number = number;
                (self.calls.compare_seal)(group, inputs);
            }
        });
        let right = [15, self.sealing_key_length];
        edges::lengths(random, right, |[text, sealing_key]| {
            let mut inputs = inputs;
            inputs.sealing_key = sealing_key;
            (self.calls.compare_unseal)(group, text, inputs);
        });
    }

    /// The check bytes are right, and the three bits must be zero. The number
    /// is the other five bits in any case.
    fn number_bytes(&self, group: &mut Group, _: &mut Random, mut inputs: Inputs) {
        let cipher_key = (self.cipher_key)(inputs);
        for byte in 0..=255 {
            inputs.number = byte;
            let text = sealed(&cipher_key, (self.expanded)(inputs));
            inputs.number = byte % 32;
            (self.calls.want)(group, &text, inputs, u16::from(byte > 31) << 4);
        }
    }
}
