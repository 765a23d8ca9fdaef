//! Seals, and unseals of right, of damaged and of random texts.

use host::damaged::{flipped, sealed, under_version};
use host::engine::{accepted, Unsealed, UnsealedNumbered};
use host::random::Random;
use host::taa1::{self, exp1, exp3, exp4, x16};
use host::tally::{Group, Tally};
use peer::osmo;
use std::array::from_fn;

const TIMES: usize = 20_000;

pub fn run(tally: &mut Tally, random: &mut Random) {
    tally.group("ta31, ta32 beside osmo-tetra, re-paired", |group| {
        for _ in 0..TIMES {
            let (key, sealing_key) = (random.bytes(), random.bytes());
            let version = random.number() as u16;
            let osmo_key = osmo::repaired(&sealing_key, version);
            let osmo_version = version.to_be_bytes();
            let text = osmo::ta31(&key, &osmo_version, &osmo_key);
            let wanted = accepted(text);
            compare_three!(group, ta31([key], version, [sealing_key]), wanted);
            let cipher_key = exp4(&under_version(sealing_key, version));
            let damaged = damaged(random, &cipher_key, &exp1(&key));
            for text in [text, damaged, random.bytes()] {
                let (key, flag) = osmo::ta32(&text, &osmo_version, &osmo_key);
                let opened = taa1::ta32(&text, &sealing_key, version);
                let failed_checks = known(group, &text, opened.failed_checks, flag);
                let wanted = Unsealed {
                    refusal: 0,
                    key,
                    failed_checks,
                };
                compare_three!(group, ta32([text], [sealing_key], version), wanted);
            }
        }
    });
    tally.group("ta51, ta52 beside osmo-tetra", |group| {
        for _ in 0..TIMES {
            let (key, sealing_key) = (random.bytes(), random.bytes());
            let (version, byte) = (random.number() as u16, random.number() as u8);
            let number = u16::from(byte % 32);
            let osmo_version = version.to_be_bytes();
            let text = osmo::ta51(&key, &osmo_version, &sealing_key, &[byte % 32]);
            let wanted = accepted(text);
            compare_three!(group, ta51([key], version, [sealing_key], number), wanted);
            let cipher_key = under_version(sealing_key, version);
            let expanded = exp3(&from_fn(|i| if i < 10 { key[i] } else { byte }));
            let damaged = damaged(random, &cipher_key, &expanded);
            let any_number = sealed(&cipher_key, expanded);
            for text in [text, damaged, any_number, random.bytes()] {
                // osmo-tetra gives the whole number byte.
                let (key, flag, [byte]) = osmo::ta52(&text, &sealing_key, &osmo_version);
                let opened = taa1::ta52(&text, &sealing_key, version);
                let failed_checks = known(group, &text, opened.failed_checks, flag);
                let wanted = UnsealedNumbered {
                    refusal: 0,
                    key,
                    number: u16::from(byte % 32),
                    failed_checks,
                };
                compare_three!(group, ta52([text], [sealing_key], version), wanted);
            }
        }
    });
    tally.group("ta81, ta82 beside osmo-tetra", |group| {
        for _ in 0..TIMES {
            let (key, sealing_key) = (random.bytes(), random.bytes());
            let (version, number) = (random.number() as u16, random.number() as u16);
            let osmo_version = version.to_be_bytes();
            let osmo_number = number.to_be_bytes();
            let text = osmo::ta81(&key, &osmo_version, &osmo_number, &sealing_key);
            let wanted = accepted(text);
            compare_three!(group, ta81([key], version, [sealing_key], number), wanted);
            let cipher_key = under_version(sealing_key, version);
            let body = from_fn(|i| if i < 10 { key[i] } else { osmo_number[i - 10] });
            let damaged = damaged(random, &cipher_key, &x16(&body));
            for text in [text, damaged, random.bytes()] {
                let (key, flag, number) = osmo::ta82(&text, &osmo_version, &sealing_key);
                let opened = taa1::ta82(&text, &sealing_key, version);
                let failed_checks = known(group, &text, opened.failed_checks, flag);
                let wanted = UnsealedNumbered {
                    refusal: 0,
                    key,
                    number: u16::from_be_bytes(number),
                    failed_checks,
                };
                compare_three!(group, ta82([text], [sealing_key], version), wanted);
            }
        }
    });
    tally.group("ta91, ta92 beside osmo-tetra", |group| {
        for _ in 0..TIMES {
            let (key, sealing_key) = (random.bytes(), random.bytes());
            let version = random.number() as u16;
            let osmo_version = version.to_be_bytes();
            let text = osmo::ta91(&key, &osmo_version, &sealing_key);
            let wanted = accepted(text);
            compare_three!(group, ta91([key], version, [sealing_key]), wanted);
            let damaged = damaged(random, &under_version(sealing_key, version), &x16(&key));
            for text in [text, damaged, random.bytes()] {
                let (key, flag) = osmo::ta92(&text, &osmo_version, &sealing_key);
                let opened = taa1::ta92(&text, &sealing_key, version);
                let failed_checks = known(group, &text, opened.failed_checks, flag);
                let wanted = Unsealed {
                    refusal: 0,
                    key,
                    failed_checks,
                };
                compare_three!(group, ta92([text], [sealing_key], version), wanted);
            }
        }
    });
}

/// One bit of fifteen bytes flipped before they are sealed.
fn damaged(random: &mut Random, cipher_key: &[u8; 16], expanded: &[u8]) -> [u8; 15] {
    let bit = random.number() as usize % 120;
    sealed(cipher_key, flipped(from_fn(|i| expanded[i]), bit))
}

/// The independent implementation's failed checks. osmo-tetra's flag tells whether
/// there are any.
fn known(group: &mut Group, text: &[u8; 15], failed_checks: u16, [flag]: [u8; 1]) -> u16 {
    group.same("flag", &[("text", text)], failed_checks != 0, flag != 0);
    failed_checks
}
