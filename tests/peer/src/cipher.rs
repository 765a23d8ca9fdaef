//! HURDLE-II.

use host::engine::accepted;
use host::random::Random;
use host::tally::Tally;
use peer::osmo;

const PAIRS: usize = 100_000;

pub fn run(tally: &mut Tally, random: &mut Random) {
    tally.group("encrypt beside osmo-tetra", |group| {
        for _ in 0..PAIRS {
            let (key, block) = (random.bytes(), random.bytes());
            let wanted = accepted(osmo::encrypt(&key, &block));
            compare_three!(group, encrypt([key], [block]), wanted);
            compare_three!(group, encrypt_register([key], [block]), wanted);
        }
    });
    tally.group("decrypt beside osmo-tetra", |group| {
        for _ in 0..PAIRS {
            let (key, block) = (random.bytes(), random.bytes());
            let wanted = accepted(osmo::decrypt(&key, &block));
            compare_three!(group, decrypt([key], [block]), wanted);
            compare_three!(group, decrypt_register([key], [block]), wanted);
        }
    });
}
