//! Keys mixed without the cipher.

use host::engine::accepted;
use host::random::Random;
use host::tally::Tally;
use peer::osmo;

const TIMES: usize = 20_000;

pub fn run(tally: &mut Tally, random: &mut Random) {
    tally.group("tb4 beside osmo-tetra", |group| {
        for _ in 0..TIMES {
            let (input1, input2) = (random.bytes(), random.bytes());
            let wanted = accepted(osmo::tb4(&input1, &input2));
            compare_three!(group, tb4([input1], [input2]), wanted);
        }
    });
    tally.group("tb5 beside osmo-tetra", |group| {
        for _ in 0..TIMES {
            let key = random.bytes();
            let (location_area, carrier) = (random.number() >> 50, random.number() >> 52);
            let colour_code = random.number() >> 58;
            let wanted = accepted(osmo::tb5(
                &right(carrier),
                &right(location_area),
                &right(colour_code),
                &key,
            ));
            compare_three!(
                group,
                tb5([key], location_area, carrier, colour_code),
                wanted
            );
        }
    });
    tally.group("tb6 beside osmo-tetra", |group| {
        for _ in 0..TIMES {
            let (key, carrier, identity) =
                (random.bytes(), random.number() >> 52, random.number() >> 40);
            let wanted = accepted(osmo::tb6(&key, &right(carrier), &right(identity)));
            compare_three!(group, tb6([key], carrier, identity), wanted);
        }
    });
    tally.group("tb7 beside osmo-tetra", |group| {
        for _ in 0..TIMES {
            let key = random.bytes();
            let wanted = accepted(osmo::tb7(&key));
            compare_three!(group, tb7([key]), wanted);
        }
    });
}

/// The rightmost bytes of a number.
fn right<const N: usize>(number: u64) -> [u8; N] {
    std::array::from_fn(|i| (number >> (8 * (N - 1 - i))) as u8)
}
