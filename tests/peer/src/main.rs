//! Compares the engine and the independent implementation with osmo-tetra.
//! One module for each family of calls.

/// The engine and the independent implementation with what osmo-tetra gives.
#[cfg(peer)]
macro_rules! compare_three {
    ($group:ident, $call:ident $inputs:tt, $wanted:expr) => {
        host::compare!($group, $call $inputs, $wanted);
        host::compare!($group, $call $inputs);
    };
}

#[cfg(peer)]
mod books;
#[cfg(peer)]
mod cipher;
#[cfg(peer)]
mod derivation;
#[cfg(peer)]
mod mixing;
#[cfg(peer)]
mod seals;

use host::tally::Tally;
use std::process::ExitCode;

#[cfg(peer)]
fn run(tally: &mut Tally) {
    let mut random = host::random::Random::from_environment();
    cipher::run(tally, &mut random);
    derivation::run(tally, &mut random);
    seals::run(tally, &mut random);
    mixing::run(tally, &mut random);
    books::run(tally, &mut random);
}

#[cfg(not(peer))]
fn run(_: &mut Tally) {
    println!("osmo-tetra could not be fetched: nothing is compared with it");
}

fn main() -> ExitCode {
    let mut tally = Tally::from_environment();
    run(&mut tally);
    tally.finish()
}
