//! Compares the engine, called as a host calls it, with an independent
//! implementation. One module for each family of calls.

mod book_calls;
mod card_calls;
mod cipher;
mod class_calls;
mod column_calls;
mod derivation;
mod diffusion_calls;
mod edges;
mod identity;
mod inverse_calls;
mod lineage_calls;
mod list;
mod masks;
mod mixing;
mod order_calls;
mod ring;
mod seals;

use host::random::Random;
use host::tally::Tally;
use std::process::ExitCode;

fn main() -> ExitCode {
    let mut random = Random::from_environment();
    let mut tally = Tally::from_environment();
    cipher::run(&mut tally, &mut random);
    derivation::run(&mut tally, &mut random);
    seals::run(&mut tally, &mut random);
    identity::run(&mut tally, &mut random);
    mixing::run(&mut tally, &mut random);
    inverse_calls::run(&mut tally, &mut random);
    card_calls::run(&mut tally, &mut random);
    ring::run(&mut tally, &mut random);
    book_calls::run(&mut tally, &mut random);
    order_calls::run(&mut tally, &mut random);
    class_calls::run(&mut tally, &mut random);
    lineage_calls::run(&mut tally, &mut random);
    column_calls::run(&mut tally, &mut random);
    diffusion_calls::run(&mut tally, &mut random);
    tally.finish()
}
