//! Changes right books at random and compares what becomes of them, for 60
//! seconds or as many as the argument says.

use host::both::{check_plain, sealed, Call, MOST, OPEN, RING, SEAL};
use host::changes::change;
use host::random::Random;
use host::settings;
use host::tally::{Group, Tally};
use std::process::ExitCode;
use std::time::{Duration, Instant};

fn main() -> ExitCode {
    let limit = Duration::from_secs(settings::argument("usage: fuzz [SECONDS]", 60));
    let start = Instant::now();
    let mut random = Random::from_environment();
    let mut tally = Tally::from_environment();
    // How many books had which answer.
    let mut answers = [[0; 13]; 2];
    tally.group("books changed at random", |group| {
        while start.elapsed() < limit {
            for (call, answers) in [&SEAL, &OPEN].into_iter().zip(&mut answers) {
                let case = Case::random(&mut random, call);
                case.compare(group);
                answers[case.refusal() as usize] += 1;
            }
        }
    });
    println!("books sealed, by refusal from 0 to 12: {:?}", answers[0]);
    println!("books opened, by refusal from 0 to 12: {:?}", answers[1]);
    tally.finish()
}

/// What one of the calls gets.
struct Case {
    call: &'static Call,
    ring: Vec<u8>,
    book: Vec<u8>,
    room: usize,
}

impl Case {
    /// Mostly a short book, with up to four changes.
    fn random(random: &mut Random, call: &'static Call) -> Self {
        let records = match random.below(1_000) {
            0 => MOST - 1 + random.below(3),
            _ => random.below(8),
        };
        let (ring, mut book) = (random.vec(RING), random.plain_book(records));
        if std::ptr::eq(call, &OPEN) {
            book = sealed(&ring, &book);
        }
        let room = call.room(&book) + random.below(3);
        let mut case = Case {
            call,
            ring,
            book,
            room,
        };
        for _ in 0..random.below(5) {
            let Case {
                ring, book, room, ..
            } = &mut case;
            change(random, call.from, ring, book, room);
        }
        case
    }

    fn compare(&self, group: &mut Group) {
        let Case {
            call, ring, book, ..
        } = self;
        call.compare(group, ring, book, self.room);
        call.there_and_back(group, ring, book);
        if std::ptr::eq(*call, &SEAL) {
            check_plain(group, book);
        }
    }

    fn refusal(&self) -> u32 {
        self.call.refusal(&self.ring, &self.book, self.room)
    }
}
