//! Calls with an output made twice: through the engine and by the independent
//! implementation.

use crate::books;
use crate::engine::{self, null_out, CountedAnswer};
use crate::tally::Group;
pub use interface::{
    AUTHENTICATION_BYTES as AUTHENTICATION, CHALLENGE_BYTES as CHALLENGE, MOST_RECORDS as MOST,
    PLAIN_RECORD_BYTES as PLAIN, RING_BYTES as RING, SEALED_RECORD_BYTES as SEALED,
};
use std::fmt::{Debug, Formatter, Result};

/// Bytes on either side of an output, which no call may touch.
pub(crate) const MARGIN: usize = 64;

/// Sealing or opening.
pub struct Call {
    name: &'static str,
    engine: fn(&[u8], &[u8], &mut [u8]) -> CountedAnswer,
    other: fn(&[u8], &[u8], &mut [u8]) -> books::CountedAnswer,
    /// Bytes of a record handed in, and of a record written.
    pub from: usize,
    pub to: usize,
    /// How often each record goes through the cipher.
    passes: usize,
    back: &'static Call,
}

pub static SEAL: Call = Call {
    name: "seal_book",
    engine: engine::seal_book,
    other: books::seal_book,
    from: PLAIN,
    to: SEALED,
    passes: 1,
    back: &OPEN,
};

pub static OPEN: Call = Call {
    name: "open_book",
    engine: engine::open_book,
    other: books::open_book,
    from: SEALED,
    to: PLAIN,
    passes: 2,
    back: &SEAL,
};

impl Call {
    /// The room that the book's whole records need.
    pub fn room(&self, book: &[u8]) -> usize {
        book.len() / self.from * self.to
    }

    /// What the engine answers.
    pub fn refusal(&self, ring: &[u8], book: &[u8], room: usize) -> u32 {
        let (answer, _) = lent(room, |out| (self.engine)(ring, book, out));
        answer.refusal
    }

    /// What the engine writes for an accepted book.
    pub fn made(&self, ring: &[u8], book: &[u8]) -> Vec<u8> {
        let mut out = vec![0; self.room(book)];
        (self.engine)(ring, book, &mut out);
        out
    }

    /// Compares with the independent implementation. An output without room is null too.
    pub fn compare(&self, group: &mut Group, ring: &[u8], book: &[u8], room: usize) {
        if group.turn() {
            self.same_as_other(group, ring, book, room);
        }
    }

    /// Wants the book accepted, these bytes written and the runs of the rules,
    /// whatever the independent implementation does.
    pub fn want(&self, group: &mut Group, ring: &[u8], book: &[u8], wanted: &[u8]) {
        self.want_in(group, ring, book, wanted, wanted.len());
    }

    /// The same in an output that may be longer.
    pub fn want_in(&self, group: &mut Group, ring: &[u8], book: &[u8], wanted: &[u8], room: usize) {
        self.same(group, ring, book, room, |out| {
            out[..wanted.len()].copy_from_slice(wanted);
            let index = book.len() / self.from;
            CountedAnswer {
                refusal: 0,
                index,
                written: wanted.len(),
                runs: usize::from(index > 0) + 2 * self.passes * index,
            }
        });
    }

    /// Wants the book refused and the output as it was.
    pub fn want_refused(
        &self,
        group: &mut Group,
        ring: &[u8],
        book: &[u8],
        room: usize,
        (refusal, index, runs): (u32, usize, usize),
    ) {
        if group.turn() {
            self.same(group, ring, book, room, |_| CountedAnswer {
                refusal,
                index,
                written: 0,
                runs,
            });
        }
    }

    /// Compares, and wants what is accepted to come back by the other call.
    pub fn there_and_back(&self, group: &mut Group, ring: &[u8], book: &[u8]) {
        if group.turn() {
            let room = self.room(book);
            self.same_as_other(group, ring, book, room + 1);
            let (answer, bytes) = lent(room, |out| (self.engine)(ring, book, out));
            if answer.refusal == 0 {
                self.back.want(group, ring, &bytes[MARGIN..][..room], book);
            }
        }
    }

    fn same_as_other(&self, group: &mut Group, ring: &[u8], book: &[u8], room: usize) {
        self.same(group, ring, book, room, |out| {
            (self.other)(ring, book, out).into()
        });
        if room == 0 {
            group.same(
                self.name,
                &[("ring", &ring), ("book", &Start(book))],
                (self.engine)(ring, book, null_out()),
                (self.other)(ring, book, &mut []),
            );
        }
    }

    fn same(
        &self,
        group: &mut Group,
        ring: &[u8],
        book: &[u8],
        room: usize,
        wanted: impl FnOnce(&mut [u8]) -> CountedAnswer,
    ) {
        same_output(
            group,
            self.name,
            &[("ring", &ring), ("book", &Start(book)), ("room", &room)],
            room,
            |out| (self.engine)(ring, book, out),
            wanted,
        );
    }
}

/// Compares the answer, and the whole output with the bytes around it.
pub fn same_output<A: PartialEq + Debug>(
    group: &mut Group,
    call: &str,
    inputs: &[(&str, &dyn Debug)],
    room: usize,
    got: impl FnOnce(&mut [u8]) -> A,
    wanted: impl FnOnce(&mut [u8]) -> A,
) {
    let (answer, got) = lent(room, got);
    let (wanted_answer, wanted) = lent(room, wanted);
    let place = (0..got.len()).find(|&i| got[i] != wanted[i]);
    let difference = place.map(|i| Difference {
        place: i as isize - MARGIN as isize,
        got: got[i],
        wanted: wanted[i],
    });
    group.same(call, inputs, (answer, difference), (wanted_answer, None));
}

/// The first byte that is not as wanted, counted from the output's start.
#[derive(Debug, PartialEq)]
struct Difference {
    place: isize,
    got: u8,
    wanted: u8,
}

/// A call with an output in the middle of bytes that stay as they are.
pub(crate) fn lent<A>(room: usize, call: impl FnOnce(&mut [u8]) -> A) -> (A, Vec<u8>) {
    let mut bytes: Vec<u8> = (1..=MARGIN + room + MARGIN)
        .map(|i| (i * 77) as u8)
        .collect();
    let answer = call(&mut bytes[MARGIN..][..room]);
    (answer, bytes)
}

pub fn check_plain(group: &mut Group, plain: &[u8]) {
    if group.turn() {
        group.same(
            "check_plain",
            &[("plain", &Start(plain))],
            engine::check_plain(plain),
            books::check_plain(plain),
        );
    }
}

/// Each record sealed as a book of its own, however many there are.
pub fn sealed(ring: &[u8], plain: &[u8]) -> Vec<u8> {
    let seal = |record| {
        let mut sealed = [0; SEALED];
        engine::seal_book(ring, record, &mut sealed);
        sealed
    };
    plain.chunks_exact(PLAIN).flat_map(seal).collect()
}

/// The same by the independent implementation, which takes up to the most at once.
pub fn sealed_by_reference(ring: &[u8], plain: &[u8]) -> Vec<u8> {
    let mut sealed = vec![0; plain.len() / PLAIN * SEALED];
    let places = sealed.chunks_mut(MOST * SEALED);
    for (records, place) in plain.chunks(MOST * PLAIN).zip(places) {
        books::seal_book(ring, records, place);
    }
    sealed
}

/// Shows the first records of a book or class; the seed of the run gives the others.
pub struct Start<'a>(pub &'a [u8]);

impl Debug for Start<'_> {
    fn fmt(&self, f: &mut Formatter) -> Result {
        write!(f, "({} bytes) ", self.0.len())?;
        self.0[..self.0.len().min(4 * SEALED)].fmt(f)
    }
}
