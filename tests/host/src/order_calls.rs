//! Books whose records are put into another order, and books joined.

use crate::edges::rooms;
use host::both::{Call, MOST, OPEN, PLAIN, RING, SEAL, SEALED};
use host::random::Random;
use host::tally::{Group, Tally};

/// Up to the most records together, and above.
const JOINED: [(usize, usize); 12] = [
    (0, 0),
    (0, 1),
    (1, 0),
    (1, 1),
    (1, 2),
    (2, 1),
    (3, 40),
    (0, MOST),
    (MOST, 0),
    (1, MOST - 1),
    (MOST - 1, 1),
    (MOST / 2, MOST / 2),
];
const TOO_MANY: [(usize, usize); 5] = [
    (1, MOST),
    (MOST, 1),
    (2, MOST - 1),
    (MOST / 2, MOST / 2 + 1),
    (MOST, MOST),
];

/// Record `order[i]` of a book at place i, for each i.
fn reordered(book: &[u8], size: usize, order: &[usize]) -> Vec<u8> {
    let record = |&i: &usize| &book[size * i..][..size];
    order.iter().flat_map(record).copied().collect()
}

/// Every order of so many records.
fn orders(count: usize) -> Vec<Vec<usize>> {
    (0..count).fold(vec![Vec::new()], |orders, record| {
        let placed = |order: &Vec<usize>, at: usize| {
            let mut order = order.clone();
            order.insert(at, record);
            order
        };
        orders
            .iter()
            .flat_map(|order| (0..=record).map(move |at| placed(order, at)))
            .collect()
    })
}

pub fn run(tally: &mut Tally, random: &mut Random) {
    tally.group("books (reordered)", |group| {
        for _ in 0..2_000 {
            let count = random.below(12);
            shuffled(group, random, count);
        }
        for count in [0, 1, 2, 3, 4, 5, MOST - 1, MOST] {
            shuffled(group, random, count);
        }
    });
    tally.group("books (a record of each kind in every order)", |group| {
        let ring = random.bytes::<RING>();
        let plain: Vec<u8> = (1..=6).flat_map(|kind| random.record(kind)).collect();
        for order in orders(6) {
            alike(group, &ring, &plain, &order);
        }
    });
    tally.group("books (joined)", |group| {
        for (first, second) in JOINED {
            joined(group, random, first, second);
        }
        for _ in 0..2_000 {
            let (first, second) = (random.below(8), random.below(8));
            joined(group, random, first, second);
        }
    });
    tally.group("books (joined, too many records)", |group| {
        for (first, second) in TOO_MANY {
            let ring = random.bytes::<RING>();
            let books = [first, second].map(|count| random.plain_book(count));
            let sealed = [0, 1].map(|i| SEAL.made(&ring, &books[i]));
            for (call, book) in [(&SEAL, books.concat()), (&OPEN, sealed.concat())] {
                for room in rooms(call.room(&book)) {
                    call.want_refused(group, &ring, &book, room, (1, 0, 0));
                }
            }
        }
    });
    tally.group("books (joined under two rings)", |group| {
        for _ in 0..500 {
            let books = [random.below(4), random.below(4)].map(|count| random.plain_book(count));
            let rings: [[u8; RING]; 2] = [random.bytes(), random.bytes()];
            let sealed = [0, 1].map(|i| SEAL.made(&rings[i], &books[i])).concat();
            for ring in rings {
                OPEN.compare(group, &ring, &sealed, OPEN.room(&sealed));
            }
        }
    });
}

/// Any order, the reverse, and the first record last.
fn shuffled(group: &mut Group, random: &mut Random, count: usize) {
    let (ring, plain) = (random.bytes(), random.plain_book(count));
    let mut order: Vec<usize> = (0..count).collect();
    random.shuffle(&mut order);
    alike(group, &ring, &plain, &order);
    alike(group, &ring, &plain, &(0..count).rev().collect::<Vec<_>>());
    alike(
        group,
        &ring,
        &plain,
        &(1..count).chain(0..count.min(1)).collect::<Vec<_>>(),
    );
}

/// The reordered book is sealed to the sealed book reordered alike, which opens to it.
fn alike(group: &mut Group, ring: &[u8; RING], plain: &[u8], order: &[usize]) {
    if group.turn() {
        let sealed = reordered(&SEAL.made(ring, plain), SEALED, order);
        both(group, ring, &reordered(plain, PLAIN, order), &sealed);
    }
}

/// Two books joined are sealed to the two sealed books joined, which open to them.
fn joined(group: &mut Group, random: &mut Random, first: usize, second: usize) {
    let ring = random.bytes::<RING>();
    let books = [first, second].map(|count| random.plain_book(count));
    if group.turn() {
        let sealed = [0, 1].map(|i| SEAL.made(&ring, &books[i]));
        both(group, &ring, &books.concat(), &sealed.concat());
    }
}

/// Sealing gives this sealed book and opening gives the plain one, into exact and
/// into longer outputs.
fn both(group: &mut Group, ring: &[u8], plain: &[u8], sealed: &[u8]) {
    let calls: [(&Call, &[u8], &[u8]); 2] = [(&SEAL, plain, sealed), (&OPEN, sealed, plain)];
    for (call, book, wanted) in calls {
        for more in [0, 1, 50] {
            call.want_in(group, ring, book, wanted, wanted.len() + more);
        }
    }
}
