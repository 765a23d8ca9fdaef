//! Small changes of what a book's call gets.

use crate::random::Random;

/// Kinds and numbers at their edges.
const EDGES: [u8; 11] = [0, 1, 2, 3, 4, 5, 6, 7, 31, 32, 255];

/// One change of the ring, of the book, whose records have so many bytes, or of the
/// output's room.
pub fn change(
    random: &mut Random,
    size: usize,
    ring: &mut Vec<u8>,
    book: &mut Vec<u8>,
    room: &mut usize,
) {
    let records = book.len() / size;
    let start = size * random.below(records.max(1));
    match random.below(10) {
        0 => *room = random.below(*room + 2),
        1 => change_byte(ring, random),
        2 => change_byte(book, random),
        3 => change_length(ring, random),
        4 => change_length(book, random),
        _ if records == 0 => {}
        5 => book[..start + size].rotate_right(size),
        6 => drop(book.drain(start..start + size)),
        7 => book.extend_from_within(start..start + size),
        8 => book[start] = edge(random),
        _ => book[start + size - 1 - random.below(2)] = edge(random),
    }
}

fn edge(random: &mut Random) -> u8 {
    EDGES[random.below(EDGES.len())]
}

/// A bit flipped, or another byte.
pub fn change_byte(bytes: &mut [u8], random: &mut Random) {
    if !bytes.is_empty() {
        let byte = &mut bytes[random.below(bytes.len())];
        *byte = match random.below(2) {
            0 => *byte ^ 1 << random.below(8),
            _ => random.number() as u8,
        };
    }
}

/// Cuts the bytes, or puts up to two in.
pub fn change_length(bytes: &mut Vec<u8>, random: &mut Random) {
    let at = random.below(bytes.len() + 1);
    match random.below(3) {
        0 => bytes.truncate(at),
        count => drop(bytes.splice(at..at, random.vec(count))),
    }
}
