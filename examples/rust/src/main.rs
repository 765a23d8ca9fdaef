// SPDX-License-Identifier: MIT
//! Plays a sitting: makes the ring, and the ring of the one-sided sitting, works
//! the lineage of its keys, seals the model book, opens it and seals it again, then
//! opens the candidate's book and gives part marks for the text that seals no key.
//!
//!     sitting [FOLDER]    the folder with the five files; samples by default

use std::ffi::OsStr;
use std::io::{self, Write};
use std::path::Path;
use std::process::ExitCode;
use std::{env, fs};

use taa1::{
    CountedBook, FailedChecks, Kind, Refusal, RingMade, Sitting, Version, RING_BYTES,
    SEALED_RECORD_BYTES, SITTING_BYTES, TA32_CHECKS, TA52_CHECKS, TA82_CHECKS, TA92_CHECKS,
};

fn read(folder: &OsStr, name: &str) -> Result<Vec<u8>, String> {
    let mut path = folder.to_os_string();
    path.push("/");
    path.push(name);
    fs::read(&path).map_err(|_| format!("{} cannot be read", Path::new(&path).display()))
}

/// The sitting in the bytes of its file.
fn parse(bytes: &[u8]) -> Option<Sitting<'_>> {
    if bytes.len() != SITTING_BYTES {
        return None;
    }
    Some(Sitting {
        root: &bytes[..16],
        rs: &bytes[16..26],
        rso: &bytes[26..36],
        rand1: &bytes[36..46],
        rand2: &bytes[46..56],
        c: &bytes[56..66],
        group_key: &bytes[66..78],
        sides: bytes[78].into(),
        response_mask: u16::from_be_bytes([bytes[79], bytes[80]]),
        key_mask: u16::from_be_bytes([bytes[81], bytes[82]]),
    })
}

/// The ring of the sitting in a file of this name.
fn make_ring(name: &str, bytes: &[u8]) -> Result<RingMade, String> {
    let sitting =
        parse(bytes).ok_or_else(|| format!("{name} does not have {SITTING_BYTES} bytes"))?;
    taa1::ring(&sitting).map_err(|e| format!("{name}: {e}"))
}

/// A ring and both responses; each line begins with these words.
fn ring_lines(words: &str, made: &RingMade) -> [String; 3] {
    [
        format!("{words}ring {}", hex(&made.ring)),
        format!("{words}response 1 {}", hex(&made.response1)),
        format!("{words}response 2 {}", hex(&made.response2)),
    ]
}

fn hex(bytes: &[u8]) -> String {
    bytes.iter().map(|byte| format!("{byte:02x}")).collect()
}

/// The checks of a sealed record's text that fail, of how many.
fn checks_of(ring: &[u8; RING_BYTES], record: &[u8]) -> Result<(FailedChecks, usize), Refusal> {
    let (d, o, g) = (&ring[..10], &ring[10..26], &ring[36..]);
    let version = Version(u16::from_be_bytes([record[4], record[5]]));
    let text = &record[6..];
    let numbered_5 = |key| taa1::ta52(text, key, version).map(|u| (u.failed_checks, TA52_CHECKS));
    let numbered_16 = |key| taa1::ta82(text, key, version).map(|u| (u.failed_checks, TA82_CHECKS));
    match record[0] {
        k if k == Kind::Ta31 as u8 => {
            taa1::ta32(text, d, version).map(|u| (u.failed_checks, TA32_CHECKS))
        }
        k if k == Kind::Ta51 as u8 => numbered_5(o),
        k if k == Kind::Ta51G as u8 => numbered_5(g),
        k if k == Kind::Ta81 as u8 => numbered_16(o),
        k if k == Kind::Ta81G as u8 => numbered_16(g),
        _ => taa1::ta92(text, o, version).map(|u| (u.failed_checks, TA92_CHECKS)),
    }
}

/// Part marks: which checks of a record fail, leftmost first.
fn marks_line(index: usize, (failed, count): (FailedChecks, usize)) -> String {
    let places: String = failed.places().map(|place| format!(" {place}")).collect();
    format!("record {index}, of {count} checks failed:{places}")
}

/// A book's records and bytes, and the cipher runs that it took.
fn size(book: &CountedBook) -> String {
    let (records, length, runs) = (book.records, book.bytes.len(), book.runs);
    format!("{records} records, {length} bytes, {runs} runs")
}

/// The lines of a sitting, as far as it goes, into `lines`.
fn play(folder: &OsStr, lines: &mut Vec<String>) -> Result<(), String> {
    let sitting = read(folder, "sitting.bin")?;
    let one_sided = read(folder, "one-sided.bin")?;
    let sheet = read(folder, "lineage.sheet")?;
    let plain = read(folder, "plain.book")?;
    let candidate = read(folder, "candidate.book")?;

    let made = make_ring("sitting.bin", &sitting)?;
    lines.extend(ring_lines("", &made));
    let of_one_side = make_ring("one-sided.bin", &one_sided)?;
    lines.extend(ring_lines("one-sided ", &of_one_side));

    let values = taa1::lineage(&sheet).map_err(|e| format!("lineage.sheet: {e}"))?;
    let (records, length) = (values.len(), values.concat().len());
    lines.push(format!("lineage {records} records, {length} bytes"));
    for value in &values {
        lines.push(format!("lineage {}", hex(value)));
    }

    let sealed = taa1::seal_book(&made.ring, &plain).map_err(|e| format!("plain.book: {e}"))?;
    lines.push(format!("sealed {}", size(&sealed)));
    for record in sealed.bytes.chunks(SEALED_RECORD_BYTES) {
        lines.push(format!("sealed {}", hex(record)));
    }

    let opened =
        taa1::open_book(&made.ring, &sealed.bytes).map_err(|e| format!("the sealed book: {e}"))?;
    if opened.bytes != plain {
        return Err("the opened book is not the plain book".into());
    }
    lines.push(format!("opened {}: the plain book", size(&opened)));

    let again =
        taa1::seal_book(&made.ring, &opened.bytes).map_err(|e| format!("the opened book: {e}"))?;
    if again != sealed {
        return Err("the book sealed again is another".into());
    }
    lines.push(format!("sealed again {}: the same bytes", size(&again)));

    match taa1::open_book(&made.ring, &candidate) {
        Ok(book) => lines.push(format!("accepted {}", size(&book))),
        Err(refused) => {
            lines.push(refused.to_string());
            if refused.refusal == Refusal::FlagSet {
                let index = refused.index;
                let record = &candidate[index * SEALED_RECORD_BYTES..][..SEALED_RECORD_BYTES];
                let checks = checks_of(&made.ring, record).map_err(|e| e.to_string())?;
                lines.push(marks_line(index, checks));
            }
        }
    }
    Ok(())
}

fn print(lines: &[String]) -> io::Result<()> {
    let mut out = io::stdout().lock();
    for line in lines {
        writeln!(out, "{line}")?;
    }
    out.flush()
}

fn main() -> ExitCode {
    let folder = env::args_os().nth(1).unwrap_or_else(|| "samples".into());
    let mut lines = Vec::new();
    let played = play(&folder, &mut lines);
    let printed = print(&lines).map_err(|_| "standard output cannot be written".into());
    match played.and(printed) {
        Ok(()) => ExitCode::SUCCESS,
        Err(why) => {
            eprintln!("sitting: {why}");
            ExitCode::FAILURE
        }
    }
}
