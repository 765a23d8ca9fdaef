//! The proof that docs/PROVING.md explains line by line: what it quotes stands in the crate.

use crate::project::{read, section};
use std::path::Path;

const HEADING: &str = "## A proof file, line by line\n";
const CRATE: &str = "crates/diffusion";
const FILES: [&str; 3] = [
    "src/lib.rt",
    "proofs/count/Invariants.antt",
    "proofs/count/Answers.antt",
];

/// Whether each indented line stands in one of the files. One that has `..` leaves
/// something out, and is not looked for.
pub fn check(root: &Path) -> (usize, Vec<String>) {
    let guide = read(&root.join("docs/PROVING.md"));
    let files = FILES.map(|file| read(&root.join(CRATE).join(file)));
    let quoted = section(&guide, HEADING)
        .lines()
        .filter(|line| line.starts_with("    ") && !line.contains(".."));
    let untold = quoted.filter(|line| !files.iter().any(|file| file.contains(line.trim())));
    let faults: Vec<String> = untold
        .map(|line| format!("docs/PROVING.md: not in {CRATE}: {line}"))
        .collect();
    (usize::from(faults.is_empty()), faults)
}
