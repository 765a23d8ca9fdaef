//! The rows of crates/claims/argument.toml beside the crates that they name: a row's label
//! and sentence stand above its statement in specs/, and its theorem, in proofs/, has that
//! statement. No claim of a crate whose name ends in claims is left out, and no public
//! theorem of a proof file whose name ends in Claims. `contracts write` writes the labels
//! and sentences above the statements.

use crate::argument::{Argument, Row, FILE};
use crate::project::{files, read, File};
use std::collections::{BTreeMap, BTreeSet};
use std::fs;
use std::path::Path;

/// How wide a comment is that is written anew.
const WIDTH: usize = 140;

/// A crate's files of specs/ and of proofs/, by their names without an ending.
#[derive(Default)]
pub struct Folder {
    specs: Vec<File>,
    proofs: Vec<File>,
}

type Folders = BTreeMap<String, Folder>;

/// A claim of a file in specs/: its label, its sentence, where its comment begins, and its
/// text up to the next claim.
struct Claim<'a> {
    label: &'a str,
    sentence: String,
    at: usize,
    text: &'a str,
}

/// A claim's label, where a comment begins with one: `-- 4a: "..`.
fn label(line: &str) -> Option<&str> {
    let (label, rest) = line.strip_prefix("-- ")?.split_once(": ")?;
    let is_label = label
        .bytes()
        .all(|b| b.is_ascii_alphanumeric() || b == b'-');
    (is_label && !label.is_empty() && rest.starts_with('"')).then_some(label)
}

fn claims(source: &str) -> Vec<Claim<'_>> {
    let mut starts: Vec<(usize, &str)> = Vec::new();
    let mut at = 0;
    for line in source.split_inclusive('\n') {
        if let Some(label) = label(line) {
            starts.push((at, label));
        }
        at += line.len();
    }
    let ends = starts.iter().skip(1).map(|start| start.0).chain([at]);
    let spans = starts.iter().zip(ends);
    spans
        .map(|((start, label), end)| {
            let text = &source[*start..end];
            let quoted = text.split('"').nth(1).unwrap_or("");
            Claim {
                label,
                sentence: quoted.replace("\n-- ", " "),
                at: *start,
                text,
            }
        })
        .collect()
}

impl Claim<'_> {
    /// Whether a row's statement stands under it.
    fn declares(&self, name: &str) -> bool {
        let heads = [
            format!("abbrev pub {name} :"),
            format!("pub record {name} :"),
        ];
        let starts = |line: &str| heads.iter().any(|head| line.starts_with(head));
        self.text.lines().any(starts)
    }

    /// Its comment's length, and the comment with a row's label and sentence.
    fn with(&self, row: &Row) -> (usize, String) {
        let lines = self.text.split_inclusive('\n');
        let lines: Vec<&str> = lines.take_while(|line| line.starts_with("-- ")).collect();
        let long = lines.iter().map(|line| line.len()).sum();
        let words = lines.iter().map(|line| line[2..].trim());
        let said = words.collect::<Vec<_>>().join(" ");
        let after = said.splitn(3, '"').nth(2).unwrap_or("");
        (
            long,
            wrapped(&format!("{}: \"{}\"{after}", row.label, row.sentence)),
        )
    }
}

/// Words as a comment.
fn wrapped(words: &str) -> String {
    let mut lines = vec!["--".to_string()];
    for word in words.split(' ') {
        let last = lines.last_mut().expect("one at least");
        match last.chars().count() + 1 + word.chars().count() <= WIDTH {
            true => last.push_str(&format!(" {word}")),
            false => lines.push(format!("-- {word}")),
        }
    }
    lines.iter().map(|line| format!("{line}\n")).collect()
}

/// The name and the statement of a public theorem: its type is a statement's name alone,
/// where a lemma that another file uses spells its own out.
fn theorem(line: &str) -> Option<(&str, &str)> {
    let found = line.strip_prefix("pub ")?.split_once(" : ")?;
    (!found.1.contains(' ')).then_some(found)
}

fn of_file<'a>(files: &'a [File], name: &str) -> &'a str {
    let found = files.iter().find(|(file, _)| file == name);
    found.map_or("", |(_, text)| text)
}

/// A file and a name with a dot between them.
fn place(name: &str) -> (&str, &str) {
    name.split_once('.').unwrap_or((name, ""))
}

/// What is wrong with a row that has a statement.
fn fault(row: &Row, folder: &Folder) -> Option<String> {
    let (file, name) = place(&row.statement);
    let claims = claims(of_file(&folder.specs, file));
    let claim = match claims.iter().find(|claim| claim.declares(name)) {
        Some(claim) => claim,
        None => {
            let path = format!("crates/{}/specs/{file}.antt", row.folder);
            return Some(format!(
                "{path} does not state {name} under a comment -- LABEL: \"..\""
            ));
        }
    };
    if (claim.label, &claim.sentence) != (&row.label[..], &row.sentence) {
        let wanted = format!("-- {}: \"{}\"", row.label, row.sentence);
        return Some(format!(
            "above {name} should stand {wanted}; `contracts write` writes it"
        ));
    }
    let (file, wanted) = place(&row.theorem);
    let proof = of_file(&folder.proofs, file);
    let stands = |(found, of): (&str, &str)| found == wanted && of == name;
    let proved = proof.lines().filter_map(theorem).any(stands);
    let path = format!("crates/{}/proofs/{file}.antt", row.folder);
    (!proved).then(|| format!("{path} has no line 'pub {wanted} : {name}'"))
}

/// The crates that rows name, and those whose names end in claims.
fn folders(root: &Path, rows: &[Row]) -> Folders {
    let listed = fs::read_dir(root.join("crates")).into_iter().flatten();
    let names = listed.map(|entry| entry.expect("an entry of a folder").file_name());
    let names = names.map(|name| name.to_string_lossy().to_string());
    let mut wanted: BTreeSet<String> = names.filter(|name| name.ends_with("claims")).collect();
    let named = rows.iter().filter(|row| !row.folder.is_empty());
    wanted.extend(named.map(|row| row.folder.clone()));
    let plain = |(name, text): File| (name.trim_end_matches(".antt").to_string(), text);
    let all = |name: &str, part: &str| {
        let found = files(&root.join("crates").join(name).join(part), ".antt");
        found.into_iter().map(plain).collect()
    };
    let read = wanted.into_iter().map(|name| {
        let folder = Folder {
            specs: all(&name, "specs"),
            proofs: all(&name, "proofs"),
        };
        (name, folder)
    });
    read.collect()
}

/// The argument as its file has it, and what is wrong with the file.
pub fn argument(root: &Path) -> (Argument, Vec<String>) {
    Argument::read(&read(&root.join(FILE)))
}

/// How many rows are right, and what is wrong.
pub fn check_in(root: &Path, rows: &[Row]) -> (usize, Vec<String>) {
    check(rows, &folders(root, rows))
}

fn check(rows: &[Row], folders: &Folders) -> (usize, Vec<String>) {
    let none = Folder::default();
    let mut faults = Vec::new();
    let mut passed = 0;
    // Of a row without a statement nothing is proved, or its file is wrong.
    for row in rows.iter().filter(|row| !row.statement.is_empty()) {
        let wrong = fault(row, folders.get(&row.folder).unwrap_or(&none));
        match wrong {
            Some(wrong) => faults.push(format!("claim {} ({}): {wrong}", row.label, row.name)),
            None => passed += 1,
        }
    }
    for (name, folder) in folders {
        let of_crate = || rows.iter().filter(|row| row.folder == *name);
        for (file, source) in &folder.specs {
            let of_file = || {
                of_crate()
                    .map(|row| place(&row.statement))
                    .filter(|of| of.0 == file)
            };
            for claim in claims(source) {
                if !of_file().any(|of| claim.declares(of.1)) {
                    faults.push(format!(
                        "crates/{name}/specs/{file}.antt: claim {}: no row",
                        claim.label
                    ));
                }
            }
        }
        let proofs = folder.proofs.iter();
        for (file, source) in proofs.filter(|(file, _)| file.ends_with("Claims")) {
            for (found, _) in source.lines().filter_map(theorem) {
                if of_crate().all(|row| place(&row.theorem) != (file, found)) {
                    faults.push(format!("crates/{name}/proofs/{file}.antt: {found}: no row"));
                }
            }
        }
    }
    (passed, faults)
}

/// A file of specs/ with the labels and sentences of its rows.
fn labelled(source: &str, rows: &[(&str, &Row)]) -> String {
    let mut made = source.to_string();
    for claim in claims(source).iter().rev() {
        let found = rows.iter().find(|(name, _)| claim.declares(name));
        if let Some((_, row)) = found {
            if (claim.label, &claim.sentence) != (&row.label[..], &row.sentence) {
                let (long, comment) = claim.with(row);
                made.replace_range(claim.at..claim.at + long, &comment);
            }
        }
    }
    made
}

/// Writes the labels and sentences above the statements, and answers the files that changed.
pub fn write(root: &Path, all: &[Row]) -> Result<Vec<String>, String> {
    let mut changed = Vec::new();
    for (name, folder) in folders(root, all) {
        for (file, source) in &folder.specs {
            let rows = all.iter().filter(|row| row.folder == name);
            let rows = rows.map(|row| (place(&row.statement), row));
            let rows = rows
                .filter(|(of, _)| of.0 == file)
                .map(|(of, row)| (of.1, row));
            let made = labelled(source, &rows.collect::<Vec<_>>());
            if made != *source {
                let path = format!("crates/{name}/specs/{file}.antt");
                let said = |error: std::io::Error| format!("{path}: {error}");
                fs::write(root.join(&path), made).map_err(said)?;
                changed.push(path);
            }
        }
    }
    Ok(changed)
}

#[cfg(test)]
mod tests {
    use super::*;
    use crate::argument::tests::ARGUMENT;

    const TRUE: &str = "-- 1a: \"It opens.\" Why\nabbrev pub Opens : Type 0\nOpens = Q\n";
    const FALSE: &str =
        "-- 2a: \"It never,\n-- ever opens.\" Why\n\nsmall : P\n\npub record Shut : Type 0 where\n";
    const PROOF: &str = "small : P\n\npub opens : Opens\nopens = q\n";
    const MORE: &str = "pub shut : Shut\nshut = q\n";

    fn rows() -> Vec<Row> {
        Argument::read(ARGUMENT).0.rows
    }

    /// The sources with one thing replaced in each: how many pass, what is wrong.
    fn with(old: &str, new: &str) -> (usize, Vec<String>) {
        let file = |name: &str, text: &str| (name.to_string(), text.replace(old, new));
        let one = Folder {
            specs: vec![file("True", TRUE)],
            proofs: vec![
                file("TextClaims", PROOF),
                file("TextLaws", "pub small : P\n"),
            ],
        };
        let two = Folder {
            specs: vec![file("False", FALSE)],
            proofs: vec![file("TextClaims", MORE)],
        };
        let folders = [
            ("claims".to_string(), one),
            ("more_claims".to_string(), two),
        ];
        check(&rows(), &folders.into())
    }

    #[test]
    fn right() {
        assert_eq!(with("", ""), (2, vec![]));
    }

    #[test]
    fn wrong() {
        let wrong = [
            (
                "It opens.\" Why",
                "It shuts.\" Why",
                "claim 1a (opens): above Opens should stand -- 1a: \"It opens.\"; `contracts write` writes it",
            ),
            (
                "-- 2a",
                "-- 9",
                "claim 2a (shut): above Shut should stand -- 2a: \"It never, ever opens.\"; \
                 `contracts write` writes it",
            ),
            (
                "Opens : Type",
                "Other : Type",
                "claim 1a (opens): crates/claims/specs/True.antt does not state Opens under a comment \
                 -- LABEL: \"..\"",
            ),
            (
                "pub opens : Opens",
                "pub opens : Shut",
                "claim 1a (opens): crates/claims/proofs/TextClaims.antt has no line 'pub opens : Opens'",
            ),
            (
                "pub shut : Shut",
                "shut : Shut",
                "claim 2a (shut): crates/more_claims/proofs/TextClaims.antt has no line 'pub shut : Shut'",
            ),
            (
                "small : P\n\npub opens",
                "pub small : P\n\npub opens",
                "crates/claims/proofs/TextClaims.antt: small: no row",
            ),
            (
                "Opens = Q\n",
                "Opens = Q\n\n-- 1b: \"More.\"\nabbrev pub More : Type 0\n",
                "crates/claims/specs/True.antt: claim 1b: no row",
            ),
        ];
        for (old, new, fault) in wrong {
            let (_, faults) = with(old, new);
            assert!(
                faults.iter().any(|found| found == fault),
                "{new}: {faults:?}"
            );
        }
    }

    #[test]
    fn labels_are_written() {
        let rows = rows();
        let of = [("Shut", &rows[1])];
        assert_eq!(labelled(FALSE, &of), FALSE);
        let other = FALSE.replace("2a", "17").replace("never,\n--", "seldom");
        assert_eq!(labelled(&other, &of), FALSE.replace("\n-- ever", " ever"));
        // What stands after the sentence goes on, in lines of their width.
        let long = format!(
            "-- x: \"Old.\" {}\nabbrev pub Shut : T\n",
            "word ".repeat(40).trim()
        );
        let made = labelled(&long, &of);
        assert!(made.lines().all(|line| line.len() <= WIDTH));
        assert_eq!(made.matches("word").count(), 40);
        assert!(made.starts_with("-- 2a: \"It never, ever opens.\" word word"));
        assert!(made.ends_with("word\nabbrev pub Shut : T\n"));
        // Of two claims each has its own.
        let both = format!("{TRUE}\n{FALSE}");
        let moved = both.replace("-- 1a", "-- 8").replace("-- 2a", "-- 9");
        let both_rows = [("Opens", &rows[0]), ("Shut", &rows[1])];
        assert_eq!(
            labelled(&moved, &both_rows),
            both.replace("\n-- ever", " ever")
        );
    }
}
