//! What `contracts write` writes: texts that follow from a source, each into its place
//! in a file that people write. `contracts` alone compares them.

use std::fs;
use std::path::Path;

pub struct Generated {
    pub path: String,
    /// What stands in the file right before the text, and right after it.
    pub region: (String, String),
    pub text: String,
}

impl Generated {
    /// Whole lines, between two comments that name them.
    pub fn lines(path: &str, name: &str, text: String) -> Self {
        let (open, close) = match path.rsplit('.').next() {
            Some("md") => ("<!-- ", " -->"),
            Some("py") => ("# ", ""),
            Some("c") => ("/* ", " */"),
            _ => ("// ", ""),
        };
        Generated {
            path: path.to_string(),
            region: (
                format!("{open}begin {name}, made by `contracts write`{close}\n"),
                format!("{open}end {name}{close}\n"),
            ),
            text,
        }
    }

    /// A figure in a sentence, between these words.
    pub fn figure(path: &str, before: &str, after: &str, figure: usize) -> Self {
        Generated {
            path: path.to_string(),
            region: (before.to_string(), after.to_string()),
            text: grouped(figure),
        }
    }

    /// The file with the text in its place, if there is one such place.
    fn put(&self, file: &str) -> Option<String> {
        let (before, after) = &self.region;
        let start = file.find(before)? + before.len();
        let rest = &file[start..];
        let end = start + rest.find(after)?;
        // A mark may stand deeper in the file; its second comment stands as deep.
        let end = file[..end].trim_end_matches(' ').len().max(start);
        let once = !rest.contains(before);
        once.then(|| format!("{}{}{}", &file[..start], self.text, &file[end..]))
    }
}

/// A number with commas, as guides have it.
fn grouped(number: usize) -> String {
    match number {
        0..=999 => number.to_string(),
        _ => format!("{},{:03}", grouped(number / 1000), number % 1000),
    }
}

/// How many texts stand as they would be written, and which do not.
pub fn check(root: &Path, all: &[Generated]) -> (usize, Vec<String>) {
    let mut passed = 0;
    let mut faults = Vec::new();
    for one in all {
        let place = one.region.0.trim();
        let file = fs::read_to_string(root.join(&one.path)).unwrap_or_default();
        match one.put(&file) {
            Some(made) if made == file => passed += 1,
            Some(_) => faults.push(format!(
                "{}: what stands after '{place}' differs; write it with \
                 `cargo run --release --offline --package contracts write`",
                one.path
            )),
            None => faults.push(format!("{}: '{place}' does not stand there once", one.path)),
        }
    }
    (passed, faults)
}

/// Writes the texts, and answers the files that changed.
pub fn write(root: &Path, all: &[Generated]) -> Result<Vec<String>, String> {
    let mut changed = Vec::new();
    for one in all {
        let path = root.join(&one.path);
        let said = |error| format!("{}: {error}", one.path);
        let file = fs::read_to_string(&path).map_err(|error| said(error.to_string()))?;
        let place = one.region.0.trim();
        let missing = || said(format!("'{place}' does not stand there once"));
        let made = one.put(&file).ok_or_else(missing)?;
        if made != file {
            fs::write(&path, made).map_err(|error| said(error.to_string()))?;
            if !changed.contains(&one.path) {
                changed.push(one.path.clone());
            }
        }
    }
    Ok(changed)
}

#[cfg(test)]
mod tests {
    use super::*;

    #[test]
    fn lines_between_their_marks() {
        let rows = Generated::lines("a.rs", "rows", "    one\n".to_string());
        let file = |rows: &str| {
            format!("a\n    // begin rows, made by `contracts write`\n{rows}    // end rows\nb\n")
        };
        assert_eq!(
            rows.put(&file("    two\n    three\n")),
            Some(file("    one\n"))
        );
        assert_eq!(rows.put(&file("")), Some(file("    one\n")));
        assert_eq!(rows.put("a\n"), None);
        assert_eq!(rows.put(&file("").repeat(2)), None);
    }

    #[test]
    fn a_figure_between_its_words() {
        let figure = Generated::figure("a.md", "has ", " lines", 14500);
        let made = figure.put("It has 3 lines, and 4 lines.");
        assert_eq!(made.as_deref(), Some("It has 14,500 lines, and 4 lines."));
        assert_eq!(figure.put("It has none."), None);
        assert_eq!(grouped(1_002_003), "1,002,003");
    }
}
