//! The items of a source: functions, types, constants and `impl` blocks in Rattle,
//! definitions and theorems in the logic. Sources have the layout of `rt fmt`, so that
//! an item ends at the first line that closes it at its own depth.

use std::ops::Range;

pub struct Item {
    /// `fn`, `struct`, `impl` and so on.
    pub kind: String,
    /// `write_at`; in an `impl`, `Kind::from_byte`; the block itself, `impl Kind`.
    pub name: String,
    /// Its lines in the file, counted from 0.
    pub lines: Range<usize>,
}

/// What a line begins, such as `fn`, and its name.
fn declared(line: &str) -> Option<(&str, &str)> {
    let mut line = line;
    for word in ["pub(crate) ", "pub ", "extern \"C\" "] {
        line = line.strip_prefix(word).unwrap_or(line);
    }
    if line.starts_with("const fn ") {
        line = &line["const ".len()..];
    }
    let (kind, rest) = line.split_once(' ')?;
    let end = rest.find(|c: char| !c.is_alphanumeric() && c != '_');
    let known = ["const", "enum", "fn", "impl", "struct", "type"].contains(&kind);
    known.then(|| (kind, &rest[..end.unwrap_or(rest.len())]))
}

/// The line after an item that begins at `at`.
fn end_of(lines: &[&str], at: usize, kind: &str, indent: &str) -> usize {
    let ends = |i: usize| match kind {
        "const" | "type" => lines[i].ends_with(';'),
        _ => lines[i] == format!("{indent}}}") || (i == at && lines[i].ends_with([';', '}'])),
    };
    let last = (at..lines.len()).find(|&i| ends(i));
    last.map_or(lines.len(), |last| last + 1)
}

/// The items of a Rattle source, in its order.
pub fn items(source: &str) -> Vec<Item> {
    let lines: Vec<&str> = source.lines().collect();
    let mut found = Vec::new();
    let mut block = ("", 0..0); // the `impl` that was met last
    for (at, line) in lines.iter().enumerate() {
        let inner = block.1.contains(&at).then(|| line.strip_prefix("    "));
        let (head, indent) = match inner.flatten() {
            Some(head) => (head, "    "),
            None => (*line, ""),
        };
        let (kind, name) = match declared(head) {
            Some(found) => found,
            None => continue,
        };
        let lines = at..end_of(&lines, at, kind, indent);
        let name = match (kind, indent) {
            ("impl", _) => {
                block = (name, lines.clone());
                format!("impl {name}")
            }
            (_, "") => name.to_string(),
            _ => format!("{}::{name}", block.0),
        };
        let kind = kind.to_string();
        found.push(Item { kind, name, lines });
    }
    found
}

/// Whether a line begins a clause of a contract, which may have a name:
/// `ensures { .. }`, `requires fits { .. }`.
pub fn is_clause(line: &str) -> bool {
    let words = line.split_once(" {").map_or("", |(words, _)| words);
    let (word, name) = words.split_once(' ').unwrap_or((words, "a"));
    let is_name = name.chars().all(|c| c.is_alphanumeric() || c == '_');
    ["requires", "ensures"].contains(&word) && is_name
}

/// Lines as code in one row: without comments, contracts and breaks.
fn code<'a>(lines: impl Iterator<Item = &'a str>) -> String {
    let mut words = Vec::new();
    let mut contract = false;
    for line in lines {
        let line = line.split("//").next().unwrap_or("").trim();
        contract = (contract || is_clause(line)) && line != "{";
        if !contract {
            words.extend(line.split_whitespace());
        }
    }
    words.join(" ")
}

/// The code of the item with this name, if there is one.
pub fn code_of(source: &str, name: &str) -> Option<String> {
    let items = items(source);
    let lines = &items.iter().find(|item| item.name == name)?.lines;
    Some(code(source.lines().skip(lines.start).take(lines.len())))
}

/// The lines of a definition or theorem, in one row: they end at an empty line.
pub fn definition_of(source: &str, name: &str) -> Option<String> {
    let declares = |line: &str| {
        let (head, _) = line.split_once(" : ").unwrap_or_default();
        head.rsplit(' ').next() == Some(name)
    };
    let mut parts = source.split("\n\n");
    let part = parts.find(|part| part.lines().any(declares))?;
    let words = part
        .lines()
        .filter(|line| !line.trim_start().starts_with("--"))
        .flat_map(str::split_whitespace);
    Some(words.collect::<Vec<_>>().join(" "))
}

#[cfg(test)]
mod tests {
    use super::*;

    const SOURCE: &str = "\
// A file.
pub const SIZES: [usize; 2] = [
    10,
    16,
];

pub struct Version(pub u16);

impl Kind {
    // its constant
    pub const LONG: u8 = 12;

    pub fn size(self) -> u8
        ensures { result ≡ size
            self }
    {
        Self::LONG // and no other
    }
}

fn same() {}

pub extern \"C\" fn taa1_size(
    a: &[u8],
) -> u8
    requires same_bytes { a.now ≡ b }
    ensures { result ≡ 1 }
{
    match a {
        _ => 1,
    }
}
";

    #[test]
    fn items_and_their_lines() {
        let found: Vec<(String, Range<usize>)> = items(SOURCE)
            .into_iter()
            .map(|item| (item.name, item.lines))
            .collect();
        let wanted = [
            ("SIZES", 1..5),
            ("Version", 6..7),
            ("impl Kind", 8..19),
            ("Kind::LONG", 10..11),
            ("Kind::size", 12..18),
            ("same", 20..21),
            ("taa1_size", 22..32),
        ];
        assert_eq!(found, wanted.map(|(name, at)| (name.to_string(), at)));
    }

    #[test]
    fn code_is_neither_comment_nor_contract() {
        let code = |name: &str| code_of(SOURCE, name);
        let size = "pub fn size(self) -> u8 { Self::LONG }";
        assert_eq!(code("Kind::size"), Some(size.to_string()));
        let call = "pub extern \"C\" fn taa1_size( a: &[u8], ) -> u8 { match a { _ => 1, } }";
        assert_eq!(code("taa1_size"), Some(call.to_string()));
        assert_eq!(code("size"), None);
    }

    #[test]
    fn a_definition_ends_at_an_empty_line() {
        let source =
            "-- two : ℕ\nabbrev pub one : ℕ\none = 1\n\nS⁻¹ : ℕ\nS⁻¹ =\n  -- in short\n  2\n";
        let found = |name: &str| definition_of(source, name);
        assert_eq!(found("S⁻¹"), Some("S⁻¹ : ℕ S⁻¹ = 2".to_string()));
        assert_eq!(found("one"), Some("abbrev pub one : ℕ one = 1".to_string()));
        assert_eq!(found("three"), None);
    }
}
