//! What a source of Rattle brings in by `use`, `pub use` and `ghost use`.

/// A name that comes in.
#[derive(Debug, PartialEq)]
pub struct Import {
    /// `""`, `pub` or `ghost`.
    pub kind: String,
    /// Where it comes from: `crate::parts`, `Rattle.standard.specs.Keys`.
    pub path: String,
    /// The name there, and the one that it has here.
    pub name: String,
    pub alias: String,
}

/// The parts of a list at its commas, but for those within braces.
fn parts(list: &str) -> Vec<&str> {
    let mut found = Vec::new();
    let (mut depth, mut start) = (0, 0);
    for (at, c) in list.char_indices() {
        match c {
            '{' => depth += 1,
            '}' => depth -= 1,
            ',' if depth == 0 => {
                found.push(&list[start..at]);
                start = at + 1;
            }
            _ => {}
        }
    }
    found.push(&list[start..]);
    let parts = found.into_iter().map(str::trim);
    parts.filter(|part| !part.is_empty()).collect()
}

/// Adds what a tree such as `a::{b, c::d as e}` brings in, below a path.
fn add(kind: &str, path: &str, tree: &str, sign: &str, all: &mut Vec<Import>) {
    let below = |part: &str| match path {
        "" => part.to_string(),
        _ => format!("{path}{sign}{part}"),
    };
    if let Some((part, list)) = tree.split_once('{') {
        let path = below(part.trim_end_matches(sign));
        let list = list.strip_suffix('}').unwrap_or(list);
        for tree in parts(list) {
            add(kind, &path, tree, sign, all);
        }
        return;
    }
    let (whole, alias) = match tree.split_once(" as ") {
        Some((whole, alias)) => (whole, Some(alias)),
        None => (tree, None),
    };
    let whole = below(whole);
    let (path, name) = whole.rsplit_once(sign).unwrap_or(("", &whole));
    all.push(Import {
        kind: kind.to_string(),
        path: path.to_string(),
        name: name.to_string(),
        alias: alias.unwrap_or(name).to_string(),
    });
}

/// The imports of a source, in its order.
pub fn imports(source: &str) -> Vec<Import> {
    let mut all = Vec::new();
    let mut lines = source.lines();
    while let Some(line) = lines.next() {
        let heads = [("", "use "), ("pub", "pub use "), ("ghost", "ghost use ")];
        let head = heads
            .iter()
            .find_map(|(kind, head)| Some((*kind, line.strip_prefix(head)?)));
        let (kind, first) = match head {
            Some(found) => found,
            None => continue,
        };
        let mut tree = first.trim().to_string();
        while !tree.ends_with(';') {
            match lines.next() {
                Some(line) => tree.push_str(line.trim()),
                None => break,
            }
        }
        let sign = if kind == "ghost" { "." } else { "::" };
        add(kind, "", tree.trim_end_matches(';'), sign, &mut all);
    }
    all
}

#[cfg(test)]
mod tests {
    use super::*;

    #[test]
    fn trees_are_spread_out() {
        let source = "\
ghost use Rattle.std.specs.Prelude.{◌≡◌, length};
ghost use Rattle.standard.specs.Bytes.{same as same_of};
use crate::parts::copy;
use standard::{
    Bytes8, inner::{One, Two as Other},
};
pub use joins::{join, part};
fn use_it() {}
";
        let found: Vec<String> = imports(source)
            .iter()
            .map(|one| format!("{}|{}|{}|{}", one.kind, one.path, one.name, one.alias))
            .collect();
        let wanted = [
            "ghost|Rattle.std.specs.Prelude|◌≡◌|◌≡◌",
            "ghost|Rattle.std.specs.Prelude|length|length",
            "ghost|Rattle.standard.specs.Bytes|same|same_of",
            "|crate::parts|copy|copy",
            "|standard|Bytes8|Bytes8",
            "|standard::inner|One|One",
            "|standard::inner|Two|Other",
            "pub|joins|join|join",
            "pub|joins|part|part",
        ];
        assert_eq!(found, wanted);
    }
}
