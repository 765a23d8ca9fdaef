//! The must-fail edits, and the calls that they try. Each
//! `crates/NAME/must-fail/LABEL.edit` begins with two comment lines, the mistake that it
//! makes and the fact that refuses it; then come its file, what it changes in a line, what
//! it makes of it, and maybe more such pairs.

use crate::graph::Graph;
use crate::items::items;
use crate::project::Crate;
use std::collections::HashMap;

pub struct Edit {
    /// Its crate and its label.
    name: String,
    mistake: String,
    fact: String,
    /// The function that has the line, by crate and name; none if the line is in a
    /// definition or a constant.
    function: Option<String>,
}

/// An edit's first two lines without their marks, if they are comments that say
/// something, and a `file:` line comes next.
fn comments(text: &str) -> Option<(&str, &str)> {
    let mut lines = text.lines();
    let mut said = || lines.next()?.strip_prefix("# ").map(str::trim);
    let (mistake, fact) = (said()?, said()?);
    let shown = [mistake, fact]
        .iter()
        .all(|line| !line.is_empty() && !line.contains('|'));
    (shown && lines.next()?.starts_with("file: ")).then_some((mistake, fact))
}

/// The rest of an edit's line that begins so.
fn after<'a>(edit: &'a str, key: &str) -> &'a str {
    let found = edit.lines().find_map(|line| line.strip_prefix(key));
    found.unwrap_or("")
}

/// The function that has the line which an edit changes.
fn function(one: &Crate, edit: &str) -> Option<String> {
    let source = one.source(after(edit, "file: src/"))?;
    let old = after(edit, "old: ");
    let at = source.lines().position(|line| line.contains(old))?;
    let mut functions = items(source).into_iter().filter(|item| item.kind == "fn");
    let found = functions.find(|item| item.lines.contains(&at))?;
    Some(format!("{}::{}", one.name, found.name))
}

/// Whether what an edit of code changes stands there once: each text in what the earlier
/// ones made.
fn is_aimed(one: &Crate, edit: &str) -> bool {
    let mut texts: HashMap<&str, String> = HashMap::new();
    let (mut file, mut old) = (None, "");
    for line in edit.lines() {
        if let Some(path) = line.strip_prefix("file: ") {
            file = path.strip_prefix("src/");
        } else if let Some(text) = line.strip_prefix("old: ") {
            old = text;
        } else if let (Some(new), Some(file)) = (line.strip_prefix("new:"), file) {
            let source = || one.source(file).unwrap_or("").to_string();
            let text = texts.entry(file).or_insert_with(source);
            if text.matches(old).count() != 1 {
                return false;
            }
            *text = text.replace(old, new.strip_prefix(' ').unwrap_or(new));
        }
    }
    true
}

/// The edits of all crates, by their labels; and the files that are not understood.
pub fn of_crates(crates: &[Crate]) -> (Vec<Edit>, Vec<String>) {
    let (mut edits, mut odd) = (Vec::new(), Vec::new());
    for one in crates {
        for (file, text) in &one.edits {
            let name = format!("{}/{}", one.name, file.trim_end_matches(".edit"));
            if !is_aimed(one, text) {
                odd.push(format!(
                    "{name}.edit: the line to be changed does not stand there once"
                ));
            }
            match comments(text) {
                Some((mistake, fact)) => edits.push(Edit {
                    name,
                    mistake: mistake.to_string(),
                    fact: fact.to_string(),
                    function: function(one, text),
                }),
                None => odd.push(format!(
                    "{name}.edit: begins with two comment lines, the mistake and the fact \
                     that refuses it"
                )),
            }
        }
    }
    (edits, odd)
}

pub fn table(edits: &[Edit]) -> String {
    let mut text =
        String::from("| edit | the mistake | the fact that refuses it |\n|---|---|---|\n");
    for edit in edits {
        text.push_str(&format!(
            "| {} | {} | {} |\n",
            edit.name, edit.mistake, edit.fact
        ));
    }
    text
}

/// A call of the header with the edits that reach it: those that try it, and how many
/// others each crate has.
struct Tried<'a> {
    call: &'a str,
    by: Vec<&'a str>,
    others: Vec<(&'a str, usize)>,
}

/// An edit reaches a call if its line is in a function that the call's wrapper in
/// `engine` calls, itself or through others. It tries the call if that function is the
/// wrapper, or in the crate of the function that the wrapper calls: what a mistake in
/// the crates below would do is tried there, for all that use them.
fn tried<'a>(call: &'a str, edits: &'a [Edit], graph: &Graph) -> Tried<'a> {
    let wrapper = format!("engine::{call}");
    let reached = graph.reached(&wrapper);
    let own: Vec<&str> = graph
        .called_by(&wrapper)
        .filter_map(|name| name.split("::").next())
        .collect();
    let mut tried = Tried {
        call,
        by: Vec::new(),
        others: Vec::new(),
    };
    for edit in edits {
        let reaches = edit.function.iter().any(|name| reached.contains(name));
        let owner = edit.name.split('/').next().unwrap_or("");
        match tried.others.last_mut() {
            _ if !reaches => {}
            _ if owner == "engine" || own.contains(&owner) => tried.by.push(&edit.name),
            Some((last, count)) if *last == owner => *count += 1,
            _ => tried.others.push((owner, 1)),
        }
    }
    tried
}

/// The calls with the edits that reach them.
pub fn calls_table(calls: &[String], edits: &[Edit], graph: &Graph) -> String {
    let mut text = String::from("| call | tried by | and reached by edits of |\n|---|---|---|\n");
    for call in calls {
        let Tried { call, by, others } = tried(call, edits, graph);
        let others: Vec<String> = others.iter().map(|(of, n)| format!("{of} {n}")).collect();
        let or_none = |text: String| {
            if text.is_empty() {
                "-".to_string()
            } else {
                text
            }
        };
        let (by, others) = (or_none(by.join(", ")), or_none(others.join(", ")));
        text.push_str(&format!("| `{call}` | {by} | {others} |\n"));
    }
    text
}

/// How many calls are tried, and which are not.
pub fn check(calls: &[String], edits: &[Edit], graph: &Graph) -> (usize, Vec<String>) {
    let untried = calls
        .iter()
        .filter(|call| tried(call, edits, graph).by.is_empty());
    let faults: Vec<String> = untried
        .map(|call| format!("{call}: no must-fail edit of its crate or its wrapper tries it"))
        .collect();
    (calls.len() - faults.len(), faults)
}

#[cfg(test)]
mod tests {
    use super::*;

    #[test]
    fn two_comment_lines_come_first() {
        let rest = "file: src/lib.rt\nold: a\nnew: b\n";
        let read = |head: &str| comments(&format!("{head}{rest}")).is_some();
        assert_eq!(
            comments(&format!("# a mistake\n# a fact\n{rest}")),
            Some(("a mistake", "a fact"))
        );
        assert!(!read("# a mistake\n"));
        assert!(!read("# a mistake\n#\n"));
        assert!(!read("# a mistake\n# a fact\n# more\n"));
        assert!(!read("# a | mistake\n# a fact\n"));
        assert!(comments("# a mistake\n# a fact\n").is_none());
    }

    #[test]
    fn the_line_stands_there_once() {
        let odd = |old: &str| {
            let source = "fn a() -> u8 {\n    1\n}\n\nfn b() -> u8 {\n    12\n}\n";
            of_crates(&[one("a", &[], source, &[("e", old)])]).1
        };
        assert_eq!(odd("    12"), [""; 0]);
        let fault = "a/e.edit: the line to be changed does not stand there once";
        assert_eq!(odd("    1"), [fault]);
        assert_eq!(odd("    2"), [fault]);
        let more = |old: &str| odd(&format!("    12\nnew:     34\nold: {old}"));
        assert_eq!(more("    34"), [""; 0]);
        assert_eq!(more("    12"), [fault]);
    }

    fn one(name: &str, uses: &[&str], source: &str, edited: &[(&str, &str)]) -> Crate {
        let edit = |(label, old): &(&str, &str)| {
            let text = format!("# m\n# f\nfile: src/lib.rt\nold: {old}\nnew: x\n");
            (format!("{label}.edit"), text)
        };
        Crate {
            name: name.to_string(),
            layer: String::new(),
            purpose: String::new(),
            uses: uses.iter().map(|name| name.to_string()).collect(),
            sources: vec![("lib.rt".to_string(), source.to_string())],
            edits: edited.iter().map(edit).collect(),
        }
    }

    /// A call is tried in its wrapper and in its own crate, also below its function;
    /// not in a crate below, nor beside it in its own.
    #[test]
    fn calls_are_tried_in_their_own_crate() {
        let below = "impl Kind {\n    pub fn size(self) -> u8 {\n        10\n    }\n}\n";
        let keys = "\
use below::Kind;

fn core(k: Kind) -> u8 {
    k.size() + 1
}

pub fn one(k: Kind) -> u8 {
    core(k)
}

pub fn two() -> u8 {
    2
}
";
        let engine = "\
pub extern \"C\" fn taa1_one(k: Kind) -> u8 {
    keys::one(k)
}

pub extern \"C\" fn taa1_two() -> u8 {
    keys::two()
}

pub extern \"C\" fn taa1_three() -> u8 {
    3
}
";
        let crates = [
            one("below", &[], below, &[("size", "        10")]),
            one("keys", &["below"], keys, &[("core", "    k.size() + 1")]),
            one("engine", &["keys"], engine, &[("three", "    3")]),
        ];
        let (edits, odd) = of_crates(&crates);
        assert_eq!(odd, [""; 0]);
        let graph = Graph::of(&crates);
        let calls = ["taa1_one", "taa1_two", "taa1_three"].map(str::to_string);
        let table = calls_table(&calls, &edits, &graph);
        let rows: Vec<&str> = table.lines().skip(2).collect();
        assert_eq!(
            rows,
            [
                "| `taa1_one` | keys/core | below 1 |",
                "| `taa1_two` | - | - |",
                "| `taa1_three` | engine/three | - |",
            ]
        );
        let fault = "taa1_two: no must-fail edit of its crate or its wrapper tries it";
        assert_eq!(check(&calls, &edits, &graph), (2, vec![fault.to_string()]));
    }
}
