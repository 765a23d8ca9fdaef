//! crates/claims/argument.toml: the steps of the model argument, the parts of the rubric, a
//! rules for markers, and the rows of the table. docs/ARGUMENT.md and the desk's claims.py
//! are written from it. `{name}` in a text stands for the label of the row with that name.

use crate::tables::{self, Keys, Table};
use std::collections::{HashMap, HashSet};

pub const FILE: &str = "crates/claims/argument.toml";

/// The verdicts; of the last nothing is proved here.
const TRUE: &str = "true";
const OPEN: &str = "open";
const VERDICTS: [&str; 4] = [TRUE, "false", "false as a reason", OPEN];
const CELL_ENDS: &str = "a | would end a cell of the table";
const PROVED: [&str; 2] = ["for all", "example"];

const KEYS: [Keys; 4] = [
    ("step", &["title", "words"], &[]),
    (
        "part",
        &["name", "asks", "full", "half", "none"],
        &["points"],
    ),
    ("rule", &["words"], &[]),
    (
        "row",
        &[
            "name",
            "sentence",
            "verdict",
            "proved",
            "why",
            "instead",
            "crate",
            "statement",
            "theorem",
        ],
        &["step"],
    ),
];

pub struct Step {
    pub title: String,
    pub words: String,
}

/// A part of the rubric.
pub struct Part {
    pub name: String,
    pub points: usize,
    pub asks: String,
    pub full: String,
    pub half: String,
    pub none: String,
}

/// A row of the table. Its label is its step's number and a letter.
#[derive(Clone)]
pub struct Row {
    pub label: String,
    pub step: usize,
    pub name: String,
    pub sentence: String,
    pub verdict: String,
    pub proved: String,
    pub why: String,
    pub instead: String,
    pub folder: String,
    pub statement: String,
    pub theorem: String,
}

impl Row {
    /// Whether nothing is proved of it.
    pub fn open(&self) -> bool {
        self.verdict == OPEN
    }

    /// What is wrong with it by itself.
    fn faults(&self, steps: usize) -> Vec<&'static str> {
        let slug = |c: char| c.is_ascii_lowercase() || c.is_ascii_digit() || c == '-';
        let behind = [&self.folder, &self.statement, &self.theorem];
        let place = |name: &str| {
            name.split_once('.')
                .map_or(false, |(a, b)| !a.is_empty() && !b.is_empty())
        };
        let texts = [&self.sentence, &self.why, &self.instead];
        let tests = [
            (!(1..=steps).contains(&self.step), "no step has its number"),
            (
                self.name.is_empty() || !self.name.chars().all(slug),
                "its name is not of small letters, digits and -",
            ),
            (self.sentence.is_empty(), "no sentence"),
            (self.why.is_empty(), "no reason (why)"),
            (texts.iter().any(|text| text.contains('|')), CELL_ENDS),
            (
                !VERDICTS.contains(&&self.verdict[..]),
                "its verdict is not true, false, false as a reason or open",
            ),
            (
                self.verdict == TRUE && !self.instead.is_empty(),
                "it is true, so nothing is so instead",
            ),
            (
                self.verdict.starts_with("false") && self.instead.is_empty(),
                "it is false, so something is so instead",
            ),
            (
                self.open()
                    && !(self.proved.is_empty() && behind.iter().all(|name| name.is_empty())),
                "it is open, so nothing of it is proved",
            ),
            (
                !self.open() && !PROVED.contains(&&self.proved[..]),
                "it is not said to be proved for all or by an example",
            ),
            (
                !self.open()
                    && (self.folder.is_empty() || !place(&self.statement) || !place(&self.theorem)),
                "crate, statement and theorem: a folder, and a file and a name with a dot between",
            ),
        ];
        let wrong = tests.iter().filter(|(wrong, _)| *wrong);
        wrong.map(|(_, fault)| *fault).collect()
    }
}

pub struct Argument {
    pub steps: Vec<Step>,
    pub parts: Vec<Part>,
    pub rules: Vec<String>,
    pub rows: Vec<Row>,
}

/// The letter of a step's row, by its place.
fn letter(place: usize) -> Option<char> {
    let letter = u8::try_from(place).ok()?.checked_add(b'a')?;
    letter.is_ascii_lowercase().then_some(char::from(letter))
}

fn row(table: &Table, place: usize) -> Row {
    let text = |key: &str| table.text(key).to_string();
    let step = table.number("step");
    Row {
        label: letter(place).map_or(String::new(), |letter| format!("{step}{letter}")),
        step,
        name: text("name"),
        sentence: text("sentence"),
        verdict: text("verdict"),
        proved: text("proved"),
        why: text("why"),
        instead: text("instead"),
        folder: text("crate"),
        statement: text("statement"),
        theorem: text("theorem"),
    }
}

impl Argument {
    /// The argument, and what is wrong with its file.
    pub fn read(text: &str) -> (Self, Vec<String>) {
        let (tables, mut faults) = tables::read(text, &KEYS);
        let mut made = Argument {
            steps: Vec::new(),
            parts: Vec::new(),
            rules: Vec::new(),
            rows: Vec::new(),
        };
        for table in &tables {
            let text = |key: &str| table.text(key).to_string();
            match &table.name[..] {
                "step" => made.steps.push(Step {
                    title: text("title"),
                    words: text("words"),
                }),
                "part" => made.parts.push(Part {
                    name: text("name"),
                    points: table.number("points"),
                    asks: text("asks"),
                    full: text("full"),
                    half: text("half"),
                    none: text("none"),
                }),
                "rule" => made.rules.push(text("words")),
                "row" => {
                    let step = table.number("step");
                    let place = made.rows.iter().filter(|row| row.step == step).count();
                    made.rows.push(row(table, place));
                }
                _ => {}
            }
        }
        faults.extend(made.faults());
        faults.extend(made.put_labels());
        let named = faults.iter().map(|fault| format!("{FILE}: {fault}"));
        let faults = named.collect();
        (made, faults)
    }

    /// What is wrong with the rows, by themselves and together.
    fn faults(&self) -> Vec<String> {
        let mut faults = Vec::new();
        let (mut names, mut statements) = (HashSet::new(), HashSet::new());
        let mut before = 0;
        for row in &self.rows {
            let mut wrong = row.faults(self.steps.len());
            let together = [
                (
                    row.label.is_empty(),
                    "its step has more rows than there are letters",
                ),
                (row.step < before, "it stands after a row of a later step"),
                (!names.insert(&row.name), "its name is another row's"),
                (
                    !row.statement.is_empty() && !statements.insert((&row.folder, &row.statement)),
                    "its statement is another row's",
                ),
            ];
            wrong.extend(together.iter().filter(|test| test.0).map(|test| test.1));
            before = row.step;
            let of = |fault| format!("row '{}': {fault}", row.name);
            faults.extend(wrong.into_iter().map(of));
        }
        for part in &self.parts {
            let texts = [&part.name, &part.asks, &part.full, &part.half, &part.none];
            if texts.iter().any(|text| text.contains('|')) {
                faults.push(format!("part '{}': {CELL_ENDS}", part.name));
            }
        }
        let counts = [
            (self.steps.len(), "step"),
            (self.parts.len(), "part"),
            (self.rules.len(), "rule"),
            (self.rows.len(), "row"),
        ];
        let none = counts.iter().filter(|(count, _)| *count == 0);
        faults.extend(none.map(|(_, what)| format!("no {what}")));
        faults
    }

    /// Puts labels in the place of names, and answers what names no row.
    fn put_labels(&mut self) -> Vec<String> {
        let rows = self.rows.iter();
        let labels: HashMap<String, String> = rows
            .map(|row| (row.name.clone(), row.label.clone()))
            .collect();
        let steps = self.steps.iter_mut().map(|step| &mut step.words);
        let parts = self.parts.iter_mut().flat_map(|part| {
            [
                &mut part.asks,
                &mut part.full,
                &mut part.half,
                &mut part.none,
            ]
        });
        let rows = self.rows.iter_mut();
        let rows = rows.flat_map(|row| [&mut row.why, &mut row.instead]);
        let mut faults = Vec::new();
        for text in steps.chain(parts).chain(&mut self.rules).chain(rows) {
            match labelled(text, &labels) {
                Ok(made) => *text = made,
                Err(name) => faults.push(format!("{{{name}}} names no row")),
            }
        }
        faults
    }

    // ---- docs/ARGUMENT.md

    /// The model argument: the steps, numbered.
    pub fn steps_list(&self) -> String {
        let steps = self.steps.iter().enumerate();
        let lines = steps.map(|(at, step)| {
            let title = sentence(&step.title);
            format!("{}. **{title}** {}\n", at + 1, step.words)
        });
        lines.collect()
    }

    /// The table of the rows.
    pub fn table(&self) -> String {
        let heads = [
            "claim",
            "sentence",
            "verdict",
            "proved",
            "why",
            "instead",
            "crate",
            "statement",
            "theorem",
        ];
        let rows = self.rows.iter().map(|row| {
            vec![
                row.label.clone(),
                row.sentence.clone(),
                row.verdict.clone(),
                row.proved.clone(),
                row.why.clone(),
                row.instead.clone(),
                code(&row.folder),
                code(&row.statement),
                code(&row.theorem),
            ]
        });
        markdown(&heads, rows)
    }

    /// The rubric: its parts, and the rules.
    pub fn rubric(&self) -> String {
        let heads = ["part", "points", "asks", "full", "half", "none"];
        let rows = self.parts.iter().map(|part| {
            vec![
                part.name.clone(),
                part.points.to_string(),
                part.asks.clone(),
                part.full.clone(),
                part.half.clone(),
                part.none.clone(),
            ]
        });
        let rules = self.rules.iter().map(|rule| format!("\n{rule}\n"));
        format!("{}{}", markdown(&heads, rows), rules.collect::<String>())
    }

    // ---- the desk's claims.py

    /// The rows of its tuples: steps, parts, rules and claims, by these names.
    pub fn python(&self) -> [(&'static str, String); 4] {
        let steps = self.steps.iter().map(|step| {
            let cells = [&step.title, &step.words];
            record("Step", cells.map(|text| string(text, 8)).to_vec())
        });
        let parts = self.parts.iter().map(|part| {
            let mut cells = vec![string(&part.name, 8), part.points.to_string()];
            let said = [&part.asks, &part.full, &part.half, &part.none];
            cells.extend(said.map(|text| string(text, 8)));
            record("Part", cells)
        });
        let rules = self.rules.iter();
        let rows = self.rows.iter().map(|row| {
            let cells = [
                &row.label,
                &row.name,
                &row.sentence,
                &row.verdict,
                &row.proved,
                &row.why,
                &row.instead,
                &row.folder,
                &row.statement,
                &row.theorem,
            ];
            record("Claim", cells.map(|text| string(text, 8)).to_vec())
        });
        [
            ("steps", steps.collect()),
            ("parts", parts.collect()),
            (
                "rules",
                rules
                    .map(|rule| format!("    {},\n", string(rule, 4)))
                    .collect(),
            ),
            ("claims", rows.collect()),
        ]
    }
}

/// A text with labels for the names between braces, or a name that is no row's.
fn labelled(text: &str, labels: &HashMap<String, String>) -> Result<String, String> {
    let mut parts = text.split('{');
    let mut made = parts.next().unwrap_or("").to_string();
    for part in parts {
        let (name, rest) = part.split_once('}').unwrap_or((part, ""));
        made.push_str(labels.get(name).ok_or(name)?);
        made.push_str(rest);
    }
    Ok(made)
}

/// A title as a sentence of its own.
fn sentence(title: &str) -> String {
    match title.ends_with(['.', '?', ':']) {
        true => title.to_string(),
        false => format!("{title}."),
    }
}

fn code(name: &str) -> String {
    match name {
        "" => String::new(),
        _ => format!("`{name}`"),
    }
}

/// A table; a cell with nothing in it has a -.
fn markdown(heads: &[&str], rows: impl Iterator<Item = Vec<String>>) -> String {
    let mut text = format!(
        "| {} |\n|{}\n",
        heads.join(" | "),
        "---|".repeat(heads.len())
    );
    for row in rows {
        let cells = row
            .iter()
            .map(|cell| if cell.is_empty() { "-" } else { cell });
        text.push_str(&format!("| {} |\n", cells.collect::<Vec<_>>().join(" | ")));
    }
    text
}

const PYTHON_WIDTH: usize = 100;

/// A text for Python, in as many pieces as lines of its width take, so many places deep.
fn string(text: &str, depth: usize) -> String {
    // Two quotes, a space in front and a comma after them.
    let most = PYTHON_WIDTH - depth - 4;
    let mut lines = vec![String::new()];
    for word in text.split_inclusive(' ') {
        let last = lines.last_mut().expect("one at least");
        let wide = last.chars().count() + word.trim_end().chars().count();
        match last.is_empty() || wide <= most {
            true => last.push_str(word),
            false => lines.push(word.to_string()),
        }
    }
    // A space stands at the beginning of a line, where it is seen.
    let mut pieces: Vec<String> = Vec::new();
    let mut space = "";
    for line in &lines {
        let words = line.strip_suffix(' ').unwrap_or(line);
        pieces.push(format!("\"{space}{words}\""));
        space = if words.len() < line.len() { " " } else { "" };
    }
    pieces.join(&format!("\n{}", " ".repeat(depth)))
}

/// A call of a class with its values, each in a line of its own.
fn record(class: &str, values: Vec<String>) -> String {
    let values = values.iter().map(|value| format!("        {value},\n"));
    format!("    {class}(\n{}    ),\n", values.collect::<String>())
}

#[cfg(test)]
pub mod tests {
    use super::*;

    /// Two rows of which something is proved, one that is open.
    pub const ARGUMENT: &str = r#"
[[step]]
title = "A step"
words = "It opens ({opens}, {hides})."

[[step]]
title = "Why so?"
words = "So."

[[part]]
name = "uniqueness"
points = 3
asks = "why"
full = "all"
half = "some"
none = "nothing"

[[rule]]
words = "Another sentence is read."

[[row]]
step = 1
name = "opens"
sentence = "It opens."
verdict = "true"
proved = "for all"
why = "so"
instead = ""
crate = "claims"
statement = "True.Opens"
theorem = "TextClaims.opens"

[[row]]
step = 2
name = "shut"
sentence = "It never, ever opens."
verdict = "false"
proved = "example"
why = "so"
instead = "it does"
crate = "more_claims"
statement = "False.Shut"
theorem = "TextClaims.shut"

[[row]]
step = 2
name = "hides"
sentence = "It hides."
verdict = "open"
proved = ""
why = "nobody knows"
instead = ""
crate = ""
statement = ""
theorem = ""
"#;

    #[test]
    fn right() {
        let (argument, faults) = Argument::read(ARGUMENT);
        assert_eq!(faults, Vec::<String>::new());
        let labels: Vec<&str> = argument.rows.iter().map(|row| &row.label[..]).collect();
        assert_eq!(labels, ["1a", "2a", "2b"]);
        assert_eq!(
            argument.steps_list(),
            "1. **A step.** It opens (1a, 2b).\n2. **Why so?** So.\n"
        );
        let table = argument.table();
        let rows: Vec<&str> = table.lines().skip(2).collect();
        assert_eq!(
            rows[1..],
            [
                "| 2a | It never, ever opens. | false | example | so | it does | `more_claims` | \
                 `False.Shut` | `TextClaims.shut` |",
                "| 2b | It hides. | open | - | nobody knows | - | - | - | - |",
            ]
        );
        let rubric = argument.rubric();
        let wanted =
            "| uniqueness | 3 | why | all | some | nothing |\n\nAnother sentence is read.\n";
        assert!(rubric.ends_with(wanted), "{rubric}");
        let [_, parts, rules, claims] = argument.python();
        assert_eq!(rules.1, "    \"Another sentence is read.\",\n");
        assert!(parts
            .1
            .starts_with("    Part(\n        \"uniqueness\",\n        3,\n"));
        assert!(claims
            .1
            .contains("    Claim(\n        \"2b\",\n        \"hides\",\n"));
    }

    #[test]
    fn wrong() {
        let wrong = [
            ("step = 1\n", "step = 3\n", "row 'opens': no step has its number"),
            ("step = 1\n", "step = 2\n", ""),
            ("name = \"shut\"", "name = \"opens\"", "row 'opens': its name is another row's"),
            ("\"shut\"", "\"Shut up\"", "row 'Shut up': its name is not of small letters, digits and -"),
            ("It hides.", "", "row 'hides': no sentence"),
            ("nobody knows", "", "row 'hides': no reason (why)"),
            ("nobody knows", "a | b", "row 'hides': a | would end a cell of the table"),
            ("\"open\"", "\"true\"", "row 'hides': it is not said to be proved for all or by an example"),
            ("\"true\"", "\"open\"", "row 'opens': it is open, so nothing of it is proved"),
            ("\"true\"", "\"so\"", "row 'opens': its verdict is not true, false, false as a reason or open"),
            ("\"true\"", "\"false as a reason\"", "row 'opens': it is false, so something is so instead"),
            ("\"false\"", "\"true\"", "row 'shut': it is true, so nothing is so instead"),
            ("\"example\"", "\"\"", "row 'shut': it is not said to be proved for all or by an example"),
            ("\"True.Opens\"", "\"Opens\"", "row 'opens': crate, statement and theorem: a folder, and a file and a name with a dot between"),
            ("\"claims\"\nstatement = \"True.Opens\"", "\"more_claims\"\nstatement = \"False.Shut\"", "row 'shut': its statement is another row's"),
            ("[[rule]]\nwords = \"Another sentence is read.\"", "", "no rule"),
            ("{hides}", "{seek}", "{seek} names no row"),
            (
                "\"some\"",
                "\"a | b\"",
                "part 'uniqueness': a | would end a cell of the table",
            ),
            ("{hides}", "{hides", "{hides).} names no row"),
            ("points = 3", "points = \"3\"", "line 10, [[part]]: no text is called 'points'"),
        ];
        for (old, new, fault) in wrong {
            let (_, faults) = Argument::read(&ARGUMENT.replacen(old, new, 1));
            let wanted = format!("{FILE}: {fault}");
            assert_eq!(
                faults.contains(&wanted),
                !fault.is_empty(),
                "{new}: {faults:?}"
            );
        }
        let later = ARGUMENT.replacen("step = 1", "step = 2", 1).replacen(
            "step = 2\nname = \"shut\"",
            "step = 1\nname = \"shut\"",
            1,
        );
        let said = format!("{FILE}: row 'shut': it stands after a row of a later step");
        assert!(Argument::read(&later).1.contains(&said));
        assert_eq!(letter(25), Some('z'));
        assert_eq!(letter(26), None);
    }

    #[test]
    fn pieces() {
        let words = "word ".repeat(30) + "⊕ end";
        let made = string(&words, 8);
        assert!(made.lines().count() == 2);
        assert!(made
            .lines()
            .all(|line| line.trim_start().chars().count() <= 91));
        assert!(made.lines().nth(1).unwrap().starts_with("        \" word"));
        let joined: String = made
            .lines()
            .map(|line| line.trim().trim_matches('"'))
            .collect();
        assert_eq!(joined, words);
        assert_eq!(string("", 8), "\"\"");
    }
}
