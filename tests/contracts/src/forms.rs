//! The table of forms in docs/READING.md beside the code: each row names an item of a
//! file, and signs by which one sees that the item has the form. The signs are read off
//! the table, so that a reader sees what is looked for.

use crate::items::{code_of, definition_of};
use crate::project::section;

const GUIDE: &str = "docs/READING.md";
const HEADING: &str = "## Forms\n";
/// 01 names nine.
const FORMS: usize = 9;

/// What stands between backquotes.
fn quoted(cell: &str) -> Vec<&str> {
    cell.split('`').skip(1).step_by(2).collect()
}

/// What is wrong with a place, if anything is.
fn fault(path: &str, source: Option<String>, item: &str, signs: &[&str]) -> Option<String> {
    let source = match source {
        Some(source) => source,
        None => return Some(format!("there is no crates/{path}")),
    };
    let text = match path.ends_with(".antt") {
        true => definition_of(&source, item),
        false => code_of(&source, item),
    };
    let text = match text {
        Some(text) => text,
        None => return Some(format!("crates/{path} has no {item}")),
    };
    let gone = signs.iter().find(|sign| !text.contains(**sign))?;
    Some(format!("{item} in crates/{path} does not have `{gone}`"))
}

/// How many rows are right, and what is wrong. `read` gives a file of crates/.
pub fn check(guide: &str, read: impl Fn(&str) -> Option<String>) -> (usize, Vec<String>) {
    let rows = section(guide, HEADING).lines();
    let rows = rows.filter(|line| line.starts_with('|')).skip(2);
    let mut seen = [false; FORMS];
    let mut passed = 0;
    let mut faults = Vec::new();
    for line in rows {
        let cells: Vec<&str> = line.split(" | ").collect();
        let (form, file, item, signs) = match cells[..] {
            [form, words, file, item, signs] if !words.is_empty() => {
                (form, quoted(file), quoted(item), quoted(signs))
            }
            _ => ("", vec![], vec![], vec![]),
        };
        let number: usize = form.trim_start_matches("| ").parse().unwrap_or(0);
        let place = match (&file[..], &item[..]) {
            ([file], [item]) if (1..=FORMS).contains(&number) && !signs.is_empty() => (file, item),
            _ => {
                faults.push(format!("{GUIDE}: not understood: {line}"));
                continue;
            }
        };
        seen[number - 1] = true;
        match fault(place.0, read(place.0), place.1, &signs) {
            Some(fault) => faults.push(format!("{GUIDE}: form {number}: {fault}")),
            None => passed += 1,
        }
    }
    let missing = (1..).zip(seen).filter(|(_, seen)| !seen);
    faults.extend(missing.map(|(number, _)| format!("{GUIDE}: form {number}: no row")));
    (passed, faults)
}

#[cfg(test)]
mod tests {
    use super::*;

    const SOURCE: &str = "\
// &mut out[a..b], as told
fn write(out: &mut [u8])
    ensures { out.new ≡ fill(out) }
{
    // the whole output, not out[a..]
    fill(
        &mut out[a..b],
    );
}
";

    /// A table whose first row is this one, and in which the other forms are right.
    fn with(row: &str) -> (usize, Vec<String>) {
        let mut guide = format!("{HEADING}\n| form | words | file | item | sign |\n|-|\n{row}\n");
        for form in 2..=FORMS {
            guide.push_str(&format!("| {form} | w | `a.rt` | `write` | `fill(` |\n"));
        }
        guide.push_str("\n## More\n\n| 10 | w | `a.rt` | `write` | `none` |\n");
        check(&guide, |path| (path == "a.rt").then(|| SOURCE.to_string()))
    }

    #[test]
    fn right() {
        let row = "| 1 | w | `a.rt` | `write` | `out: &mut [u8]`, `fill( &mut out[a..b], )` |";
        assert_eq!(with(row), (FORMS, vec![]));
    }

    #[test]
    fn wrong() {
        let rows = [
            ("`a.rt` | `writes` | `fill(`", "crates/a.rt has no writes"),
            ("`b.rt` | `write` | `fill(`", "there is no crates/b.rt"),
            (
                "`a.rt` | `write` | `fill(`, `out[a..c]`",
                "write in crates/a.rt does not have `out[a..c]`",
            ),
            // in a comment, in the contract
            (
                "`a.rt` | `write` | `out[a..]`",
                "write in crates/a.rt does not have `out[a..]`",
            ),
            (
                "`a.rt` | `write` | `fill(out)`",
                "write in crates/a.rt does not have `fill(out)`",
            ),
        ];
        for (row, fault) in rows {
            let faults = vec![format!("{GUIDE}: form 1: {fault}")];
            assert_eq!(with(&format!("| 1 | w | {row} |")), (FORMS - 1, faults));
        }
    }

    #[test]
    fn each_form_has_a_row_that_is_understood() {
        let missing = format!("{GUIDE}: form 1: no row");
        assert_eq!(with("").1, vec![missing.clone()]);
        for row in [
            "| 1 | w | `a.rt` | `write` | none |",
            "| 10 | w | `a.rt` | `write` | `fill(` |",
            "| 1 | w | `a.rt` | `write` |",
        ] {
            let faults = [format!("{GUIDE}: not understood: {row}"), missing.clone()];
            assert_eq!(with(row).1, faults);
        }
    }
}
