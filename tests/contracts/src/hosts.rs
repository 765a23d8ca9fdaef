//! The table of the calls in docs/hosts.md, made from the header's declarations and
//! from the definitions that the contracts cite. The header's comment of each call
//! names its refusals.

use crate::definitions::{Definitions, Tests};
use crate::header::{Argument, Call, Header};

/// A call with what its definition tests.
pub struct Described<'a> {
    pub call: &'a Call,
    pub tests: Tests,
}

/// The calls of the header. A call's contract is found by its name: the term after ≡ in
/// the file `engine`, and the function's parameters, which are the call's arguments, under
/// the same names but for `result`, which is a word of contracts and there called `res`.
pub fn described<'a>(
    header: &'a Header,
    definitions: &Definitions,
    contract: impl Fn(&str) -> Option<(String, Vec<String>)>,
) -> Vec<Described<'a>> {
    let one = |call: &'a Call| {
        let names: Vec<&str> = call.arguments.iter().map(Argument::name).collect();
        let (term, parameters) = contract(&call.name).unwrap_or_default();
        let parameters: Vec<&str> = parameters.iter().map(|name| &name[..]).collect();
        let there = names.iter().map(|name| match *name {
            "result" => "res",
            name => name,
        });
        let same = there.eq(parameters.iter().copied());
        let tests = match same && !names.is_empty() {
            true => {
                let named: Vec<(&str, &str)> = parameters.into_iter().zip(names).collect();
                definitions.tests("engine", &term, &named)
            }
            false => Tests::default(), // what takes nothing tests nothing
        };
        Described { call, tests }
    };
    header.calls.iter().map(one).collect()
}

fn numbers(refusals: &[u64]) -> String {
    let numbers: Vec<String> = refusals.iter().map(u64::to_string).collect();
    numbers.join(", ")
}

/// The refusals in the order of their tests, as the header and the table have them.
fn refusals(tests: &Tests) -> String {
    let mut text = numbers(&tests.refusals);
    if !tests.of_records.is_empty() {
        text.push_str("; of a record ");
        text.push_str(&numbers(&tests.of_records));
    }
    text
}

/// An argument with what it must be.
fn input(argument: &Argument, tests: &Tests) -> Option<String> {
    let name = argument.name();
    let limit = match argument {
        Argument::Output(_) => return None,
        Argument::Bytes(_) => match (tests.lengths.get(name), &tests.list) {
            (Some(bytes), _) => format!(" [{bytes}]"),
            (None, Some((list, bytes))) if list == name => format!(" [{bytes} a record]"),
            _ => " [?]".to_string(),
        },
        Argument::Number(..) => {
            let range = (tests.least.get(name), tests.greatest.get(name));
            match (tests.bits.get(name), tests.ones.get(name), range) {
                (Some(bits), _, _) => format!(" ({bits} bits)"),
                (_, Some(ones), _) => format!(" ({ones} ones)"),
                (_, _, (Some(least), Some(most))) => format!(" ({least} to {most})"),
                (_, _, (None, Some(most))) => format!(" (0 to {most})"),
                _ => String::new(),
            }
        }
    };
    Some(format!("`{name}`{limit}"))
}

fn row(Described { call, tests }: &Described) -> String {
    let Call { name, answer, .. } = call;
    if call.arguments.is_empty() {
        return format!("| `{name}` | - | - | `{answer}` | - |\n");
    }
    let inputs = call.arguments.iter().filter_map(|a| input(a, tests));
    let inputs = inputs.collect::<Vec<_>>().join(", ");
    let mut outputs = call.arguments.iter().filter_map(|argument| match argument {
        Argument::Output(name) => Some(name),
        _ => None,
    });
    let written = match (outputs.next(), tests.written) {
        (None, _) => "-".to_string(),
        (Some(name), Some(bytes)) => format!("`{name}`: {bytes} a record"),
        (Some(name), None) => format!("`{name}`: ?"),
    };
    let refusals = refusals(tests);
    format!("| `{name}` | {inputs} | {refusals} | `{answer}` | {written} |\n")
}

pub fn table(calls: &[Described]) -> String {
    let head = "| call | inputs | refusals, in order | answer | writes |\n|---|---|---|---|---|\n";
    let rows = calls.iter().map(row);
    rows.fold(head.to_string(), |text, row| text + &row)
}

/// The table of the refusals: the names of the header's text, with their numbers and words.
pub fn refusals_table(header: &Header, text: &str) -> String {
    let mut table = "| number | name | means |\n|---|---|---|\n".to_string();
    for line in text.lines() {
        let case = line.trim().strip_prefix("case ");
        let case = case.and_then(|case| case.split_once(": return \""));
        if let Some((name, words)) = case {
            let (number, words) = (header.bytes(name), words.trim_end_matches("\";"));
            table.push_str(&format!("| {number} | `{name}` | {words} |\n"));
        }
    }
    table
}

/// Whether the header has the engine's calls, and describes each as it should; and what
/// is wrong.
pub fn check(calls: &[Described], engine: &[&str]) -> (usize, Vec<String>) {
    let undeclared = |name: &&&str| calls.iter().all(|one| one.call.name != **name);
    let undeclared = engine.iter().filter(undeclared);
    let mut faults: Vec<String> = undeclared
        .map(|name| format!("include/taa1.h: {name} is not declared"))
        .collect();
    for one in calls {
        let Described { call, tests } = one;
        let mut fault = |what: String| {
            faults.push(format!("include/taa1.h: {}: {what}", call.name));
        };
        let takes = !call.arguments.is_empty();
        let row = row(one);
        if takes && (row.contains('?') || tests.refusals.is_empty()) {
            let row = row.trim_end();
            fault(format!("its definition is not understood: {row}"));
        }
        let said = match takes {
            true => format!("Refuses {}.", refusals(tests)),
            false => "Refuses nothing.".to_string(),
        };
        if !call.comment.contains(&said) {
            fault(format!("its comment has no \"{said}\""));
        }
    }
    (usize::from(faults.is_empty()), faults)
}

#[cfg(test)]
mod tests {
    use super::*;

    const HEADER: &str = "\
/*
 * A number of the key [16]; much
 * of it. Refuses 11.
 */
taa1_value taa1_one(const uint8_t *key, size_t key_length,
                    uint64_t steps);

/* Many. Refuses 1, 11. */
taa1_book_answer taa1_two(const uint8_t *key, size_t key_length, uint8_t *TAA1_RESTRICT out, size_t out_length) TAA1_USE_ANSWER;

/* Three. Refuses 1. */
taa1_numbers taa1_three(void);
";
    const REFUSALS: &str = "\
abbrev pub wrong_length : ℕ
wrong_length = 11

abbrev pub has_length : ℕ → List ℕ → Bool
has_length n xs = eqb (length xs) n

unfoldable pub one_call : List ℕ → ℕ → Value
one_call k n = value (first ((has_length 16 k && leb n 31, wrong_length) ∷ []))

unfoldable pub two_call : List ℕ → List ℕ → BookAnswer
two_call k out = value (first ((wrong_length) ∷ []))
";

    #[test]
    fn refusals_have_their_numbers() {
        let text = "enum {\n    TAA1_WRONG_KIND = 3, /* a kind */\n};\n    \
                    case TAA1_WRONG_KIND: return \"kind not 1 to 6\";\n";
        let table = refusals_table(&Header::read(text), text);
        let row = "| 3 | `TAA1_WRONG_KIND` | kind not 1 to 6 |";
        assert_eq!(table.lines().skip(2).collect::<Vec<_>>(), [row]);
    }

    /// A row for each call. The second has a wrong comment, and a string whose length no
    /// test asks for; the third takes nothing, and has a wrong comment.
    #[test]
    fn rows_and_faults() {
        let engine = "ghost use Rattle.standard.specs.Refusals.{one_call, two_call};";
        let sources = [("Refusals", REFUSALS), ("engine", engine)];
        let definitions = Definitions::read(sources.into_iter());
        let contract = |name: &str| {
            let (term, parameters) = match name {
                "taa1_one" => ("one_call key steps", ["key", "steps"]),
                _ => ("two_call key out", ["key", "out"]),
            };
            Some((term.to_string(), parameters.map(str::to_string).to_vec()))
        };
        let header = Header::read(HEADER);
        let calls = described(&header, &definitions, contract);
        let table = table(&calls);
        let (_, faults) = check(&calls, &["taa1_one", "taa1_four"]);
        let rows: Vec<&str> = table.lines().skip(2).collect();
        let second = "| `taa1_two` | `key` [?] | 11 | `taa1_book_answer` | `out`: ? |";
        assert_eq!(
            rows,
            [
                "| `taa1_one` | `key` [16], `steps` (0 to 31) | 11 | `taa1_value` | - |",
                second,
                "| `taa1_three` | - | - | `taa1_numbers` | - |",
            ]
        );
        assert_eq!(
            faults,
            [
                "include/taa1.h: taa1_four is not declared".to_string(),
                format!("include/taa1.h: taa1_two: its definition is not understood: {second}"),
                "include/taa1.h: taa1_two: its comment has no \"Refuses 11.\"".to_string(),
                "include/taa1.h: taa1_three: its comment has no \"Refuses nothing.\"".to_string(),
            ]
        );
    }
}
