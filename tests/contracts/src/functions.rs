//! The public functions of the crates, and what their contracts say: each has an
//! `ensures` and no `requires`, one that stays in its crate is `pub(crate)`, and what
//! hosts call cites definitions of `standard` alone.

use crate::imports::{imports, Import};
use crate::items::is_clause;
use crate::project::Crate;

/// A public function's path, its parameters and its contract.
pub struct Function {
    pub name: String,
    pub parameters: Vec<String>,
    requires: Vec<String>,
    pub ensures: Vec<String>,
    /// What it cites outside `standard`: definition and file.
    elsewhere: Vec<(String, String)>,
}

/// The word after `before`, up to what cannot stand in a name.
fn name_after<'a>(line: &'a str, before: &str) -> Option<&'a str> {
    let rest = line.trim_start().strip_prefix(before)?;
    let end = rest.find(|c: char| !c.is_alphanumeric() && c != '_');
    Some(&rest[..end.unwrap_or(rest.len())])
}

fn function_name(line: &str) -> Option<&str> {
    ["pub fn ", "pub const fn ", "pub extern \"C\" fn "]
        .iter()
        .find_map(|before| name_after(line, before))
}

/// The words of `text` with what stands between them, in order.
fn words(text: &str) -> Vec<&str> {
    let mut found = Vec::new();
    let mut start = 0;
    for (at, c) in text.char_indices() {
        if " (){},;".contains(c) {
            found.push(&text[start..at]);
            found.push(&text[at..at + 1]);
            start = at + 1;
        }
    }
    found.push(&text[start..]);
    found
}

/// The names of the parameters in a function's head, which is in one line.
fn parameters(head: &str) -> Vec<String> {
    let list = head.split_once('(').map_or("", |(_, rest)| rest);
    let list = list.rsplit_once(')').map_or("", |(list, _)| list);
    let named = list.split(',').filter_map(|one| one.split_once(": "));
    named.map(|(name, _)| name.trim().to_string()).collect()
}

/// What a file imports from a crate other than `standard`, or from its own: the alias,
/// the definition's own name and its file.
fn elsewhere(imports: &[Import]) -> Vec<(&str, &str, String)> {
    let place = |one: &Import| {
        let place = one.path.strip_prefix("Rattle.")?;
        let (owner, file) = place.split_once(".specs.")?;
        let outside = !["std", "standard"].contains(&owner);
        outside.then(|| format!("crates/{owner}/specs/{file}.antt"))
    };
    fn bare(name: &str) -> &str {
        name.trim_matches('◌')
    }
    let ghosts = imports.iter().filter(|one| one.kind == "ghost");
    let found = ghosts.filter_map(|one| Some((bare(&one.alias), bare(&one.name), place(one)?)));
    found.collect()
}

/// A word without the moment at which it is meant: the values at entry by the
/// arguments' names, those at exit marked.
fn timeless(word: &str) -> String {
    let mut parts = word.split('.');
    let mut said = parts.next().unwrap_or("").to_string();
    for part in parts {
        match part {
            "now" | "old" => {}
            "new" => said.push('′'),
            _ => said.push_str(&format!(".{part}")),
        }
    }
    said
}

/// What stands between a clause's braces.
fn inner(clause: &str) -> &str {
    let inner = clause.split_once('{');
    let inner = inner.and_then(|(_, rest)| rest.rsplit_once('}'));
    inner.map_or("", |(inner, _)| inner.trim())
}

/// A contract's statement as a reader would say it, each definition by its own name.
fn statement(clause: &str, imports: &[Import]) -> String {
    let ghosts = || imports.iter().filter(|one| one.kind == "ghost");
    let mut said = String::new();
    for word in words(inner(clause)) {
        match ghosts().find(|one| one.alias == word) {
            Some(Import { name, .. }) => said.push_str(name),
            None => said.push_str(&timeless(word)),
        }
    }
    said
}

/// Adds the public functions of one file. The answer has those that `exported`
/// does not let out of the crate: they should say so, by `pub(crate)`.
fn functions(
    path: &str,
    source: &str,
    exported: &dyn Fn(&str) -> bool,
    all: &mut Vec<Function>,
) -> Vec<String> {
    let imports = imports(source);
    let outside = elsewhere(&imports);
    let mut hidden = Vec::new();
    let mut owner = None;
    let mut lines = source.lines().peekable();
    while let Some(line) = lines.next() {
        if line == "}" {
            owner = None;
        }
        owner = name_after(line, "impl ").or(owner);
        let name = match function_name(line) {
            Some(name) => name,
            None => continue,
        };
        // The body starts at a brace of its own, or after the head if there is
        // no contract.
        let mut clauses: Vec<String> = Vec::new();
        let mut head = line.to_string();
        let mut last = line.trim();
        while last != "{" && !(clauses.is_empty() && last.ends_with(['{', '}'])) {
            last = lines.next().expect("a function has a body").trim();
            if is_clause(last) {
                clauses.push(last.to_string());
            } else if let Some(clause) = clauses.last_mut() {
                *clause = format!("{clause} {last}");
            } else {
                head = format!("{head} {last}");
            }
        }
        if !exported(owner.unwrap_or(name)) {
            hidden.push(format!("{path}: {name} is pub, but not exported"));
        }
        let of_word = |word: &'static str| clauses.iter().filter(move |it| it.starts_with(word));
        let said = |word| {
            of_word(word)
                .map(|clause| statement(clause, &imports))
                .collect()
        };
        let cited = |name: &str| of_word("ensures").any(|it| words(inner(it)).contains(&name));
        let cited = outside.iter().filter(|(alias, ..)| cited(alias));
        let elsewhere = cited.map(|(_, name, file)| (name.to_string(), file.clone()));
        let owner = owner.map_or(String::new(), |owner| format!("{owner}::"));
        all.push(Function {
            name: format!("{path}::{owner}{name}"),
            parameters: parameters(&head),
            requires: said("requires"),
            elsewhere: elsewhere.collect(),
            ensures: said("ensures"),
        });
    }
    hidden
}

/// Whether a line makes something public in a way that is not understood here.
fn is_odd(line: &str) -> bool {
    let head = line.split('(').next().unwrap_or("");
    line.starts_with("pub") && head.contains(" fn ") && function_name(line).is_none()
}

/// Whether an item is let out of the crate otherwise than by `pub use module::item`.
fn is_odd_use(one: &Import) -> bool {
    let plain = |word: &str| word.chars().all(|c| c.is_alphanumeric() || c == '_');
    let understood = [&one.path, &one.name]
        .iter()
        .all(|word| !word.is_empty() && plain(word));
    one.kind == "pub" && !(understood && one.alias == one.name)
}

fn odd_lines(path: &str, source: &str) -> Vec<String> {
    let lines = source.lines().map(str::trim).filter(|line| is_odd(line));
    let uses = imports(source).into_iter().filter(is_odd_use);
    let uses = uses.map(|one| format!("pub use {}::{} as {}", one.path, one.name, one.alias));
    let odd = lines.map(str::to_string).chain(uses);
    odd.map(|line| format!("{path}: not understood: {line}"))
        .collect()
}

/// Adds the public functions of a library, in the order of its files. The answer is
/// what is wrong with them.
fn of_crate(one: &Crate, all: &mut Vec<Function>) -> Vec<String> {
    let main = match one.source("lib.rt") {
        Some(main) => main,
        None => return Vec::new(),
    };
    let mut odd: Vec<String> = Vec::new();
    for (file, source) in &one.sources {
        odd.extend(odd_lines(&one.path(file), source));
    }
    odd.extend(functions(&one.name, main, &|_| true, all));
    let uses = imports(main);
    for line in main.lines() {
        let open = name_after(line, "pub mod ");
        let module = match open.or(name_after(line, "mod ")) {
            Some(module) => module,
            None => continue,
        };
        let path = open.map_or(one.name.clone(), |module| format!("{}::{module}", one.name));
        let source = one.source(&format!("{module}.rt")).unwrap_or("");
        let let_out =
            |one: &Import, item: &str| one.kind == "pub" && one.path == module && one.name == item;
        let exported = |item: &str| open.is_some() || uses.iter().any(|one| let_out(one, item));
        odd.extend(functions(&path, source, &exported, all));
    }
    odd
}

/// The public functions of all crates, and what is not as it should be.
pub fn of_crates(crates: &[Crate]) -> (Vec<Function>, Vec<String>) {
    let mut all = Vec::new();
    let odd = crates
        .iter()
        .flat_map(|one| of_crate(one, &mut all))
        .collect();
    (all, odd)
}

/// How many functions have such a contract as they should, and what is wrong.
pub fn check(all: &[Function]) -> (usize, Vec<String>) {
    let mut faults = Vec::new();
    for function in all {
        let name = &function.name;
        if !function.requires.is_empty() || function.ensures.is_empty() {
            faults.push(format!("{name}: a requires, or no ensures"));
        } else if name.starts_with("engine::") && !function.elsewhere.is_empty() {
            faults.push(format!("{name}: cites a definition outside standard"));
        }
    }
    (all.len() - faults.len(), faults)
}

/// The functions with their contracts.
pub fn table(all: &[Function]) -> String {
    let mut text = String::from("| function | what holds (x′ is the value at exit) |\n|---|---|\n");
    for function in all {
        let ensures: Vec<String> = function.ensures.iter().map(|e| format!("`{e}`")).collect();
        text.push_str(&format!(
            "| `{}` | {} |\n",
            function.name,
            ensures.join("; ")
        ));
    }
    text
}

/// Each definition outside `standard` with the functions that cite it.
pub fn outside(all: &[Function]) -> String {
    let mut cited: Vec<(&str, &str)> = Vec::new();
    for (name, file) in all.iter().flat_map(|function| &function.elsewhere) {
        if !cited.contains(&(file, name)) {
            cited.push((file, name));
        }
    }
    cited.sort_unstable();
    let mut text = String::from("| definition | in | cited by |\n|---|---|---|\n");
    for (file, name) in cited {
        let by = all.iter().filter(|function| {
            let mut of = function.elsewhere.iter();
            of.any(|(other, place)| other == name && place == file)
        });
        let by: Vec<String> = by.map(|function| format!("`{}`", function.name)).collect();
        text.push_str(&format!("| `{name}` | `{file}` | {} |\n", by.join(", ")));
    }
    text
}

#[cfg(test)]
mod tests {
    use super::*;

    const SOURCE: &str = "\
ghost use Rattle.std.specs.Prelude.{◌≡◌, length};
ghost use Rattle.standard.specs.Bytes.{same as same_of};
ghost use Rattle.arrays.specs.Least.{Least};
ghost use Rattle.lines.specs.LineStates.{◌▸◌};

// both
#[tactic(auto)]
pub fn copy(
    s: &[u8],
    out: &mut [u8],
) -> bool
    requires fits { length s.now ≡ length out.old }
    ensures copied { (result, out.new)
        ≡ same_of s.now out.old }
    ensures least { Least (length out.new) s.now.0 }
{
    true
}

pub fn hidden() {}
";

    #[test]
    fn a_contract_with_its_moments_and_names() {
        let mut all = Vec::new();
        let odd = functions("a", SOURCE, &|item| item != "hidden", &mut all);
        assert_eq!(odd, ["a: hidden is pub, but not exported"]);
        let found = &all[0];
        assert_eq!(found.name, "a::copy");
        assert_eq!(found.parameters, ["s", "out"]);
        assert_eq!(found.requires, ["length s ≡ length out"]);
        let ensures = ["(result, out′) ≡ same s out", "Least (length out′) s.0"];
        assert_eq!(found.ensures, ensures);
        let least = (
            "Least".to_string(),
            "crates/arrays/specs/Least.antt".to_string(),
        );
        assert_eq!(found.elsewhere, [least]);
        let faults = [
            "a::copy: a requires, or no ensures",
            "a::hidden: a requires, or no ensures",
        ];
        assert_eq!(check(&all), (0, faults.map(str::to_string).to_vec()));
    }

    #[test]
    fn only_plain_lines_let_something_out() {
        let odd = |line: &str| odd_lines("a", line).len();
        assert_eq!(odd("pub use joins::{join, part};"), 0);
        assert_eq!(odd("pub use joins::inner::join;"), 1);
        assert_eq!(odd("pub use joins::join as other;"), 1);
        assert_eq!(odd("pub unsafe fn f() {}"), 1);
        assert_eq!(odd("pub(crate) fn f() {}"), 0);
    }
}
