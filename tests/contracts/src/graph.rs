//! Which functions a function calls, in its own crate and in the crates below.

use crate::imports::imports;
use crate::items::{code_of, items};
use crate::project::Crate;
use std::collections::{BTreeMap, BTreeSet, HashMap};

/// A function by crate and name, such as `books::scan` or `standard::Kind::from_byte`.
pub type Name = String;

pub struct Graph {
    calls: BTreeMap<Name, BTreeSet<Name>>,
}

/// The code of a function, and what surrounds it.
struct Body<'a> {
    own: &'a Crate,
    /// The crate of each name that the file brings in.
    owners: HashMap<String, String>,
    name: Name,
    code: String,
}

/// The names before an opening parenthesis, with what stands in front of them: `scan`,
/// `keys::ring`, `Kind::from_byte`, `.word`.
fn called(code: &str) -> impl Iterator<Item = &str> {
    let part = |c: char| c.is_alphanumeric() || "_:.".contains(c);
    let before = code.match_indices('(').map(move |(at, _)| &code[..at]);
    before.map(move |text| &text[text.trim_end_matches(part).len()..])
}

/// The crate of each name that a file brings in.
fn owners(own: &str, source: &str) -> HashMap<String, String> {
    let code = imports(source)
        .into_iter()
        .filter(|one| one.kind.is_empty());
    let owner = |path: &str| match path.split("::").next() {
        Some("crate") | None => own.to_string(),
        Some(first) => first.to_string(),
    };
    code.map(|one| (one.alias, owner(&one.path))).collect()
}

fn bodies(crates: &[Crate]) -> Vec<Body<'_>> {
    let mut found = Vec::new();
    for own in crates {
        for (_, source) in &own.sources {
            for item in items(source).iter().filter(|item| item.kind == "fn") {
                found.push(Body {
                    own,
                    owners: owners(&own.name, source),
                    name: format!("{}::{}", own.name, item.name),
                    code: code_of(source, &item.name).unwrap_or_default(),
                });
            }
        }
    }
    found
}

impl Body<'_> {
    /// The crate that a name of the file comes from.
    fn owner(&self, name: &str) -> &str {
        self.owners.get(name).unwrap_or(&self.own.name)
    }

    /// Whether a method is one of this crate or of those that it uses. Of which type it
    /// is called is not looked at.
    fn may_mean(&self, method: &str, known: &str) -> bool {
        let mut parts = known.split("::");
        let owner = parts.next().unwrap_or("");
        let near = owner == self.own.name || self.own.uses.iter().any(|used| used == owner);
        near && parts.nth(1) == Some(method)
    }

    /// The functions that a called name may be.
    fn meant(&self, callee: &str, known: &BTreeMap<Name, BTreeSet<Name>>) -> Vec<Name> {
        if let Some((_, method)) = callee.rsplit_once('.') {
            let methods = known.keys().filter(|name| self.may_mean(method, name));
            return methods.cloned().collect();
        }
        let name = match callee.split_once("::") {
            None => format!("{}::{callee}", self.owner(callee)),
            Some(("Self", last)) => {
                let block = self.name.rsplit_once("::").map_or("", |(block, _)| block);
                format!("{block}::{last}")
            }
            Some((first, _)) if first.starts_with(char::is_uppercase) => {
                format!("{}::{callee}", self.owner(first))
            }
            Some(_) => callee.to_string(),
        };
        vec![name]
    }
}

impl Graph {
    pub fn of(crates: &[Crate]) -> Self {
        let bodies = bodies(crates);
        let names = bodies.iter().map(|body| body.name.clone());
        let mut calls: BTreeMap<Name, BTreeSet<Name>> =
            names.map(|name| (name, BTreeSet::new())).collect();
        for body in &bodies {
            let code = body.code.split_once(" { ").map_or("", |(_, code)| code);
            let meant = called(code).flat_map(|callee| body.meant(callee, &calls));
            let found = meant.filter(|name| calls.contains_key(name)).collect();
            calls.insert(body.name.clone(), found);
        }
        Graph { calls }
    }

    /// What a function calls itself.
    pub fn called_by(&self, name: &str) -> impl Iterator<Item = &Name> {
        self.calls.get(name).into_iter().flatten()
    }

    /// The function and all that it calls, also through others.
    pub fn reached(&self, name: &str) -> BTreeSet<Name> {
        let mut found = BTreeSet::from([name.to_string()]);
        let mut next = vec![name.to_string()];
        while let Some(name) = next.pop() {
            for callee in self.called_by(&name) {
                if found.insert(callee.clone()) {
                    next.push(callee.clone());
                }
            }
        }
        found
    }
}
