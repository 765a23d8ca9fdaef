//! The links of the guides: each relative one leads to a file or folder of the repository,
//! and each anchor to a heading of its guide; and each guide is linked from another.

use std::collections::{HashMap, HashSet};
use std::fs;
use std::path::{Component, Path, PathBuf};

/// The prose of a guide: its lines without the indented and the fenced code.
fn prose(guide: &str) -> impl Iterator<Item = &str> {
    let mut fenced = false;
    guide.lines().filter(move |line| {
        let fence = line.starts_with("```");
        fenced ^= fence;
        !fenced && !fence && !line.starts_with("    ")
    })
}

/// A line without what stands between backticks.
fn uncoded(line: &str) -> String {
    let parts: Vec<&str> = line.split('`').collect();
    let mut plain = String::new();
    for (i, part) in parts.iter().enumerate() {
        // The last backtick of an odd number opens nothing.
        if i % 2 == 0 || i + 1 == parts.len() {
            plain.push_str(part);
        }
    }
    plain
}

/// Where the links of a guide lead to.
fn links(guide: &str) -> Vec<String> {
    let mut found = Vec::new();
    for line in prose(guide) {
        // In a link the text may be code, so that its target is looked for in the whole line.
        for (at, _) in line.match_indices("](") {
            if line[..at].matches('`').count() % 2 == 1 {
                continue;
            }
            if let Some(end) = line[at..].find(')') {
                found.push(line[at + 2..at + end].to_string());
            }
        }
        // [name]: target
        let named = uncoded(line);
        if let Some((name, target)) = named.split_once("]: ") {
            if name.starts_with('[') && !name[1..].contains('[') {
                found.push(target.trim().to_string());
            }
        }
    }
    found
}

/// The anchor that a heading has: small letters, digits, - and _, a - for each space.
fn anchor(heading: &str) -> String {
    let letters = heading.trim().chars().flat_map(char::to_lowercase);
    letters
        .filter(|c| c.is_alphanumeric() || " -_".contains(*c))
        .map(|c| if c == ' ' { '-' } else { c })
        .collect()
}

/// The anchors of a guide's headings; one that comes again has a number.
fn anchors(guide: &str) -> Vec<String> {
    let mut seen: HashMap<String, usize> = HashMap::new();
    let headings = prose(guide).filter_map(|line| {
        let text = line.trim_start_matches('#');
        (text.len() < line.len()).then(|| text.strip_prefix(' '))?
    });
    headings
        .map(|heading| {
            let name = anchor(heading);
            let before = seen.entry(name.clone()).or_insert(0);
            *before += 1;
            match *before {
                1 => name,
                n => format!("{name}-{}", n - 1),
            }
        })
        .collect()
}

/// A path without `.` and `..`, if it stays in the repository.
fn plain(path: &Path) -> Option<PathBuf> {
    let mut made = PathBuf::new();
    for part in path.components() {
        match part {
            Component::Normal(name) => made.push(name),
            Component::CurDir => (),
            Component::ParentDir if made.pop() => (),
            _ => return None,
        }
    }
    Some(made)
}

/// The guides, by their paths in the repository.
fn guides(root: &Path) -> Vec<PathBuf> {
    let mut found = Vec::new();
    for folder in ["", "docs", "docs/changes", "bench", "tests"] {
        let entries = fs::read_dir(root.join(folder)).expect("a folder of guides");
        for entry in entries {
            let name = entry.expect("an entry of a folder").file_name();
            if name.to_string_lossy().ends_with(".md") {
                found.push(Path::new(folder).join(name));
            }
        }
    }
    found.sort();
    found
}

/// How many links lead to something, and what is wrong with the others.
pub fn check(root: &Path) -> (usize, Vec<String>) {
    let guides = guides(root);
    let texts: HashMap<&PathBuf, String> = guides
        .iter()
        .map(|path| {
            let text = fs::read_to_string(root.join(path));
            (
                path,
                text.unwrap_or_else(|e| panic!("{}: {e}", path.display())),
            )
        })
        .collect();
    let mut right = 0;
    let mut faults = Vec::new();
    let mut found = HashSet::from([PathBuf::from("README.md")]);
    for guide in &guides {
        for link in links(&texts[guide]) {
            if link.contains("://") {
                continue;
            }
            let (file, heading) = match link.split_once('#') {
                Some((file, heading)) => (file, Some(heading)),
                None => (&link[..], None),
            };
            let folder = guide.parent().unwrap_or_else(|| Path::new(""));
            let target = match file {
                "" => Some(guide.clone()),
                _ => plain(&folder.join(file)),
            };
            let there = target.filter(|path| root.join(path).exists());
            found.extend(there.iter().filter(|path| *path != guide).cloned());
            let good = there.map_or(false, |path| match heading {
                None => true,
                Some(heading) => texts
                    .get(&path)
                    .map_or(false, |text| anchors(text).iter().any(|a| a == heading)),
            });
            if good {
                right += 1;
            } else {
                faults.push(format!("{}: ({link}) leads nowhere", guide.display()));
            }
        }
    }
    let unlinked = guides.iter().filter(|guide| !found.contains(*guide));
    faults.extend(unlinked.map(|guide| format!("{}: no guide links to it", guide.display())));
    (right, faults)
}

#[cfg(test)]
mod tests {
    use super::*;

    #[test]
    fn links_are_found() {
        let guide = "\
See [a](a.md) and [`b`](b.md#c-d), not `[c](c.md)`.

    [d](d.md)

[e]: e.md
";
        assert_eq!(links(guide), ["a.md", "b.md#c-d", "e.md"]);
    }

    #[test]
    fn anchors_are_those_of_headings() {
        let guide = "# A guide\n\n## What `x` is, and why\n\n## A guide\n\n    # no heading\n";
        assert_eq!(
            anchors(guide),
            ["a-guide", "what-x-is-and-why", "a-guide-1"]
        );
    }

    #[test]
    fn paths_stay_in_the_repository() {
        let path = |text: &str| plain(Path::new(text));
        assert_eq!(
            path("docs/changes/../hosts.md"),
            Some("docs/hosts.md".into())
        );
        assert_eq!(path("docs/../../x"), None);
        assert_eq!(path("/etc"), None);
    }
}
