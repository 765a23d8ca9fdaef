//! The figures in the guides, from what is counted.

use crate::generated::Generated;
use crate::project::{files, Project};
use std::fs;
use std::path::Path;

fn lines<'a>(texts: impl IntoIterator<Item = &'a String>) -> usize {
    texts.into_iter().map(|text| text.lines().count()).sum()
}

/// The lines of the logic's files in a folder, and in the folders in it.
fn lines_in(folder: &Path) -> usize {
    let own = files(folder, ".antt");
    let entries = fs::read_dir(folder).into_iter().flatten();
    let inner = entries.map(|entry| entry.expect("an entry of a folder").path());
    let inner: usize = inner
        .filter(|path| path.is_dir())
        .map(|path| lines_in(&path))
        .sum();
    inner + lines(own.iter().map(|(_, text)| text))
}

/// To the nearest hundred.
fn rounded(number: usize) -> usize {
    (number + 50) / 100 * 100
}

pub fn figures(project: &Project, calls: usize, edits: usize) -> Vec<Generated> {
    let folder =
        |name: &str, part: &str| lines_in(&project.root.join("crates").join(name).join(part));
    let all = |part: &str| -> usize {
        let crates = project.crates.iter();
        crates.map(|one| folder(&one.name, part)).sum()
    };
    let sources = project.crates.iter().flat_map(|one| &one.sources);
    let code = lines(sources.map(|(_, text)| text));
    let believed = folder("standard", "specs");
    let stated = project.root.join("crates/standard/specs");
    let stated = lines(files(&stated, "Facts.antt").iter().map(|(_, text)| text));
    let readme = |before: &str, after: &str, figure: usize| {
        Generated::figure("README.md", before, after, figure)
    };
    vec![
        readme(
            "in rounded lines: ",
            " that define",
            rounded(believed - stated),
        ),
        readme(
            "grep -v Facts | xargs cat | wc -l`), ",
            " that state",
            rounded(stated),
        ),
        readme("Facts.antt | wc -l`), ", " of code", rounded(code)),
        readme("src/*.rt | wc -l`), ", " of proofs", rounded(all("proofs"))),
        readme(
            "xargs cat | wc -l`), and ",
            " in which other crates",
            rounded(all("specs") - believed),
        ),
        readme(
            "about sealed texts; ",
            " crates, and ",
            project.crates.len(),
        ),
        readme(" crates, and ", " edits that", edits),
        Generated::figure("docs/hosts.md", "Both modules have all ", " calls", calls),
        Generated::figure("python/test_taa1.py", "len(public), ", ")\n", calls),
    ]
}
