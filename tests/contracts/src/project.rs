//! The repository, as the checks read it.

use std::fs;
use std::path::{Path, PathBuf};

/// A file's name and its text.
pub type File = (String, String);

/// A crate, from its line in crates.txt, the comment above it, and its folder.
pub struct Crate {
    pub name: String,
    /// The comment is `# LAYER: what it is for`.
    pub layer: String,
    pub purpose: String,
    /// The crates that it uses.
    pub uses: Vec<String>,
    /// The files of src/ and of must-fail/.
    pub sources: Vec<File>,
    pub edits: Vec<File>,
}

impl Crate {
    pub fn source(&self, file: &str) -> Option<&str> {
        let found = self.sources.iter().find(|(name, _)| name == file);
        found.map(|(_, text)| &text[..])
    }

    /// Where a file of src/ is.
    pub fn path(&self, file: &str) -> String {
        format!("crates/{}/src/{file}", self.name)
    }
}

pub struct Project {
    pub root: PathBuf,
    pub crates: Vec<Crate>,
}

/// The files of a folder that end so, in the order of their names; none if there is no
/// such folder.
pub fn files(folder: &Path, ending: &str) -> Vec<File> {
    let entries = fs::read_dir(folder).into_iter().flatten();
    let paths = entries.map(|entry| entry.expect("an entry of a folder").path());
    let mut files: Vec<File> = paths
        .filter_map(|path| {
            let name = path.file_name()?.to_string_lossy().to_string();
            name.ends_with(ending).then(|| (name, read(&path)))
        })
        .collect();
    files.sort();
    files
}

pub fn read(path: &Path) -> String {
    fs::read_to_string(path).unwrap_or_else(|error| panic!("{}: {error}", path.display()))
}

/// A section of a guide: what stands after its heading, up to the next one.
pub fn section<'a>(guide: &'a str, heading: &str) -> &'a str {
    let rest = guide.split_once(heading).map_or("", |(_, rest)| rest);
    rest.split("\n## ").next().unwrap_or("")
}

impl Project {
    pub fn read(root: PathBuf) -> Self {
        let mut crates = Vec::new();
        let mut comment = String::new();
        for line in read(&root.join("crates.txt")).lines() {
            if let Some(said) = line.strip_prefix("# ") {
                comment = said.to_string();
            } else if let Some((head, uses)) = line.split_once(':') {
                // after the name may stand what kind of crate it is
                let name = head.split_whitespace().next().unwrap_or("");
                let (layer, purpose) = comment.split_once(": ").unwrap_or_default();
                let folder = root.join("crates").join(name);
                crates.push(Crate {
                    name: name.to_string(),
                    layer: layer.to_string(),
                    purpose: purpose.to_string(),
                    uses: uses.split_whitespace().map(str::to_string).collect(),
                    sources: files(&folder.join("src"), ".rt"),
                    edits: files(&folder.join("must-fail"), ".edit"),
                });
            }
        }
        Project { root, crates }
    }

    /// A file of the repository, which must be there.
    pub fn file(&self, path: &str) -> String {
        read(&self.root.join(path))
    }
}
