//! The release: the file VERSION has its three numbers, and every copy is held equal to it. After
//! a change the tree is on its way to a further release, and VERSION has that one's numbers and `-dev`.

use std::fs;
use std::path::Path;

/// A copy: its file, the text before it, and what stands there.
type Copy = (&'static str, &'static str, String);

const ENGINE: &str = "crates/engine/src/lib.rt";
const PROGRAMS: &str = "crates/programs/src/lib.rt";
const EDIT: &str = "crates/engine/must-fail/release.edit";
const HEADER: &str = "include/taa1.h";
const CHANGES: &str = "CHANGELOG.md";

/// What stands after the numbers of a tree that was changed after a release.
const CHANGED: &str = "-dev";

/// The three numbers of a text such as `1.0.0` or `1.1.0-dev`.
fn numbers(text: &str) -> Option<[u32; 3]> {
    let text = text.strip_suffix(CHANGED).unwrap_or(text);
    let mut parts = text.split('.').map(|part| part.parse().ok());
    let numbers = [parts.next()??, parts.next()??, parts.next()??];
    let [major, minor, patch] = numbers;
    (text == format!("{major}.{minor}.{patch}")).then_some(numbers)
}

/// The copies of a release, the newest heading of the changelog left out.
fn copies(version: &str) -> Option<Vec<Copy>> {
    let [major, minor, patch] = numbers(version)?.map(|number| number.to_string());
    let next = (numbers(version)?[1] + 1).to_string(); // the mistake of the must-fail edit
    let whole = || version.to_string();
    Some(vec![
        (HEADER, "#define TAA1_VERSION \"", whole()),
        (HEADER, "#define TAA1_VERSION_MAJOR ", major.clone()),
        (HEADER, "#define TAA1_VERSION_MINOR ", minor.clone()),
        (HEADER, "#define TAA1_VERSION_PATCH ", patch.clone()),
        (ENGINE, "record { major = ", major.clone()),
        (ENGINE, "; minor = ", minor.clone()),
        (ENGINE, "; patch = ", patch.clone()),
        (ENGINE, "\n        major: ", major),
        (ENGINE, "\n        minor: ", minor.clone()),
        (ENGINE, "\n        patch: ", patch),
        (PROGRAMS, "ascii \" ", whole()),
        (PROGRAMS, ".word(program).word(b\" ", whole()),
        (EDIT, "\nold:         minor: ", minor),
        (EDIT, "\nnew:         minor: ", next),
        ("python/taa1/library.py", "\nVERSION = \"", whole()),
        ("Cargo.toml", "\nversion = \"", whole()),
        ("rust/Cargo.toml", "\nversion = \"", whole()),
        ("Cargo.lock", "\nversion = \"", whole()),
    ])
}

/// A file with its copies made right, and whether it had any.
fn mended(text: &str, before: &str, wanted: &str) -> (String, bool) {
    let mut parts = text.split(before);
    let mut made = parts.next().unwrap_or("").to_string();
    let mut found = false;
    for part in parts {
        let rest = part.trim_start_matches(|c: char| c.is_ascii_digit() || c == '.');
        let rest = rest.strip_prefix(CHANGED).unwrap_or(rest);
        made.push_str(before);
        made.push_str(wanted);
        made.push_str(rest);
        found = true;
    }
    (made, found)
}

/// The release that the changelog's newest heading has, and whether changes stand above it.
fn newest(changes: &str) -> Option<(&str, bool)> {
    let (above, below) = changes
        .split_once("\n## [Unreleased]\n")?
        .1
        .split_once("## [")?;
    Some((below.split_once(']')?.0, !above.trim().is_empty()))
}

/// What is wrong with the changelog beside the version.
fn beside_changes(version: &str, changes: &str) -> Option<String> {
    let said = match newest(changes) {
        None => "no heading [Unreleased] with one of a release below it".to_string(),
        Some((release, _)) if version.ends_with(CHANGED) => {
            if numbers(release) < numbers(version) {
                return None;
            }
            format!("its newest heading, [{release}], is not before {version}")
        }
        Some((release, _)) if release != version => {
            format!("its newest heading is not [{version}]")
        }
        Some((_, true)) => format!(
            "changes after {version}: VERSION needs the next release's numbers and {CHANGED}"
        ),
        Some((_, false)) => return None,
    };
    Some(format!("{CHANGES}: {said}"))
}

fn read(root: &Path, file: &str) -> Result<String, String> {
    fs::read_to_string(root.join(file)).map_err(|error| format!("{file}: {error}"))
}

fn released(root: &Path) -> Result<(String, Vec<Copy>), String> {
    let text = read(root, "VERSION")?;
    let version = text.strip_suffix('\n').unwrap_or(&text);
    match copies(version) {
        Some(copies) => Ok((version.to_string(), copies)),
        None => Err(format!(
            "VERSION: three numbers wanted, or three and {CHANGED}, not '{version}'"
        )),
    }
}

/// What is wrong with the copies.
pub fn check(root: &Path) -> Vec<String> {
    let (version, copies) = match released(root) {
        Ok(found) => found,
        Err(fault) => return vec![fault],
    };
    let mut faults = Vec::new();
    for (file, before, wanted) in copies {
        let before_shown = before.trim();
        match read(root, file) {
            Err(fault) => faults.push(fault),
            Ok(text) => match mended(&text, before, &wanted) {
                (_, false) => faults.push(format!("{file}: no '{before_shown}'")),
                (made, true) if made != text => faults.push(format!(
                    "{file}: not {wanted} after '{before_shown}'; `contracts version` writes it"
                )),
                _ => (),
            },
        }
    }
    match read(root, CHANGES) {
        Err(fault) => faults.push(fault),
        Ok(text) => faults.extend(beside_changes(&version, &text)),
    }
    faults
}

/// Writes the copies, and answers the release.
pub fn write(root: &Path) -> Result<String, String> {
    let (version, copies) = released(root)?;
    for (file, before, wanted) in copies {
        let text = read(root, file)?;
        let (made, _) = mended(&text, before, &wanted);
        if made != text {
            fs::write(root.join(file), made).map_err(|error| format!("{file}: {error}"))?;
        }
    }
    Ok(version)
}

#[cfg(test)]
mod tests {
    use super::*;

    #[test]
    fn three_numbers_are_read() {
        assert_eq!(numbers("1.20.3"), Some([1, 20, 3]));
        assert_eq!(numbers("1.20.3-dev"), Some([1, 20, 3]));
        for wrong in [
            "", "1", "1.0", "1.0.0.0", "1.0.x", "1.0.0 ", "01.0.0", "+1.0.0", "1.0-dev", "1.0.0-rc",
        ] {
            assert_eq!(numbers(wrong), None, "{wrong}");
        }
    }

    #[test]
    fn copies_are_found_and_mended() {
        let text = "a\nversion = \"1.0.0\"\nb\nversion = \"2.1.0\"\n";
        let made = "a\nversion = \"1.0.1\"\nb\nversion = \"1.0.1\"\n";
        assert_eq!(
            mended(text, "\nversion = \"", "1.0.1"),
            (made.to_string(), true)
        );
        assert_eq!(
            mended("a 1.2.0-dev\\n", "a ", "1.2.0").0,
            mended("a 1.1.0\\n", "a ", "1.2.0").0
        );
        assert_eq!(mended("a\n", "x", "1"), ("a\n".to_string(), false));
    }

    #[test]
    fn the_newest_heading_counts() {
        let released =
            "# C\n\n## [Unreleased]\n\n## [1.1.0] - 2027-01-01\n\n## [1.0.0] - 2026-01-01\n";
        let changed = released.replace("[Unreleased]\n", "[Unreleased]\n\n### Fixed\n\n- A.\n");
        assert_eq!(newest(released), Some(("1.1.0", false)));
        assert_eq!(newest(&changed), Some(("1.1.0", true)));
        assert_eq!(newest("# C\n\n## [Unreleased]\n"), None);
        for (version, released_is_right, changed_is_right) in [
            ("1.1.0", true, false),
            ("1.1.1-dev", true, true),
            ("1.2.0-dev", true, true),
            ("1.1.0-dev", false, false),
            ("1.2.0", false, false),
        ] {
            let right = |changes| beside_changes(version, changes).is_none();
            assert_eq!(right(released), released_is_right, "{version}");
            assert_eq!(right(&changed), changed_is_right, "{version}");
        }
    }
}
