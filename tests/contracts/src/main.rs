//! Holds the sources, the hosts' declarations and the guides to each other.
//!
//!     contracts            checks; the last line: N passed, M failed
//!     contracts write      writes the tables and figures that follow from a source
//!     contracts version    writes the copies of the release
//!
//! Each module says what it checks or makes.

mod argument;
mod claims;
mod definitions;
mod edits;
mod example;
mod figures;
mod forms;
mod functions;
mod generated;
mod graph;
mod header;
mod hosts;
mod imports;
mod items;
mod layers;
mod layout;
mod links;
mod project;
mod python_rows;
mod rust_rows;
mod tables;
mod version;

use argument::Argument;
use definitions::Definitions;
use edits::Edit;
use functions::Function;
use generated::Generated;
use graph::Graph;
use header::Header;
use hosts::Described;
use project::{files, Project};
use std::fs;
use std::path::Path;
use std::process::ExitCode;

/// The hosts' declarations, in Rust and in Python.
const RAW: &str = "rust/src/raw.rs";
const TABLE: &str = "python/taa1/calls.py";
/// The argument for markers: its page, and the desk's copy.
const GUIDE: &str = "docs/ARGUMENT.md";
const CLAIMS: &str = "desk/taa1_desk/showing/claims.py";

/// How many things are right, and what is wrong with the others.
type Verdict = (usize, Vec<String>);

/// What is read of the project: its functions, edits and calls.
struct Sources {
    project: Project,
    functions: Vec<Function>,
    edits: Vec<Edit>,
    graph: Graph,
    header: Header,
    definitions: Definitions,
    argument: Argument,
    /// What is not understood.
    odd: Vec<String>,
}

impl Sources {
    fn read(root: &Path) -> Self {
        let project = Project::read(root.to_path_buf());
        let (functions, mut odd) = functions::of_crates(&project.crates);
        let (edits, more) = edits::of_crates(&project.crates);
        odd.extend(more);
        let (argument, more) = claims::argument(root);
        odd.extend(more);
        let specs = files(&root.join("crates/standard/specs"), ".antt");
        let engine = project.file("crates/engine/src/lib.rt");
        let specs = specs
            .iter()
            .map(|(name, text)| (name.trim_end_matches(".antt"), &text[..]));
        Sources {
            functions,
            edits,
            graph: Graph::of(&project.crates),
            header: Header::read(&project.file("include/taa1.h")),
            definitions: Definitions::read(specs.chain([("engine", &engine[..])])),
            project,
            argument,
            odd,
        }
    }

    /// The calls of the header with what their definitions test.
    fn described(&self) -> Vec<Described<'_>> {
        hosts::described(&self.header, &self.definitions, |name| {
            let name = format!("engine::{name}");
            let function = self.functions.iter().find(|f| f.name == name)?;
            let (_, right) = function.ensures.first()?.split_once("≡ ")?;
            Some((right.to_string(), function.parameters.clone()))
        })
    }

    fn call_names(&self) -> Vec<String> {
        let calls = self.header.calls.iter();
        calls.map(|call| call.name.clone()).collect()
    }

    /// Everything that `contracts write` writes.
    fn generated(&self) -> Vec<Generated> {
        let lines = Generated::lines;
        let calls = self.call_names();
        let described = self.described();
        let mut all = vec![
            lines(
                "docs/functions.md",
                "citations",
                functions::outside(&self.functions),
            ),
            lines(
                "docs/functions.md",
                "functions",
                functions::table(&self.functions),
            ),
            lines("docs/edits.md", "edits", edits::table(&self.edits)),
            lines(
                "docs/edits.md",
                "calls",
                edits::calls_table(&calls, &self.edits, &self.graph),
            ),
            lines("docs/hosts.md", "calls", hosts::table(&described)),
            lines("docs/hosts.md", "answers", layout::table(&self.header)),
            lines(
                "docs/hosts.md",
                "refusals",
                hosts::refusals_table(&self.header, &self.project.file("include/taa1.h")),
            ),
            lines(
                "docs/PROVING.md",
                "layers",
                layers::picture(&self.project.crates),
            ),
            lines("README.md", "crates", layers::list(&self.project.crates)),
            lines("tests/header.c", "structs", layout::layout(&self.header)),
            lines(RAW, "answers", rust_rows::structs(&self.header)),
            lines(RAW, "calls", rust_rows::calls(&self.header)),
            lines(TABLE, "answers", python_rows::answers(&self.header)),
            lines(TABLE, "calls", python_rows::calls(&described)),
            lines(
                "tests/host/src/engine.rs",
                "answers",
                rust_rows::answers(&self.header),
            ),
            lines(
                "tests/host/src/long/inputs.rs",
                "lists",
                rust_rows::record_bytes(&described),
            ),
            lines(GUIDE, "steps", self.argument.steps_list()),
            lines(GUIDE, "claims", self.argument.table()),
            lines(GUIDE, "rubric", self.argument.rubric()),
        ];
        let rows = self.argument.python().into_iter();
        all.extend(rows.map(|(name, text)| lines(CLAIMS, name, text)));
        all.extend(figures::figures(
            &self.project,
            calls.len(),
            self.edits.len(),
        ));
        all
    }
}

fn all_right(faults: Vec<String>) -> Verdict {
    (usize::from(faults.is_empty()), faults)
}

fn check(root: &Path) -> ExitCode {
    let sources = Sources::read(root);
    let in_crates = |path: &str| fs::read_to_string(root.join("crates").join(path)).ok();
    let calls = sources.call_names();
    let names = sources.functions.iter().map(|function| &function.name[..]);
    let engine: Vec<&str> = names
        .filter_map(|name| name.strip_prefix("engine::"))
        .collect();
    let verdicts: Vec<Verdict> = vec![
        all_right(sources.odd.clone()),
        layers::check(&sources.project.crates),
        functions::check(&sources.functions),
        edits::check(&calls, &sources.edits, &sources.graph),
        hosts::check(&sources.described(), &engine),
        generated::check(root, &sources.generated()),
        forms::check(&sources.project.file("docs/READING.md"), in_crates),
        claims::check_in(root, &sources.argument.rows),
        example::check(root),
        links::check(root),
        all_right(version::check(root)),
    ];
    let faults: Vec<&String> = verdicts.iter().flat_map(|(_, faults)| faults).collect();
    for fault in &faults {
        println!("{fault}");
    }
    let passed: usize = verdicts.iter().map(|(passed, _)| passed).sum();
    println!("{passed} passed, {} failed", faults.len());
    ExitCode::from(u8::from(!faults.is_empty()))
}

fn said(result: Result<String, String>) -> ExitCode {
    match result {
        Ok(text) => {
            println!("{text}");
            ExitCode::SUCCESS
        }
        Err(fault) => {
            eprintln!("contracts: {fault}");
            ExitCode::FAILURE
        }
    }
}

fn write(root: &Path) -> Result<String, String> {
    let sources = Sources::read(root);
    let mut changed = generated::write(root, &sources.generated())?;
    changed.extend(claims::write(root, &sources.argument.rows)?);
    Ok(match &changed[..] {
        [] => "nothing differs".to_string(),
        paths => format!("written: {}", paths.join(", ")),
    })
}

fn write_version(root: &Path) -> Result<String, String> {
    let version = version::write(root)?;
    Ok(format!(
        "{version} is written; `contracts write` comes next, and a release wants a heading in CHANGELOG.md"
    ))
}

fn main() -> ExitCode {
    let arguments: Vec<String> = std::env::args().skip(1).collect();
    let root = Path::new(env!("CARGO_MANIFEST_DIR")).join("../..");
    match arguments.iter().map(|word| &word[..]).collect::<Vec<_>>()[..] {
        [] => check(&root),
        ["write"] => said(write(&root)),
        ["version"] => said(write_version(&root)),
        _ => {
            eprintln!("usage: contracts [write | version]");
            ExitCode::from(2)
        }
    }
}
