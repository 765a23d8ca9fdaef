// SPDX-License-Identifier: MIT
//! Links the engine's archive: libengine.a, or libtaa1.a as ./install names it. Its folder
//! is that which TAA1_ARCHIVE_DIR names; else it is the repository's, where ./build proves
//! and compiles the engine if the archive was not made from the sources as they are.

use std::env;
use std::path::{Path, PathBuf};
use std::process::{Command, Stdio};

const FOLDER: &str = "TAA1_ARCHIVE_DIR";
const HOW: &str = "`./build`, in the repository of the engine, makes it in target/staticlib";

fn main() {
    println!("cargo:rerun-if-env-changed={FOLDER}");
    let (archives, name) = match env::var_os(FOLDER) {
        Some(folder) => named(folder.into()),
        None => (made(), "engine"),
    };
    println!("cargo:rustc-link-search=native={}", archives.display());
    println!("cargo:rustc-link-lib=static={name}");
}

/// The folder that the environment names, and the archive's name there. A relative one is
/// the caller's, where Cargo was started: this script runs in the crate's own folder.
fn named(mut folder: PathBuf) -> (PathBuf, &'static str) {
    if folder.is_relative() {
        println!("cargo:rerun-if-env-changed=PWD");
        let caller = env::var_os("PWD").map(PathBuf::from);
        let caller = caller.filter(|caller| caller.is_absolute());
        let absolute =
            format!("{FOLDER} is relative, and PWD does not say to what; make it absolute");
        folder = caller.expect(&absolute).join(folder);
    }
    let archive = |name: &str| folder.join(format!("lib{name}.a"));
    let found = ["engine", "taa1"]
        .into_iter()
        .find(|name| archive(name).exists());
    let shown = folder.display();
    let name = found.unwrap_or_else(|| {
        panic!("no libengine.a in {shown}, which {FOLDER} names, nor libtaa1.a; {HOW}")
    });
    println!("cargo:rerun-if-changed={}", archive(name).display());
    (folder, name)
}

/// The repository's folder, with an archive of the engine as it is now.
fn made() -> PathBuf {
    let root = Path::new(env!("CARGO_MANIFEST_DIR")).join("..");
    let here = root.join("crates/engine").is_dir();
    assert!(here, "set {FOLDER} to the folder with libengine.a; {HOW}");
    // Cargo would go by the files' times: it runs this script each time, since this file is
    // never there.
    let never = PathBuf::from(env::var_os("OUT_DIR").unwrap()).join("never");
    println!("cargo:rerun-if-changed={}", never.display());
    let built = Command::new(root.join("build"))
        .arg("archive")
        .stdout(Stdio::null()) // which is for Cargo
        .status();
    let status = built.expect("./build, which makes the archive, has to run");
    assert!(status.success(), "./build failed, and has said why");
    root.join("target/staticlib")
}
