//! Compiles osmo-tetra's cipher and TAA1, where `tests/peer/fetch` got them.

use std::path::{Path, PathBuf};
use std::process::Command;

const SOURCES: [&str; 2] = ["hurdle", "taa1"];

fn main() {
    let folder = Path::new(env!("CARGO_MANIFEST_DIR")).join("../../target/peer/osmo-tetra");
    println!("cargo:rerun-if-changed={}", folder.display());
    println!("cargo:rustc-check-cfg=cfg(peer)");
    if !folder.exists() {
        return;
    }

    let out = PathBuf::from(std::env::var_os("OUT_DIR").unwrap());
    let mut archive = Command::new("ar");
    archive.arg("rcs").arg(out.join("libosmo_tetra.a"));
    for source in SOURCES {
        let object = out.join(source).with_extension("o");
        // No -march: the same x86-64 as the engine's archive is made for.
        // Not -fPIC, which would keep the C compiler from inlining.
        run(Command::new("cc")
            .args(["-O3", "-fPIE", "-c"])
            .arg(folder.join(source).with_extension("c"))
            .arg("-o")
            .arg(&object));
        archive.arg(object);
    }
    run(&mut archive);

    println!("cargo:rustc-link-search=native={}", out.display());
    println!("cargo:rustc-link-lib=static=osmo_tetra");
    println!("cargo:rustc-cfg=peer");
    println!("cargo:fetched=1");
}

fn run(command: &mut Command) {
    let status = command.status().expect("a C compiler and ar are needed");
    assert!(status.success(), "{command:?}: {status}");
}
