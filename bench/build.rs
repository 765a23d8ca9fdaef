//! Links the engine's single steps, and says which contenders there are.

use std::path::Path;

fn main() {
    println!("cargo:rustc-check-cfg=cfg(steps, peer)");

    // The engine's calls lay out keys and run a block in one. bench/run makes
    // this archive, which has the steps on their own.
    let archives = Path::new(env!("CARGO_MANIFEST_DIR")).join("../target/staticlib");
    let steps = archives.join("libhurdle_bench.a");
    println!("cargo:rerun-if-changed={}", steps.display());
    if steps.exists() {
        println!("cargo:rustc-link-search=native={}", archives.display());
        println!("cargo:rustc-link-lib=static=hurdle_bench");
        println!("cargo:rustc-cfg=steps");
    }

    if std::env::var_os("DEP_OSMO_TETRA_FETCHED").is_some() {
        println!("cargo:rustc-cfg=peer");
    }
}
