//! Links the static library that the repository's crate `capi` is built into.
use std::env;
use std::path::Path;
use std::process::exit;

fn main() {
    let root = env::var("CARGO_MANIFEST_DIR").expect("cargo tells where the package is");
    let folder = Path::new(&root).join("../target/staticlib");
    let archive = folder.join("libcapi.a");
    println!("cargo:rerun-if-changed={}", archive.display());
    if !archive.exists() {
        eprintln!(
            "target/staticlib/libcapi.a is missing: make it with `scripts/library.sh` at the root of the repository"
        );
        exit(1);
    }
    println!("cargo:rustc-link-search=native={}", folder.display());
    println!("cargo:rustc-link-lib=static=capi");
}
