//! Links the static library, which `.ci/archive` writes.

use std::path::PathBuf;

fn main() {
    let package = PathBuf::from(std::env::var("CARGO_MANIFEST_DIR").expect("cargo sets it"));
    let repository = package.join("..").canonicalize().expect("it exists");
    let folder = repository.join("target/staticlib");
    let library = folder.join("libpuvainy.a");
    println!("cargo::rerun-if-changed={}", library.display());
    if !library.exists() {
        let library = library.display();
        println!("cargo::error=no {library}: run `.ci/archive` first");
        return;
    }
    println!("cargo::rustc-link-search=native={}", folder.display());
    println!("cargo::rustc-link-lib=static=puvainy");
}
