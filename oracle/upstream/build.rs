//! Writes the root module of the Rust sources, their kernel bridge with its kernel part replaced, and their search with a
//! part behind it that hands on its lines.
//!
//! The sources stay in their folder: four files are compiled from there as they are.

use std::{
    env, fs,
    path::{Path, PathBuf},
};

const VARIABLE: &str = "PUVAINY_RUST_SOURCES";
const DEFAULT: &str = "../shared/docs/src";

const UNCHANGED: [&str; 4] = ["term", "candidate", "normal_form", "search"];

/// The kernel part begins at the first mark and ends at the second; the check begins at the third.
const KERNEL: &str = "pub use hott_kernel as kernel;";
const RENDERING: &str = "/// Renders a finder term as a Surface term";
const CHECK: &str = "fn is_exact_surface_identifier(";

const STAND_IN: &str = include_str!("stand_in.rs");
const LINES: &str = include_str!("lines.rs");

fn main() {
    println!("cargo::rerun-if-env-changed={VARIABLE}");
    println!("cargo::rerun-if-changed=build.rs");
    println!("cargo::rerun-if-changed=stand_in.rs");
    println!("cargo::rerun-if-changed=lines.rs");
    if let Err(why) = build() {
        println!("cargo::error={why}");
    }
}

/// Writes the three files, or says in one line why it cannot.
fn build() -> Result<(), String> {
    let sources = sources()?;
    let out = PathBuf::from(env::var("OUT_DIR").expect("cargo sets OUT_DIR"));

    let bridge = out.join("kernel_bridge.rs");
    write(&bridge, &without_kernel(&read(&sources, "kernel_bridge")?)?)?;
    let bounded_search = out.join("bounded_search.rs");
    write(&bounded_search, &(read(&sources, "bounded_search")? + LINES))?;

    let mut root = String::new();
    for name in UNCHANGED {
        read(&sources, name)?;
        root += &module(name, &sources.join(format!("{name}.rs")));
    }
    root += "#[allow(unused_imports)]\n";
    root += &module("kernel_bridge", &bridge);
    root += &module("bounded_search", &bounded_search);
    write(&out.join("upstream.rs"), &root)
}

/// The folder of the six files. A relative name is taken from the repository's root.
fn sources() -> Result<PathBuf, String> {
    let named = env::var(VARIABLE).unwrap_or_else(|_| DEFAULT.to_owned());
    let package = PathBuf::from(env::var("CARGO_MANIFEST_DIR").expect("cargo sets it"));
    let repository = package.join("../..").canonicalize().expect("it exists");
    let folder = repository.join(&named).join("theorem-finder/src");
    folder.canonicalize().map_err(|error| {
        format!(
            "no Rust sources at {} ({error}): set {VARIABLE} to the folder that holds theorem-finder/src",
            folder.display()
        )
    })
}

fn read(sources: &Path, name: &str) -> Result<String, String> {
    let file = sources.join(format!("{name}.rs"));
    println!("cargo::rerun-if-changed={}", file.display());
    fs::read_to_string(&file).map_err(|error| {
        format!(
            "cannot read {} ({error}): set {VARIABLE} to the folder that holds theorem-finder/src",
            file.display()
        )
    })
}

fn write(file: &Path, text: &str) -> Result<(), String> {
    fs::write(file, text).map_err(|error| format!("cannot write {}: {error}", file.display()))
}

fn module(name: &str, file: &Path) -> String {
    format!("#[path = {file:?}]\nmod {name};\npub use {name}::*;\n")
}

/// The bridge's text before the kernel part, its rendering part, and the stand-in.
fn without_kernel(bridge: &str) -> Result<String, String> {
    let kernel = place(bridge, KERNEL)?;
    let rendering = place(bridge, RENDERING)?;
    let check = place(bridge, CHECK)?;
    if kernel > rendering || rendering > check {
        return Err("kernel_bridge.rs has its parts in another order than expected".to_owned());
    }
    let (before, rendered) = (&bridge[..kernel], &bridge[rendering..check]);
    Ok(format!("{before}{rendered}{STAND_IN}"))
}

/// Where the mark stands, which must be once.
fn place(text: &str, mark: &str) -> Result<usize, String> {
    let found: Vec<usize> = text.match_indices(mark).map(|(at, _)| at).collect();
    match found[..] {
        [at] => Ok(at),
        _ => Err(format!(
            "kernel_bridge.rs holds the mark {mark:?} {} times, not once",
            found.len()
        )),
    }
}
