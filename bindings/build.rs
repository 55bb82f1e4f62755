//! Links the proved functions: `libropelog.a`, which `.ci/build` writes.

use std::env;
use std::path::{Path, PathBuf};
use std::process;

/// Names the folder of the archive, if it is not the one where `rt` writes it.
const VARIABLE: &str = "ROPELOG_ARCHIVE_DIR";

fn main() {
    println!("cargo:rerun-if-env-changed={VARIABLE}");
    let folder = folder();
    let archive = folder.join("libropelog.a");
    println!("cargo:rerun-if-changed={}", archive.display());
    if !archive.is_file() {
        eprintln!(
            "{} is missing: run `.ci/build`, or set {VARIABLE} to the folder that holds it",
            archive.display()
        );
        process::exit(1);
    }
    println!("cargo:rustc-link-search=native={}", folder.display());
    println!("cargo:rustc-link-lib=static=ropelog");
}

/// A path that is not absolute begins at the package's folder.
fn folder() -> PathBuf {
    let named = env::var_os(VARIABLE).filter(|folder| !folder.is_empty());
    let folder = named.unwrap_or_else(|| "../target/staticlib".into());
    Path::new(env!("CARGO_MANIFEST_DIR")).join(folder)
}
