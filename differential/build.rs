//! Links the static libraries of the crates `step` and `run`; those with
//! `size`, `make` and `check` come with `outside`.  Their folder is
//! HUIABUNK_LIB, or where that is unset or empty the one that `archives.sh`
//! writes to.

use std::env;
use std::path::{Path, PathBuf};

const DEFAULT: &str = "../target/staticlib";
const LIBRARIES: [&str; 2] = ["step", "run"];

fn main() {
    println!("cargo::rerun-if-changed=build.rs");
    println!("cargo::rerun-if-env-changed=HUIABUNK_LIB");
    let given = env::var_os("HUIABUNK_LIB").filter(|folder| !folder.is_empty());
    let folder = given.map_or_else(|| PathBuf::from(DEFAULT), PathBuf::from);
    for library in LIBRARIES {
        if let Err(why) = link(&folder, library) {
            println!("cargo::error={why}");
        }
    }
}

fn link(folder: &Path, library: &str) -> Result<(), String> {
    let archive = folder.join(format!("lib{library}.a")).canonicalize().map_err(|e| {
        format!(
            "no lib{library}.a in {} (archives.sh {library}, or HUIABUNK_LIB): {e}",
            folder.display()
        )
    })?;
    println!("cargo::rerun-if-changed={}", archive.display());
    println!("cargo::rustc-link-search=native={}", archive.with_file_name("").display());
    println!("cargo::rustc-link-lib=static={library}");
    Ok(())
}
