//! Links the static library of the crate `message`.  Its folder is
//! HUIABUNK_LIB, or where that is unset or empty the one that `archives.sh`
//! writes to.

use std::env;
use std::path::PathBuf;

const DEFAULT: &str = "../target/staticlib";
const ARCHIVE: &str = "libmessage.a";

fn main() {
    println!("cargo::rerun-if-changed=build.rs");
    println!("cargo::rerun-if-env-changed=HUIABUNK_LIB");
    if let Err(why) = link() {
        println!("cargo::error={why}");
    }
}

fn link() -> Result<(), String> {
    let given = env::var_os("HUIABUNK_LIB").filter(|folder| !folder.is_empty());
    let named = given.map_or_else(|| PathBuf::from(DEFAULT), PathBuf::from);
    let archive = named.join(ARCHIVE).canonicalize().map_err(|e| {
        format!("no {ARCHIVE} in {} (archives.sh message, or HUIABUNK_LIB): {e}", named.display())
    })?;
    println!("cargo::rerun-if-changed={}", archive.display());
    println!("cargo::rustc-link-search=native={}", archive.with_file_name("").display());
    println!("cargo::rustc-link-lib=static=message");
    Ok(())
}
