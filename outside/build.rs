//! Links the static libraries.  Their folder is HUIABUNK_LIB, or where that is
//! unset or empty the one that `archives.sh` writes to.  Which archive of the
//! folder holds which function is read from the archives' own indexes: a crate
//! may have any name.  `make` and `size` must be there; where `check` is there,
//! `has_check` is set.
//!
//! The archive with `check` stands first: an archive's object is taken only for
//! a name that is still missing, so that there is no clash should it hold
//! `make` and `size` as well.

use std::env;
use std::fs;
use std::path::{Path, PathBuf};

const DEFAULT: &str = "../target/staticlib";
const MAGIC: &[u8] = b"!<arch>\n";
/// Bytes of an archive's magic, and of the header of one of its members.
const START: usize = 8;
const MEMBER: usize = 60;

fn main() {
    println!("cargo::rerun-if-changed=build.rs");
    println!("cargo::rerun-if-env-changed=HUIABUNK_LIB");
    println!("cargo::rustc-check-cfg=cfg(has_check)");
    if let Err(why) = link() {
        println!("cargo::error={why}");
    }
}

fn link() -> Result<(), String> {
    let folder = folder();
    println!("cargo::rerun-if-changed={}", folder.display());
    println!("cargo::rustc-link-search=native={}", folder.display());
    let archives = archives(&folder);
    if let Some(name) = holder(&archives, "check")? {
        println!("cargo::rustc-cfg=has_check");
        println!("cargo::rustc-link-lib=static={name}");
        if holds(&archives, name, "make") && holds(&archives, name, "size") {
            return Ok(());
        }
    }
    let name = holder(&archives, "make")?.ok_or_else(|| {
        format!("no archive with make in {} (archives.sh, or HUIABUNK_LIB)", folder.display())
    })?;
    println!("cargo::rustc-link-lib=static={name}");
    Ok(())
}

/// The folder of the archives.  A relative one is relative to this package.
fn folder() -> PathBuf {
    let given = env::var_os("HUIABUNK_LIB").filter(|folder| !folder.is_empty());
    let named = given.map_or_else(|| PathBuf::from(DEFAULT), PathBuf::from);
    named.canonicalize().unwrap_or(named)
}

/// The archives of a folder: a library's name, and the names that it shows.
fn archives(folder: &Path) -> Vec<(String, Vec<String>)> {
    let mut archives = Vec::new();
    for file in fs::read_dir(folder).into_iter().flatten().flatten() {
        let file = file.file_name().to_string_lossy().into_owned();
        let name = file.strip_prefix("lib").and_then(|name| name.strip_suffix(".a"));
        if let (Some(name), Ok(bytes)) = (name, fs::read(folder.join(&file))) {
            println!("cargo::rerun-if-changed={}", folder.join(&file).display());
            archives.push((name.to_string(), shown(&bytes).unwrap_or_default()));
        }
    }
    archives.sort();
    archives
}

/// The one archive that holds this function, if one does.
fn holder<'a>(
    archives: &'a [(String, Vec<String>)],
    function: &str,
) -> Result<Option<&'a str>, String> {
    let holders: Vec<&str> = archives
        .iter()
        .filter(|a| a.1.iter().any(|n| n == function))
        .map(|a| a.0.as_str())
        .collect();
    // The archive with `check` is taken by itself, and may hold `make` beside the other's.
    match holders.as_slice() {
        [] => Ok(None),
        [one] => Ok(Some(one)),
        [one, ..] if function != "check" => Ok(Some(one)),
        many => Err(format!("{function} is in several archives: {}", many.join(", "))),
    }
}

fn holds(archives: &[(String, Vec<String>)], name: &str, function: &str) -> bool {
    archives.iter().any(|a| a.0 == name && a.1.iter().any(|n| n == function))
}

/// The names in an archive's index, which is its first member, called `/`: a
/// count, as many offsets, all of four bytes, big end first, and the names,
/// each with a zero byte after it.
fn shown(archive: &[u8]) -> Option<Vec<String>> {
    let header = archive.strip_prefix(MAGIC)?.get(..MEMBER)?;
    if !header.starts_with(b"/ ") {
        return None;
    }
    let size: usize = std::str::from_utf8(&header[48..58]).ok()?.trim().parse().ok()?;
    let index = archive.get(START + MEMBER..START + MEMBER + size)?;
    let count = u32::from_be_bytes(index.get(..4)?.try_into().ok()?) as usize;
    let names = index.get(4 + 4 * count..)?.split(|&byte| byte == 0).take(count);
    Some(names.map(|name| String::from_utf8_lossy(name).into_owned()).collect())
}
