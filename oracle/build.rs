//! Names the eight unchanged files of r9's port/src as modules, by path.  The
//! folder is R9_SRC, or where that is unset or empty the one in the `shared`
//! folder beside the repository.
//!
//! The timer queue is private to timer.rs and the next pid to proc.rs, and only
//! a module inside can read them.  So of these two a copy in the build's folder
//! is compiled, with one line behind it that names src/timer_queue.rs, or
//! src/proc_pids.rs, as its module `queue` or `pids`.

use std::path::{Path, PathBuf};
use std::{env, fs};

const MODULES: [&str; 8] = ["chan", "clock", "dat", "error", "irq", "proc", "segment", "timer"];
const DEFAULT: &str = "../../shared/docs/src/port/src";
/// The modules that are read from inside: the reader's name there, and its file.
const READ: [(&str, &str, &str); 2] =
    [("proc", "pids", "src/proc_pids.rs"), ("timer", "queue", "src/timer_queue.rs")];

fn main() {
    println!("cargo::rerun-if-env-changed=R9_SRC");
    println!("cargo::rerun-if-changed=build.rs");
    if let Err(why) = name_modules() {
        println!("cargo::error={why}");
    }
}

fn name_modules() -> Result<(), String> {
    let folder = folder()?;
    let out = PathBuf::from(env::var_os("OUT_DIR").ok_or("OUT_DIR is not set")?);
    let mut text = String::new();
    for module in MODULES {
        let file = file(&folder, module)?;
        let compiled = match READ.iter().find(|read| read.0 == module) {
            Some(&(_, reader, path)) => with_reader(&file, reader, path, &out)?,
            None => file,
        };
        text += &declaration(&compiled, module);
    }
    write(&out.join("port.rs"), text.as_bytes())
}

fn write(file: &Path, bytes: &[u8]) -> Result<(), String> {
    fs::write(file, bytes).map_err(|e| format!("{}: {e}", file.display()))
}

/// The folder of the eight files.  A relative one is relative to this package.
fn folder() -> Result<PathBuf, String> {
    let given = env::var_os("R9_SRC").filter(|folder| !folder.is_empty());
    let named = given.map_or_else(|| PathBuf::from(DEFAULT), PathBuf::from);
    named
        .canonicalize()
        .map_err(|e| format!("no folder {} with r9's port/src (set R9_SRC): {e}", named.display()))
}

fn file(folder: &Path, module: &str) -> Result<PathBuf, String> {
    let file = folder.join(module).with_extension("rs");
    if !file.is_file() {
        return Err(format!("no file {} (set R9_SRC)", file.display()));
    }
    println!("cargo::rerun-if-changed={}", file.display());
    Ok(file)
}

/// A copy of the file with its reader named behind it.
fn with_reader(file: &Path, reader: &str, path: &str, out: &Path) -> Result<PathBuf, String> {
    let package = env::var_os("CARGO_MANIFEST_DIR").ok_or("CARGO_MANIFEST_DIR is not set")?;
    let mut text = fs::read(file).map_err(|e| format!("{}: {e}", file.display()))?;
    let path = Path::new(&package).join(path);
    text.extend(format!("#[path = {path:?}] pub mod {reader};\n").bytes());
    let copy = out.join(file.file_name().ok_or("a file without a name")?);
    write(&copy, &text)?;
    Ok(copy)
}

fn declaration(file: &Path, module: &str) -> String {
    let lints = "dead_code, unused_imports, clippy::all";
    format!("#[allow({lints})]\n#[path = {file:?}]\npub mod {module};\n")
}
