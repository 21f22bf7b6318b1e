//! The inputs of the program crates: scripts whose output `rt ci` compares.
//! Those here are long, or hold bytes that a text doesn't show.

mod blocks;
mod full;
pub mod long;
mod manual;
mod nothing;
mod refusals;
mod unreadable;

use std::fs;
use std::io;
use std::path::{Path, PathBuf};

/// The inputs that are written here, by the names of their crates, from the
/// repository at `top`.
pub fn all(top: &Path) -> io::Result<Vec<(&'static str, Vec<u8>)>> {
    let manual = manual::joined(&top.join("reference/manual"))?;
    Ok(vec![
        ("slips_manual", manual.script),
        ("slips_refusals", refusals::script()),
        ("slips_unreadable", unreadable::script()),
        ("slips_nothing", nothing::script()),
        ("slips_exact", long::exact()),
        ("slips_over", long::over()),
        ("slips_full", full::script()),
        ("slips_blocks", blocks::script()),
    ])
}

/// The folder of a program crate.
pub fn folder(top: &Path, name: &str) -> PathBuf {
    top.join("crates").join(name)
}

/// The folders of program crates that have an input.
pub fn folders(top: &Path) -> io::Result<Vec<PathBuf>> {
    let mut folders = Vec::new();
    for entry in fs::read_dir(top.join("crates"))? {
        folders.push(entry?.path());
    }
    folders.retain(|folder| is_program(folder) && folder.join("stdin").exists());
    folders.sort();
    Ok(folders)
}

fn is_program(folder: &Path) -> bool {
    let name = folder.file_name().map(|name| name.to_string_lossy());
    name.is_some_and(|name| name == "slips" || name.starts_with("slips_"))
}
