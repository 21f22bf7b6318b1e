//! Links the static library of the proved store.

use std::env;
use std::path::PathBuf;

/// The folder that has the library, if it is not that of `rt lib`.
const FOLDER: &str = "GAFFDAMSON_LIBRARY";

fn main() {
    let folder = env::var_os(FOLDER).map_or_else(default_folder, PathBuf::from);
    let library = folder.join("libgaffdamson.a");
    println!("cargo::rerun-if-changed=build.rs");
    println!("cargo::rerun-if-changed={}", library.display());
    println!("cargo::rerun-if-env-changed={FOLDER}");
    if library.is_file() {
        println!("cargo::rustc-link-search=native={}", folder.display());
        println!("cargo::rustc-link-lib=static=gaffdamson");
    } else {
        println!(
            "cargo::error=there is no {}: make it with `rt lib` in crates/gaffdamson, or name its folder in {FOLDER}",
            library.display()
        );
    }
}

fn default_folder() -> PathBuf {
    PathBuf::from(env!("CARGO_MANIFEST_DIR")).join("../../crates/gaffdamson/out")
}
