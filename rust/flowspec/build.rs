//! Finds the proved static library and hands it to the linker.

use std::path::{Path, PathBuf};
use std::{env, process};

/// The folder of the archive: what FLOWSPEC_LIBRARY names, or `target/staticlib` at the
/// repository's root.
fn library_folder() -> PathBuf {
    if let Some(folder) = env::var_os("FLOWSPEC_LIBRARY") {
        return PathBuf::from(folder);
    }
    let package = env::var_os("CARGO_MANIFEST_DIR").expect("cargo names the package's folder");
    Path::new(&package).join("../../target/staticlib")
}

fn main() {
    println!("cargo:rerun-if-env-changed=FLOWSPEC_LIBRARY");
    let folder = library_folder();
    let archive = folder.join("libc_api.a");
    println!("cargo:rerun-if-changed={}", archive.display());
    if !archive.is_file() {
        eprintln!("The proved library is missing: {}", archive.display());
        eprintln!("Run tools/staticlib at the repository's root, which proves and builds it,");
        eprintln!("or name the folder that has libc_api.a in FLOWSPEC_LIBRARY.");
        process::exit(1);
    }
    println!("cargo:rustc-link-search=native={}", folder.display());
    println!("cargo:rustc-link-lib=static=c_api");
}
