//! Finds the archive of the proved library and has it linked in.

use std::env;
use std::path::{Path, PathBuf};
use std::process::ExitCode;

/// Where to look for the archive instead of the place where `tools/archive` writes it.
const FOLDER_VARIABLE: &str = "CRESTULBINO_LIB_DIR";

fn main() -> ExitCode {
    println!("cargo:rerun-if-env-changed={FOLDER_VARIABLE}");
    let folder = folder();
    let archive = folder.join("libcapi.a");
    println!("cargo:rerun-if-changed={}", archive.display());
    if !archive.is_file() {
        eprintln!("There is no proved library at {}.", archive.display());
        eprintln!("Prove and build it with `tools/archive` in the repository's folder,");
        eprintln!("or name the folder of libcapi.a in {FOLDER_VARIABLE}, as an absolute path.");
        return ExitCode::FAILURE;
    }
    println!("cargo:rustc-link-search=native={}", folder.display());
    println!("cargo:rustc-link-lib=static=capi");
    ExitCode::SUCCESS
}

fn folder() -> PathBuf {
    env::var_os(FOLDER_VARIABLE).map_or_else(
        || Path::new(env!("CARGO_MANIFEST_DIR")).join("../../target/staticlib"),
        PathBuf::from,
    )
}
