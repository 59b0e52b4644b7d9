//! Tells the linker where the archive of the calls is: target/staticlib at the project's root, or the folder that the
//! environment variable `DOSSIER_C_DIR` names, from the project's root on if it is relative.

use std::env;
use std::path::{Path, PathBuf};
use std::process::ExitCode;

/// The variable that may name another folder.
const VARIABLE: &str = "DOSSIER_C_DIR";

/// The folder that holds the archive.
fn archive_folder() -> PathBuf {
    let root = Path::new(env!("CARGO_MANIFEST_DIR")).join("../..");
    root.join(env::var_os(VARIABLE).unwrap_or_else(|| "target/staticlib".into()))
}

fn main() -> ExitCode {
    println!("cargo:rerun-if-changed=build.rs");
    println!("cargo:rerun-if-env-changed={VARIABLE}");
    let folder = archive_folder();
    let archive = folder.join("libdossier_c.a");
    println!("cargo:rerun-if-changed={}", archive.display());
    if !archive.is_file() {
        eprintln!("{} is missing: run `tools/build --archive dossier_c` at the project's root,", archive.display());
        eprintln!("or set {VARIABLE} to the folder that holds libdossier_c.a.");
        return ExitCode::FAILURE;
    }
    println!("cargo:rustc-link-search=native={}", folder.display());
    println!("cargo:rustc-link-lib=static=dossier_c");
    ExitCode::SUCCESS
}
