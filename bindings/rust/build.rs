//! Links libmaldjupp.a: from the folder that MALDJUPP_LIB_DIR names, else from where `tools/library maldjupp` writes it.
use std::{env, path::PathBuf, process::exit};

const NAMED: &str = "MALDJUPP_LIB_DIR";

fn main() {
    let usual = PathBuf::from(env!("CARGO_MANIFEST_DIR")).join("../../target/staticlib");
    let folder = env::var_os(NAMED).map_or(usual, PathBuf::from);
    let library = folder.join("libmaldjupp.a");
    println!("cargo:rerun-if-env-changed={NAMED}");
    println!("cargo:rerun-if-changed={}", library.display());
    if !library.is_file() {
        eprintln!("There is no {}.", library.display());
        eprintln!("Run `tools/library maldjupp` at the top of the repository, or set {NAMED} to the folder that holds libmaldjupp.a.");
        exit(1);
    }
    println!("cargo:rustc-link-search=native={}", folder.display());
    println!("cargo:rustc-link-lib=static=maldjupp");
}
