//! Links the static library of the proved sheet calls.
use std::path::Path;

fn main() {
    let folder = Path::new(env!("CARGO_MANIFEST_DIR")).join("../../../target/staticlib");
    let library = folder.join("libmaldjupp.a");
    println!("cargo:rerun-if-changed={}", library.display());
    assert!(library.exists(), "{} is missing: run `tools/library maldjupp` first", library.display());
    println!("cargo:rustc-link-search=native={}", folder.display());
    println!("cargo:rustc-link-lib=static=maldjupp");
}
