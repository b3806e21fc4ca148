//! Finds the four sources, holds them to oracle/SHA256SUMS and names them as modules. They are never copied. What `shadow_rrect` keeps to
//! itself, the fractions of its falloff, is compiled from its own line.
use std::{env, fs, path::Path, process::Command};

const MODULES: [&str; 4] = ["color", "geom", "gfx", "mathf"];

/// What stands in a text from one mark up to the next.
fn cut<'a>(text: &'a str, from: &str, upto: &str) -> &'a str {
    let rest = &text[text.find(from).unwrap_or_else(|| panic!("no {from} in gfx.rs"))..];
    &rest[..rest.find(upto).unwrap_or_else(|| panic!("no {upto} after {from} in gfx.rs"))]
}

/// A function of the statements with which `shadow_rrect` works out fraction i of its falloff: their text is the Rust's own.
fn fraction(gfx: &str) -> String {
    let (levels, line) = (cut(gfx, "const N: usize", "let mut lut"), cut(gfx, "let t = i as f32", "lut[i]"));
    format!("pub fn fraction(i: usize) -> f32 {{ {levels} {line} a }}\n")
}

fn main() {
    let oracle = Path::new(env!("CARGO_MANIFEST_DIR")).join("../..").canonicalize().expect("the folder oracle");
    let folder = match env::var_os("KASH_SRC") {
        Some(given) => given.into(),
        None => oracle.join("../../shared/docs/src"),
    };
    println!("cargo:rerun-if-env-changed=KASH_SRC");
    let folder = folder.canonicalize().unwrap_or_else(|_| panic!("no Rust sources in {}: set KASH_SRC to their folder", folder.display()));
    let sums = oracle.join("SHA256SUMS");
    println!("cargo:rerun-if-changed={}", sums.display());
    let checked = Command::new("sha256sum").args(["--check", "--strict", "--quiet"]).arg(&sums).current_dir(&folder).status().expect("sha256sum");
    assert!(checked.success(), "the Rust sources in {} are not those of oracle/SHA256SUMS", folder.display());
    let source = |module: &str| folder.join(format!("src--kash-ui--crates--kash-ui--src--{module}.rs.txt"));
    let mut text = fraction(&fs::read_to_string(source("gfx")).unwrap());
    for module in MODULES {
        let file = source(module);
        println!("cargo:rerun-if-changed={}", file.display());
        text += &format!("#[path = {:?}]\npub mod {module};\n", file.display().to_string());
    }
    fs::write(Path::new(&env::var("OUT_DIR").unwrap()).join("sources.rs"), text).unwrap();
}
