//! The fractions of a shadow's falloff that stand on file in the crate `falloff`, held to those that the Rust's own line gives.
use std::{fs, path::Path};

/// The patterns of the table in a source file of Rattle.
fn on_file(source: &Path) -> Vec<u32> {
    let text = fs::read_to_string(source).unwrap();
    let (_, rest) = text.split_once("const FRACTIONS: [u32; 97] = [").expect("the table of fractions");
    let (entries, _) = rest.split_once("];").expect("the end of the table");
    let entries = entries.replace('_', "");
    let words = entries.split(',').map(str::trim).filter(|word| !word.is_empty());
    words.map(|word| u32::from_str_radix(word.trim_start_matches("0x"), 16).expect("a bit pattern")).collect()
}

/// Every entry has the bits of the Rust's fraction.
pub fn hold(source: &Path) {
    let patterns = on_file(source);
    assert_eq!(patterns.len(), 97, "entries in {}", source.display());
    for (i, pattern) in patterns.iter().enumerate() {
        assert_eq!(*pattern, kash::fraction(i).to_bits(), "fraction {i}");
    }
    println!("{}: {} fractions, each the Rust's bit for bit", source.display(), patterns.len());
}
