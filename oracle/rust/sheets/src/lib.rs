//! The sheet and its patch as document 01 gives them, read in plain Rust apart from the proved crates and painted on the unchanged Rust
//! canvas; and the sheets, damaged ones included, and patches that the proved library is held to.
pub mod boxes;
pub mod ceiling;
pub mod chains;
pub mod change;
pub mod columns;
pub mod damage;
pub mod fixed;
pub mod fixed_ceilings;
pub mod fixed_chains;
pub mod fixed_clips;
pub mod fixed_counts;
pub mod fixed_frames;
pub mod fixed_rooms;
pub mod item;
pub mod make;
pub mod model;
pub mod orders;
pub mod sheet;
pub mod text;

pub use ceiling::Ceiling;
pub use chains::Chains;
pub use item::Item;
pub use make::Made;
pub use model::{called, measure, paint, patch, After, Answer, Expected, Room};
pub use sheet::{Counted, Fault, Sheet};

/// Document 01: the ends of a sheet's length, its most items, sides, saved clips and points.
pub const SHORTEST: usize = 12;
pub const LONGEST: usize = 60_000;
pub const MOST_ITEMS: usize = 1_024;
pub const MOST_SIDE: usize = 2_048;
pub const MOST_SAVED: usize = 16;
pub const MOST_POINTS: usize = 64;
/// Change request 2026-01: the most shapes in which the sheets of a patch may differ.
pub const MOST_CHANGES: usize = 32;

/// The two bytes from a place on, the lowest first.
pub fn half(bytes: &[u8], at: usize) -> usize {
    u16::from_le_bytes([bytes[at], bytes[at + 1]]) as usize
}

/// The float whose bits stand at a place.
pub fn float(bytes: &[u8], at: usize) -> f32 {
    f32::from_le_bytes([bytes[at], bytes[at + 1], bytes[at + 2], bytes[at + 3]])
}
