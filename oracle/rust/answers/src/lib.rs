//! What the unchanged Rust answers, function by function, in the form in which answers are stored and compared: words of 32 bits.
//! A function's number is its place in its module's list of names, counted from 1.
pub mod branches;
pub mod canvas;
pub mod color;
pub mod frame;
pub mod geom;
pub mod lent;
pub mod mathf;
pub mod paint;
pub mod panel;
pub mod panel_random;
pub mod random;
pub mod shape;
pub mod state;
pub mod steps;

/// A float as it is stored: its bits, every NaN as one pattern, since only the bits of a NaN are free.
pub fn pattern(x: f32) -> u32 {
    if x.is_nan() { 0x7fc0_0000 } else { x.to_bits() }
}

/// Document 01's `min`: of two zeros the first, where Rust's may give the second.
pub fn min(a: f32, b: f32) -> f32 {
    if a == 0.0 && b == 0.0 { a } else { a.min(b) }
}

/// Document 01's `max`, likewise.
pub fn max(a: f32, b: f32) -> f32 {
    if a == 0.0 && b == 0.0 { a } else { a.max(b) }
}
