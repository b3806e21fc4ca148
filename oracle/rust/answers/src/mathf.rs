//! mathf.rs, and Rust's `as` from f32 and its `min` and `max`, which the sources use beside it.
use crate::{max, min, pattern};
use kash::mathf;

pub const NAMES: [&str; 14] =
    ["sqrt", "floor", "ceil", "to_u8", "to_u32", "to_usize", "to_i32", "min", "max", "fabs", "clamp", "saturate", "lerp", "smoothstep"];

/// How many floats each takes, by its place in the list.
pub const INPUTS: [usize; 14] = [1, 1, 1, 1, 1, 1, 1, 2, 2, 1, 3, 1, 3, 3];

pub fn answer(f: u32, a: f32, b: f32, c: f32) -> u64 {
    let float = |x: f32| pattern(x) as u64;
    match f {
        1 => float(mathf::sqrt(a)),
        2 => float(mathf::floor(a)),
        3 => float(mathf::ceil(a)),
        4 => (a as u8) as u64,
        5 => (a as u32) as u64,
        6 => (a as usize) as u64,
        7 => (a as i32) as u32 as u64,
        8 => float(min(a, b)),
        9 => float(max(a, b)),
        10 => float(mathf::fabs(a)),
        11 => float(mathf::clamp(a, b, c)),
        12 => float(mathf::saturate(a)),
        13 => float(mathf::lerp(a, b, c)),
        14 => float(mathf::smoothstep(a, b, c)),
        _ => panic!("mathf has no function {f}"),
    }
}
