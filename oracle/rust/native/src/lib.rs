//! The functions that the crate `leaves_c` exports. A slice passes as a pointer and a length.

/// What drawing a shape returns: its number, or 99 where the state is not left as it was, and the steps that altered a pixel's value.
#[repr(C)]
#[derive(Clone, Copy, Debug, PartialEq)]
pub struct Drawn {
    pub number: u32,
    pub steps: u64,
}

mod raw {
    use super::Drawn;
    extern "C" {
        pub fn leaves_sqrt(xs: *mut f32, n: usize);
        pub fn leaves_floor(xs: *mut f32, n: usize);
        pub fn leaves_ceil(xs: *mut f32, n: usize);
        pub fn leaves_to_u8(xs: *const f32, n: usize, out: *mut u8, m: usize);
        pub fn leaves_to_u32(xs: *const f32, n: usize, out: *mut u32, m: usize);
        pub fn leaves_to_usize(xs: *const f32, n: usize, out: *mut usize, m: usize);
        pub fn leaves_to_i32(xs: *const f32, n: usize, out: *mut i32, m: usize);
        pub fn leaves_blend(px: *mut u32, n: usize, r: u8, g: u8, b: u8, a: u8);
        pub fn leaves_shape(bytes: *const u8, n: usize, px: *mut u32, m: usize, scratch: *mut f32, k: usize) -> Drawn;
        pub fn leaves_differing(bytes: *const u8, n: usize, area: u32) -> u32;
    }
}

macro_rules! in_place {
    ($name:ident, $raw:ident) => {
        pub fn $name(xs: &mut [f32]) {
            unsafe { raw::$raw(xs.as_mut_ptr(), xs.len()) }
        }
    };
}

macro_rules! converted {
    ($name:ident, $raw:ident, $to:ty) => {
        pub fn $name(xs: &[f32], out: &mut [$to]) {
            unsafe { raw::$raw(xs.as_ptr(), xs.len(), out.as_mut_ptr(), out.len()) }
        }
    };
}

in_place!(sqrt, leaves_sqrt);
in_place!(floor, leaves_floor);
in_place!(ceil, leaves_ceil);
converted!(to_u8, leaves_to_u8, u8);
converted!(to_u32, leaves_to_u32, u32);
converted!(to_usize, leaves_to_usize, usize);
converted!(to_i32, leaves_to_i32, i32);

pub fn blend(px: &mut [u32], [r, g, b, a]: [u8; 4]) {
    unsafe { raw::leaves_blend(px.as_mut_ptr(), px.len(), r, g, b, a) }
}

/// How many cases, in the form in which they are stored, have another answer than the proved functions give.
pub fn differing(area: u32, width: usize, words: &[u32]) -> u32 {
    let n = (words.len() / width) as u32;
    let bytes: Vec<u8> = [n].iter().chain(words).flat_map(|w| w.to_le_bytes()).collect();
    unsafe { raw::leaves_differing(bytes.as_ptr(), bytes.len(), area) }
}

/// The bytes of a shape's words.
pub fn bytes(words: &[u32]) -> Vec<u8> {
    words.iter().flat_map(|w| w.to_le_bytes()).collect()
}

/// Draws a shape.
pub fn shape(bytes: &[u8], px: &mut [u32], scratch: &mut [f32]) -> Drawn {
    unsafe { raw::leaves_shape(bytes.as_ptr(), bytes.len(), px.as_mut_ptr(), px.len(), scratch.as_mut_ptr(), scratch.len()) }
}
