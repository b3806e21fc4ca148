//! The Rust that the proved functions are timed beside: the same loops, in a crate of their own and never inlined, so that the
//! compiler cannot fit them to the arguments that the timing passes.
use kash::{color, mathf};

#[inline(never)]
pub fn blend(px: &mut [u32], [r, g, b, a]: [u8; 4]) {
    for p in px.iter_mut() {
        *p = color::blend(*p, r as u32, g as u32, b as u32, a as u32);
    }
}

#[inline(never)]
pub fn sqrt(xs: &mut [f32]) {
    for x in xs.iter_mut() {
        *x = mathf::sqrt(*x);
    }
}

#[inline(never)]
pub fn floor(xs: &mut [f32]) {
    for x in xs.iter_mut() {
        *x = mathf::floor(*x);
    }
}

#[inline(never)]
pub fn ceil(xs: &mut [f32]) {
    for x in xs.iter_mut() {
        *x = mathf::ceil(*x);
    }
}

macro_rules! converted {
    ($name:ident, $to:ty) => {
        #[inline(never)]
        pub fn $name(xs: &[f32], out: &mut [$to]) {
            for (x, o) in xs.iter().zip(out) {
                *o = *x as $to;
            }
        }
    };
}

converted!(to_u8, u8);
converted!(to_u32, u32);
converted!(to_usize, usize);
converted!(to_i32, i32);
