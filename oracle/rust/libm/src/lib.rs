//! Stands in for the crate `libm`, which is none of the listed sources, with document 01's meaning: `sqrtf` is the nearest f32 to the
//! exact root, `floorf` and `ceilf` are exact. The others are outside the scope, and are here so that the sources compile.
#[inline] pub fn sqrtf(x: f32) -> f32 { x.sqrt() }
#[inline] pub fn floorf(x: f32) -> f32 { x.floor() }
#[inline] pub fn ceilf(x: f32) -> f32 { x.ceil() }
#[inline] pub fn roundf(x: f32) -> f32 { x.round() }
#[inline] pub fn powf(x: f32, y: f32) -> f32 { x.powf(y) }
#[inline] pub fn expf(x: f32) -> f32 { x.exp() }
#[inline] pub fn sinf(x: f32) -> f32 { x.sin() }
#[inline] pub fn cosf(x: f32) -> f32 { x.cos() }
#[inline] pub fn tanf(x: f32) -> f32 { x.tan() }
#[inline] pub fn atanf(x: f32) -> f32 { x.atan() }
#[inline] pub fn asinf(x: f32) -> f32 { x.asin() }
#[inline] pub fn atan2f(y: f32, x: f32) -> f32 { y.atan2(x) }
