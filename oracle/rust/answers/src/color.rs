//! color.rs. A colour is the bytes red, green, blue, alpha of a word, the lowest first.
use crate::pattern;
use kash::color::{self, Color};

pub const NAMES: [&str; 14] =
    ["blend", "blend_c", "mix", "fade", "alpha", "lighten", "darken", "hex", "from_pix", "hsv", "pix", "luma", "mix_pix", "BLACK"];

/// The constant, which takes no inputs; those before it are functions.
pub const BLACK: u32 = 14;

fn color_of(w: u32) -> Color {
    let [r, g, b, a] = w.to_le_bytes();
    Color::rgba(r, g, b, a)
}

fn word(c: Color) -> u64 {
    u32::from_le_bytes([c.r, c.g, c.b, c.a]) as u64
}

/// What the high word has beside a refusal's number where the pixel's value differs from the old one.
pub const ALTERED: u64 = 256;

fn altered(dst: u32, pixel: u32) -> u64 {
    let high = if pixel == dst { 0 } else { ALTERED };
    pixel as u64 | high << 32
}

/// The pixel and whether it differs, or 11 in the high word where document 01 refuses an ink over 255, which the Rust does not.
fn blend(dst: u32, r: u32, g: u32, b: u32, a: u32) -> u64 {
    if r > 255 || g > 255 || b > 255 { 11 << 32 } else { altered(dst, color::blend(dst, r, g, b, a)) }
}

pub fn answer(f: u32, [a, b, c, d, e]: [u32; 5]) -> u64 {
    let float = f32::from_bits;
    match f {
        1 => blend(a, b, c, d, e),
        2 => altered(a, color::blend_c(a, color_of(b), c)),
        3 => word(color_of(a).mix(color_of(b), float(c))),
        4 => word(color_of(a).fade(float(b))),
        5 => word(color_of(a).alpha(float(b))),
        6 => word(color_of(a).lighten(float(b))),
        7 => word(color_of(a).darken(float(b))),
        8 => word(Color::hex(a)),
        9 => word(Color::from_pix(a)),
        10 => word(color::hsv(float(a), float(b), float(c))),
        11 => color_of(a).pix() as u64,
        12 => pattern(color_of(a).luma()) as u64,
        13 => color::mix_pix(a, b, c) as u64,
        BLACK => word(Color::BLACK),
        _ => panic!("color has no function {f}"),
    }
}
