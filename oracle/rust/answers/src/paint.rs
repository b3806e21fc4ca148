//! What gfx.rs has beside the canvas: coverage, distance, and the colour of a paint. `cov8` is private there, so its line stands here.
//! A paint's `max` is with 0.001: no two zeros meet in it.
use crate::pattern;
use kash::{
    color::Color,
    geom::Pt,
    gfx::{rrect_sd, Paint},
    mathf::saturate,
};

pub const NAMES: [&str; 6] = ["cov8", "rrect_sd", "solid", "vgrad", "linear", "radial"];

fn color_of(w: u32) -> Color {
    let [r, g, b, a] = w.to_le_bytes();
    Color::rgba(r, g, b, a)
}

fn cov8(d: f32) -> u32 {
    (saturate(0.5 - d) * 255.0 + 0.5) as u32
}

/// Inputs: four floats, two colours, and the point; or the floats of `cov8` and `rrect_sd`.
pub fn answer(f: u32, words: [u32; 8]) -> u32 {
    let x = words.map(f32::from_bits);
    let (c0, c1) = (color_of(words[4]), color_of(words[5]));
    let paint = match f {
        1 => return cov8(x[0]),
        2 => return pattern(rrect_sd(x[0], x[1], x[2], x[3], x[4], x[5], x[6])),
        3 => Paint::Solid(c0),
        4 => Paint::VGrad { y0: x[0], y1: x[1], c0, c1 },
        5 => Paint::Linear { p0: Pt::new(x[0], x[1]), p1: Pt::new(x[2], x[3]), c0, c1 },
        6 => Paint::Radial { c: Pt::new(x[0], x[1]), r: x[2], c0, c1 },
        _ => panic!("no function {f}"),
    };
    let c = paint.at(x[6], x[7]);
    u32::from_le_bytes([c.r, c.g, c.b, c.a])
}
