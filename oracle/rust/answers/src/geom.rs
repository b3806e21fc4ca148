//! geom.rs. `inset`, `offset`, `intersect` and `union` follow its lines with document 01's `min` and `max`, which take the first of
//! two zeros; that this is the only difference from the Rust's own answer is asserted.
use crate::{max, min, pattern};
use kash::geom::{IRect, Rect};

pub const NAMES: [&str; 13] = [
    "right", "bottom", "cx", "cy", "inset", "offset", "intersect", "union", "is_empty", "from_rect_outer", "box_intersect", "box_is_empty",
    "ZERO",
];

/// The first function of boxes; those before it take rectangles.
pub const BOXES: u32 = 11;

/// The constant of rectangles, which takes no inputs; those before it are functions.
pub const ZERO: u32 = 13;

fn rect(w: &[u32]) -> Rect {
    Rect::new(f32::from_bits(w[0]), f32::from_bits(w[1]), f32::from_bits(w[2]), f32::from_bits(w[3]))
}

fn irect(w: &[u32]) -> IRect {
    IRect::new(w[0] as i32, w[1] as i32, w[2] as i32, w[3] as i32)
}

fn of_rect(r: Rect) -> [u32; 4] {
    [r.x, r.y, r.w, r.h].map(pattern)
}

fn of_box(b: IRect) -> [u32; 4] {
    [b.x0, b.y0, b.x1, b.y1].map(|z| z as u32)
}

fn one(w: u32) -> [u32; 4] {
    [w, 0, 0, 0]
}

/// `ours`, which may part from the Rust's only in the sign of a zero.
fn but_for_zeros(ours: Rect, rust: Rect) -> [u32; 4] {
    for (a, b) in [(ours.x, rust.x), (ours.y, rust.y), (ours.w, rust.w), (ours.h, rust.h)] {
        assert!(pattern(a) == pattern(b) || a == 0.0 && b == 0.0, "{ours:?} {rust:?}");
    }
    of_rect(ours)
}

fn inset(r: Rect, d: f32) -> Rect {
    Rect::new(r.x + d, r.y + d, max(r.w - 2.0 * d, 0.0), max(r.h - 2.0 * d, 0.0))
}

fn intersect(r: Rect, o: Rect) -> Rect {
    let (x0, y0) = (max(r.x, o.x), max(r.y, o.y));
    let (x1, y1) = (min(r.right(), o.right()), min(r.bottom(), o.bottom()));
    Rect::new(x0, y0, max(x1 - x0, 0.0), max(y1 - y0, 0.0))
}

fn union(r: Rect, o: Rect) -> Rect {
    let (x0, y0) = (min(r.x, o.x), min(r.y, o.y));
    let (x1, y1) = (max(r.right(), o.right()), max(r.bottom(), o.bottom()));
    Rect::new(x0, y0, x1 - x0, y1 - y0)
}

pub fn answer(f: u32, words: &[u32; 8]) -> [u32; 4] {
    let (r, o) = (rect(&words[..4]), rect(&words[4..]));
    match f {
        1 => one(pattern(r.right())),
        2 => one(pattern(r.bottom())),
        3 => one(pattern(r.cx())),
        4 => one(pattern(r.cy())),
        5 => but_for_zeros(inset(r, o.x), r.inset(o.x)),
        6 => of_rect(r.offset(o.x, o.y)),
        7 => but_for_zeros(intersect(r, o), r.intersect(&o)),
        8 => but_for_zeros(union(r, o), r.union(&o)),
        9 => one(r.is_empty() as u32),
        10 => of_box(IRect::from_rect_outer(&r)),
        11 => of_box(irect(&words[..4]).intersect(&irect(&words[4..]))),
        12 => one(irect(&words[..4]).is_empty() as u32),
        ZERO => of_rect(Rect::ZERO),
        _ => panic!("geom has no function {f}"),
    }
}
