//! Sheets whose shapes stand under narrow clips: one to three pushes of few columns, or rows, that stand in each other.
use crate::{
    make::{bytes, pop},
    Made, Sheet, MOST_SAVED,
};
use answers::random::Random;
use kash::geom::{IRect, Rect};

/// The most columns, or rows, of a narrow clip.
pub const NARROW: i32 = 4;

/// Whether a push has one to four columns, fewer than the canvas has.
pub fn is_column(rect: &Rect, [w, _]: [i32; 2]) -> bool {
    let pushed = IRect::from_rect_outer(rect);
    !pushed.is_empty() && pushed.w() <= NARROW && pushed.w() < w
}

/// Whether a push has one to four columns or rows, fewer than the canvas has.
pub fn is_narrow(rect: &Rect, sides: [i32; 2]) -> bool {
    let pushed = IRect::from_rect_outer(rect);
    is_column(rect, sides) || !pushed.is_empty() && pushed.h() <= NARROW && pushed.h() < sides[1]
}

/// Few columns, or rows, that have one at least in common with those from a place to another; now and then they lie just past them.
fn few(random: &mut Random, [from, to]: [i32; 2], side: i32) -> [i32; 2] {
    let (size, past) = (1 + random.below(NARROW.min(side - 1).max(1) as u32) as i32, (random.below(8) == 0) as i32);
    let first = from - size + 1 - past;
    let start = first + random.below((to + past - first) as u32) as i32;
    [start, start + size]
}

/// All columns, or rows, from a place to another, and up to two more either way; or some of them.
fn many(random: &mut Random, [from, to]: [i32; 2]) -> [i32; 2] {
    if random.below(3) > 0 {
        return [from - random.below(3) as i32, to + random.below(3) as i32];
    }
    let n = (to - from) as u32;
    let start = from + random.below(n) as i32;
    [start, start + 1 + random.below(n) as i32]
}

/// A place and a size within pixels from a column or row to another, not all of the first and the last of them in every second.
fn inside(random: &mut Random, [from, to]: [i32; 2]) -> [f32; 2] {
    let (after, before) = (0.25 * random.of(&[0.0, 0.0, 1.0, 2.0]), 0.25 * random.of(&[0.0, 0.0, 0.0, 1.0]));
    [from as f32 + after, (to - from) as f32 - after - before]
}

/// One to three narrow pushes, at most so many: the first anywhere on the canvas, each later one where the one before it leaves something.
fn narrow_pushes(random: &mut Random, [w, h]: [i32; 2], most: usize) -> Vec<Vec<u8>> {
    let mut left = IRect::new(0, 0, w, h);
    let n = random.of(&[1, 1, 1, 2, 2, 3]).min(most);
    let mut pushes = vec![];
    for _ in 0..n {
        let (columns, rows) = ([left.x0, left.x1], [left.y0, left.y1]);
        let by_columns = h == 1 || w > 1 && random.below(3) > 0;
        let [x, y] = if by_columns { [few(random, columns, w), many(random, rows)] } else { [many(random, columns), few(random, rows, h)] };
        let ([px, pw], [py, ph]) = (inside(random, x), inside(random, y));
        pushes.push(bytes([1, 0, 0, 0], &[px, py, pw, ph]));
        let next = left.intersect(&IRect::new(x[0], y[0], x[1], y[1]));
        left = if next.is_empty() { left } else { next };
    }
    pushes
}

/// The same sheet with narrow pushes before about two in three runs of its items, and as many pops after each: so that many shapes stand
/// under one to three narrow clips. A sheet that has the most clips saved, or very many items, stays as it is.
pub fn with_columns(made: Made, random: &mut Random) -> Made {
    let deepest = Sheet::read(&made.bytes()).map_or(MOST_SAVED, |sheet| sheet.saved().into_iter().max().unwrap_or(0));
    if deepest == MOST_SAVED || made.items.len() > 200 {
        return made;
    }
    let (mut items, mut rest) = (vec![], &made.items[..]);
    while !rest.is_empty() {
        let (run, after) = rest.split_at((1 + random.below(6) as usize).min(rest.len()));
        let pushes = if random.below(3) > 0 { narrow_pushes(random, made.sides(), MOST_SAVED - deepest) } else { vec![] };
        let pops = vec![pop(); pushes.len()];
        items.extend([&pushes[..], run, &pops].concat());
        rest = after;
    }
    Made { items, ..made }
}
