//! Patches: ways in which a new sheet differs from the one that is kept.
use crate::{
    damage::damaged,
    float, half,
    item::{paint_at, CHAIN_COLOUR},
    make::{a_float, any_kind, any_shape, pop, push, shape},
    Item, Made, MOST_CHANGES, MOST_ITEMS, MOST_POINTS,
};
use answers::random::Random;
use kash::geom::IRect;

/// The ways, in the order of `WAYS`.
pub const WAYS: [&str; 19] = [
    "moved", "recoloured", "resized", "a bit altered", "another shape", "a chain grown", "no difference", "several shapes",
    "shapes swapped", "several and a clip", "header", "a clip", "count", "damaged new sheet", "px length", "scratch length",
    "another pitch", "damaged old sheet", "another old sheet",
];
const MOVED: usize = 0;
const RECOLOURED: usize = 1;
const RESIZED: usize = 2;
const A_BIT: usize = 3;
const ANOTHER: usize = 4;
const GROWN: usize = 5;
/// The ways before this one alter one shape.
pub const ONE_SHAPE: usize = 6;
const SAME: usize = 6;
const SEVERAL: usize = 7;
const SWAPPED: usize = 8;
const SEVERAL_AND_CLIP: usize = 9;
const HEADER: usize = 10;
const CLIP: usize = 11;
const COUNT: usize = 12;
pub const DAMAGED_NEW: usize = 13;
pub const PX: usize = 14;
pub const SCRATCH: usize = 15;
/// The pitch is another than that of the painting.
pub const PITCH: usize = 16;
/// From here on the old sheet is not the kept one, so the call is none of the list's.
pub const APART: usize = 17;
pub const DAMAGED_OLD: usize = 17;

/// What a shape among several is altered by.
const EACH: [usize; 5] = [MOVED, RECOLOURED, RESIZED, ANOTHER, GROWN];

fn put(b: &mut [u8], at: usize, x: f32) {
    if x.abs() <= 8192.0 {
        b[at..at + 4].copy_from_slice(&x.to_le_bytes());
    }
}

/// Moves a shape's own places by the same step.
fn moved(b: &mut [u8], random: &mut Random) {
    let step = match random.below(3) {
        0 => [random.below(9) as f32 - 4.0, random.below(9) as f32 - 4.0],
        1 => [random.within(-1.0, 1.0), 0.0],
        _ => [random.within(-20.0, 20.0), random.within(-20.0, 20.0)],
    };
    let own: Vec<usize> = match b[0] {
        5 => vec![4, 8, 12, 16],
        6 => (32..b.len()).step_by(4).collect(),
        8 => (12..b.len()).step_by(4).collect(),
        _ => vec![4, 8],
    };
    for (i, at) in own.into_iter().enumerate() {
        put(b, at, float(b, at) + step[i % 2]);
    }
}

/// Alters a byte of a colour that the shape uses.
fn recoloured(b: &mut [u8], random: &mut Random) {
    let at = match paint_at(b[0]) {
        Some(at) if b[at] == 0 => at + 4,
        Some(at) => at + random.of(&[4, 8]),
        None if b[0] == 8 => CHAIN_COLOUR,
        None => b.len() - 4,
    };
    let any = random.word() as u8;
    b[at + random.below(4) as usize] = random.of(&[0, 255, any]);
}

/// Alters one float: to another size, or by a bit.
fn resized(b: &mut [u8], random: &mut Random, by_a_bit: bool) {
    let Some(at) = a_float(b, random) else { return };
    let x = float(b, at);
    let near = f32::from_bits(x.to_bits() ^ 1 << random.of(&[0, 0, 1, 22, 31]));
    let other = x + random.within(-8.0, 8.0);
    put(b, at, if by_a_bit { near } else { random.of(&[x * 2.0, x * 0.5, other, 0.0]) });
}

/// A chain with one point more at its end, not far from the last, or one fewer, as a weight trace grows.
fn grown(b: &mut Vec<u8>, random: &mut Random) {
    let (m, end) = (half(b, 2), b.len());
    let fewer = random.below(4) < if m == MOST_POINTS { 3 } else { 1 };
    if fewer && m > 0 {
        b.truncate(end - 8);
    } else {
        let last = if m > 0 { [float(b, end - 8), float(b, end - 4)] } else { [4.0; 2] };
        b.extend(last.iter().flat_map(|x| (x + random.within(-6.0, 6.0)).clamp(-8192.0, 8192.0).to_le_bytes()));
    }
    let m = (b.len() - 12) / 8;
    b[2..4].copy_from_slice(&(m as u16).to_le_bytes());
}

/// An item of a kind that fits, mostly one that reaches into the canvas.
fn at<'a>(made: &'a mut Made, random: &mut Random, fits: impl Fn(u8) -> bool) -> Option<&'a mut Vec<u8>> {
    let canvas = IRect::new(0, 0, made.w as i32, made.h as i32);
    let mut fit: Vec<usize> = (0..made.items.len()).filter(|i| fits(made.items[*i][0])).collect();
    let inside: Vec<usize> = fit.iter().copied().filter(|i| !Item::of(&made.items[*i]).reach().intersect(&canvas).is_empty()).collect();
    if !inside.is_empty() && random.below(8) > 0 {
        fit = inside;
    }
    if fit.is_empty() { None } else { Some(&mut made.items[random.of(&fit)]) }
}

fn one_shape(made: &mut Made, random: &mut Random, way: usize) {
    let (sides, canvas) = (made.sides(), IRect::new(0, 0, made.w as i32, made.h as i32));
    let chains = way == GROWN && made.items.iter().any(|b| b[0] == 8);
    let Some(b) = at(made, random, |kind| if chains { kind == 8 } else { kind > 2 }) else { return };
    alter(b, sides, canvas, random, way);
}

/// Alters up to 40 shapes, each at a place of its own, often about as many as may differ.
fn several(made: &mut Made, random: &mut Random) {
    let (sides, canvas) = (made.sides(), IRect::new(0, 0, made.w as i32, made.h as i32));
    let mut places: Vec<usize> = (0..made.items.len()).filter(|i| made.items[*i][0] > 2).collect();
    let any = random.below(41) as usize;
    let many = random.of(&[any, any, 2, 3, MOST_CHANGES - 1, MOST_CHANGES, MOST_CHANGES + 1, MOST_CHANGES + 2]);
    while places.len() > many {
        places.swap_remove(random.below(places.len() as u32) as usize);
    }
    for i in places {
        let way = random.of(&EACH);
        alter(&mut made.items[i], sides, canvas, random, way);
    }
}

/// Two shapes change places.
fn swapped(made: &mut Made, random: &mut Random) {
    let shapes: Vec<usize> = (0..made.items.len()).filter(|i| made.items[*i][0] > 2).collect();
    if !shapes.is_empty() {
        let (a, b) = (random.of(&shapes), random.of(&shapes));
        made.items.swap(a, b);
    }
}

/// Alters one shape in a way. A shape that has nothing on the canvas is mostly replaced; one that is to grow and is no chain, always.
fn alter(b: &mut Vec<u8>, sides: [i32; 2], canvas: IRect, random: &mut Random, way: usize) {
    let lost = way != GROWN && Item::of(b).reach().intersect(&canvas).is_empty() && random.below(4) > 0;
    match if lost { ANOTHER } else { way } {
        MOVED => moved(b, random),
        RECOLOURED => recoloured(b, random),
        RESIZED => resized(b, random, false),
        A_BIT => resized(b, random, true),
        GROWN if b[0] == 8 => grown(b, random),
        _ => *b = shape(any_kind(random), random, sides, 64),
    }
}

fn clip(made: &mut Made, random: &mut Random) {
    let sides = made.sides();
    let (shapes, other) = (random.below(3) == 0, random.below(3));
    let Some(b) = at(made, random, |kind| (kind > 2) == shapes) else { return };
    *b = match other {
        0 => push(random, sides),
        1 => pop(),
        _ => any_shape(random, sides, 6),
    };
}

/// The new sheet that a patch gives, altered in a way.
pub fn changed(kept: &Made, random: &mut Random, way: usize) -> Made {
    let mut made = kept.clone();
    match way {
        MOVED..ONE_SHAPE => one_shape(&mut made, random, way),
        SAME => (),
        SEVERAL => several(&mut made, random),
        SWAPPED => swapped(&mut made, random),
        SEVERAL_AND_CLIP => {
            several(&mut made, random);
            clip(&mut made, random);
        }
        HEADER => match random.below(4) {
            0 => made.w = 1 + random.below(40) as u16,
            1 => made.h = 1 + random.below(40) as u16,
            _ => made.ground[random.below(3) as usize] ^= 1 << random.below(8),
        },
        CLIP => clip(&mut made, random),
        COUNT => {
            let n = made.items.len() as u32;
            if n > 0 && random.below(2) == 0 {
                made.items.remove(random.below(n) as usize);
            } else if made.items.len() < MOST_ITEMS {
                made.items.insert(random.below(n + 1) as usize, any_shape(random, kept.sides(), 6));
            }
        }
        _ => {
            if random.below(2) == 0 {
                let way = random.of(&EACH);
                one_shape(&mut made, random, way);
            }
        }
    }
    made
}

/// A way at random: mostly one that is accepted.
pub fn way(random: &mut Random) -> usize {
    match random.below(6) {
        0 | 1 => random.below(WAYS.len() as u32) as usize,
        2 => SEVERAL,
        _ => random.below(ONE_SHAPE as u32) as usize,
    }
}

/// Old and new bytes of a patch in a way.
pub fn patch(kept: &Made, random: &mut Random, way: usize) -> (Vec<u8>, Vec<u8>) {
    let new = changed(kept, random, way);
    let old_bytes = match way {
        DAMAGED_OLD => damaged(kept.clone(), random),
        APART.. => {
            let mut old = new.clone();
            one_shape(&mut old, random, ANOTHER);
            old.bytes()
        }
        _ => kept.bytes(),
    };
    let spoilt = way == DAMAGED_NEW || way >= APART && random.below(4) == 0;
    let new_bytes = if spoilt { damaged(new, random) } else { new.bytes() };
    (old_bytes, new_bytes)
}
