//! Random sheets, as parts that can be altered: sides, ground and the bytes of each item.
use crate::{
    item::{floats, number, CHAIN_WIDTH},
    Sheet, LONGEST, MOST_ITEMS, MOST_SAVED,
};
use answers::{
    random::Random,
    shape::{call, place, Call, POLYLINE},
};

#[derive(Clone, Debug)]
pub struct Made {
    pub w: u16,
    pub h: u16,
    pub ground: [u8; 3],
    pub items: Vec<Vec<u8>>,
}

impl Made {
    /// The parts of a sheet that was read.
    pub fn of(sheet: &Sheet) -> Made {
        let items = sheet.items.iter().map(|(_, bytes)| bytes.clone()).collect();
        Made { w: sheet.w as u16, h: sheet.h as u16, ground: sheet.ground, items }
    }

    /// The sheet's bytes.
    pub fn bytes(&self) -> Vec<u8> {
        let mut bytes = [self.w, self.h].map(u16::to_le_bytes).concat();
        bytes.extend(self.ground);
        bytes.push(0);
        bytes.extend((self.items.len() as u32).to_le_bytes());
        let mut offset = 12 + 4 * self.items.len();
        for item in &self.items {
            bytes.extend((offset as u16).to_le_bytes());
            bytes.extend((item.len() as u16).to_le_bytes());
            offset += item.len();
        }
        bytes.extend(self.items.concat());
        bytes
    }

    pub fn sides(&self) -> [i32; 2] {
        [self.w as i32, self.h as i32]
    }

    pub fn area(&self) -> usize {
        self.w as usize * self.h as usize
    }
}

/// An item's bytes: kind, three bytes, then floats, and what follows them.
pub fn bytes(head: [u8; 4], floats: &[f32]) -> Vec<u8> {
    let mut b = head.to_vec();
    b.extend(floats.iter().flat_map(|x| x.to_le_bytes()));
    b
}

/// A paint's 28 bytes: what its kind doesn't use is zero.
fn paint(call: &Call) -> Vec<u8> {
    let mut b = vec![call.kind as u8, 0, 0, 0];
    let used = [0, 2, 4, 3][call.kind as usize];
    b.extend(call.colours[0].to_le_bytes());
    b.extend(if used == 0 { [0; 4] } else { call.colours[1].to_le_bytes() });
    b.extend(call.paint[..used].iter().flat_map(|x| x.to_le_bytes()));
    b.resize(28, 0);
    b
}

/// The item of a call of `line`, `polyline`, `stroke_rrect`, `fill_rrect`, `fill_poly` or `shadow_rrect`.
fn of_call(call: &Call) -> Vec<u8> {
    let (ink, mut floats) = (call.colours[0].to_le_bytes(), call.coords.clone());
    match call.f {
        1 => [bytes([5, 0, 0, 0], &[&floats[..], &[call.width]].concat()), ink.to_vec()].concat(),
        3 => [bytes([4, 0, 0, 0], &[&floats[..], &[call.r, call.width]].concat()), ink.to_vec()].concat(),
        5 => {
            floats.push(call.r);
            [bytes([3, 0, 0, 0], &floats), paint(call)].concat()
        }
        8 => {
            let [low, high] = (floats.len() as u16 / 2).to_le_bytes();
            [vec![6, 0, low, high], paint(call), bytes([0; 4], &floats)[4..].to_vec()].concat()
        }
        POLYLINE => {
            let [low, high] = (floats.len() as u16 / 2).to_le_bytes();
            [bytes([8, 0, low, high], &[call.width]), ink.to_vec(), bytes([0; 4], &floats)[4..].to_vec()].concat()
        }
        _ => [bytes([7, call.kind as u8, 0, 0], &[&floats[..], &[call.r, call.width]].concat()), ink.to_vec()].concat(),
    }
}

/// A shape of a kind 3 to 8 near a canvas; a polygon or a chain of at most `most` points.
pub fn shape(kind: u8, random: &mut Random, sides: [i32; 2], most: u32) -> Vec<u8> {
    if kind == 8 {
        let (few, any) = (random.below(most.min(8) + 1), random.below(most + 1));
        let m = random.of(&[0, 1, 2, 2, most, few, few, few, any, any]).min(most);
        return chain(random, sides, m as usize);
    }
    of_call(&call([5, 3, 1, 8, 9][kind as usize - 3], random, sides, most))
}

/// The points of a chain: anywhere, or a walk of short steps; in one of four the second half goes back the way that the first came.
fn walk(random: &mut Random, sides: [i32; 2], m: usize) -> Vec<f32> {
    let (far, short, back) = (random.below(4) == 0, random.below(2) == 0, random.below(4) == 0);
    let mut coords: Vec<f32> = (0..2 * m).map(|i| place(random, sides[i % 2], far)).collect();
    for i in (2..2 * m).filter(|_| short) {
        coords[i] = (coords[i - 2] + random.within(-3.0, 3.0)).clamp(-8192.0, 8192.0);
    }
    for i in (0..m / 2).filter(|_| back) {
        coords.copy_within(2 * i..2 * i + 2, 2 * (m - 1 - i));
    }
    coords
}

/// A chain of m points near a canvas.
pub fn chain(random: &mut Random, sides: [i32; 2], m: usize) -> Vec<u8> {
    let mut made = call(POLYLINE, random, sides, 6);
    made.coords = walk(random, sides, m);
    match random.below(12) {
        0 => made.width = random.within(-1.0, 0.0),
        1 => made.width = random.within(-8.0, -1.0),
        2..=4 => made.colours[0] = made.colours[0] & 0x00ff_ffff | 128 << 24,
        _ => (),
    }
    of_call(&made)
}

/// A polygon of m points near a canvas.
pub fn polygon(random: &mut Random, sides: [i32; 2], m: usize) -> Vec<u8> {
    let mut made = call(8, random, sides, 6);
    made.coords = (0..2 * m).map(|i| random.within(-2.0, sides[i % 2] as f32 + 2.0)).collect();
    of_call(&made)
}

/// A polygon whose cells are 4,000,000, the most that are painted, or just over or under.
pub fn limit_polygon(random: &mut Random) -> Vec<u8> {
    let most = random.of(&[16_000, 2_000]);
    let columns = 250 + random.below(most) as i32;
    let rows = 4_000_000 / columns + random.below(2) as i32;
    let mut ends = |cells: i32| {
        let span = cells - 2;
        let from = (-(random.below(span as u32 + 1) as i32)).max(-8192).min(8192 - span);
        [from as f32, (from + span) as f32]
    };
    let ([x0, x1], [y0, y1]) = (ends(columns), ends(rows));
    let mut made = call(8, random, [40, 40], 6);
    made.coords = vec![x0, y0, x1, y0, x0, y1, x1, y1];
    of_call(&made)
}

/// A kind of shape: a chain in one of three.
pub fn any_kind(random: &mut Random) -> u8 {
    random.of(&[3, 3, 4, 5, 5, 6, 6, 7, 8, 8, 8, 8])
}

/// A shape of any kind; in a sheet whose polygons may have many points, one in 4,000 is a polygon of the most cells.
pub fn any_shape(random: &mut Random, sides: [i32; 2], most: u32) -> Vec<u8> {
    let kind = any_kind(random);
    if most > 8 && random.below(4_000) == 0 { limit_polygon(random) } else { shape(kind, random, sides, most) }
}

/// The place of a float of an item, if it has one; of a chain's, its width in one of two.
pub fn a_float(b: &[u8], random: &mut Random) -> Option<usize> {
    let places = floats(b);
    match b[0] {
        8 if random.below(2) == 0 => Some(CHAIN_WIDTH),
        _ if places.is_empty() => None,
        _ => Some(random.of(&places)),
    }
}

pub fn push(random: &mut Random, sides: [i32; 2]) -> Vec<u8> {
    let kind = random.below(8);
    push_of(kind, random, sides)
}

/// A push that leaves most of the clip, so that many can stand in each other.
fn wide_push(random: &mut Random, sides: [i32; 2]) -> Vec<u8> {
    let kind = if random.below(12) == 0 { 2 } else { 5 };
    push_of(kind, random, sides)
}

fn push_of(kind: u32, random: &mut Random, [w, h]: [i32; 2]) -> Vec<u8> {
    let (w, h) = (w as f32, h as f32);
    let floats = match kind {
        0 => call(3, random, [w as i32, h as i32], 6).coords,
        1 => vec![random.within(-9.0, w), random.within(-9.0, h), random.within(-2.0, w), random.within(-2.0, h)],
        2..=4 => vec![random.within(-1.0, 0.3 * w), random.within(-1.0, 0.3 * h), random.within(0.4 * w, w), random.within(0.4 * h, h)],
        _ => vec![random.within(-2.0, 0.9), random.within(-2.0, 0.9), w + random.within(0.0, 2.0), h + random.within(0.0, 2.0)],
    };
    bytes([1, 0, 0, 0], &floats)
}

pub fn pop() -> Vec<u8> {
    vec![2, 0, 0, 0]
}

/// The sides of a canvas: 1 to 40 mostly, sometimes more, a few with 2,048 columns or rows.
fn sides(random: &mut Random, small: u32) -> [u16; 2] {
    let mut side = |n: u32| 1 + random.below(n) as u16;
    match side(400) {
        1 => [2048, side(6)],
        2 => [side(6), 2048],
        3 => [side(2048), side(3)],
        4 => [side(3), side(2048)],
        5..=8 => [side(120), side(120)],
        _ => [side(small), side(small)],
    }
}

/// How many items: few mostly, sometimes up to 40, in one sheet of 400 up to 1,024.
fn count(random: &mut Random, most: u32) -> usize {
    match random.below(400) {
        0 => random.of(&[MOST_ITEMS, MOST_ITEMS, 1_023, 500]),
        1..=40 => random.below(41) as usize,
        _ => random.below(most + 1) as usize,
    }
}

/// A sheet that is accepted; sides up to `small` mostly, items up to `most` mostly.
pub fn sheet(random: &mut Random, small: u32, most: u32) -> Made {
    let (sides, n) = (sides(random, small), count(random, most));
    on(random, sides, n, 64)
}

/// A sheet of n items that is accepted, on a canvas of the sides given; its polygons and chains have up to `points` points.
pub fn on(random: &mut Random, [w, h]: [u16; 2], n: usize, points: u32) -> Made {
    let ground = if random.below(4) == 0 { [0; 3] } else { [random.word() as u8, random.word() as u8, random.word() as u8] };
    let mut made = Made { w, h, ground, items: vec![] };
    let (mut depth, deep) = (0, random.below(16) == 0);
    while made.items.len() < n {
        let item = match random.below(if deep { 20 } else { 100 }) {
            0..=9 if deep && depth < MOST_SAVED => wide_push(random, made.sides()),
            0..=9 if depth < MOST_SAVED => push(random, made.sides()),
            10..=13 => pop(),
            14..=16 if !deep => pop(),
            _ if n > 200 => shape([4, 5, 8][made.items.len() % 3], random, made.sides(), 3),
            _ => any_shape(random, made.sides(), points),
        };
        match item[0] {
            1 => depth += 1,
            2 if depth > 0 => depth -= 1,
            _ => (),
        }
        debug_assert_eq!(number(&item), 0);
        made.items.push(item);
    }
    debug_assert!(made.bytes().len() <= LONGEST);
    made
}
