//! What can be wrong with a sheet, each way by itself or several at once.
use crate::{
    half,
    item::{number, paint_at, zeros},
    make::{a_float, any_shape, chain, polygon, push, shape},
    Made, LONGEST, MOST_ITEMS, MOST_POINTS, MOST_SAVED,
};
use answers::random::Random;

/// A float that number 6 refuses.
fn wide(random: &mut Random) -> f32 {
    match random.below(8) {
        0 => random.of(&[f32::INFINITY, f32::NEG_INFINITY]),
        1 => f32::from_bits(random.of(&[0x7fc0_0000, 0xffc0_0000, 0x7f80_0001, 0xffff_ffff])),
        2 => random.of(&[8193.0, -8193.0]),
        3 => f32::from_bits(8192.0f32.to_bits() + 1 | random.below(2) << 31),
        4 => random.of(&[f32::MAX, f32::MIN]),
        _ => random.within(8192.5, 1.0e9) * random.of(&[1.0, -1.0]),
    }
}

fn byte(random: &mut Random) -> u8 {
    random.word() as u8
}

/// A byte that is not zero.
fn wrong_byte(random: &mut Random) -> u8 {
    match random.below(6) {
        0 | 1 => 1,
        2 => random.of(&[2, 128, 255]),
        _ => byte(random).max(1),
    }
}

/// An item's place with a kind out of a list, or a shape more of such a kind.
fn place(made: &mut Made, random: &mut Random, kinds: &[u8]) -> usize {
    let fit: Vec<usize> = (0..made.items.len()).filter(|i| made.items[*i].first().is_some_and(|kind| kinds.contains(kind))).collect();
    if !fit.is_empty() {
        return random.of(&fit);
    }
    made.items.truncate(MOST_ITEMS - 1);
    let at = random.below(made.items.len() as u32 + 1) as usize;
    let shapes: Vec<u8> = kinds.iter().copied().filter(|kind| *kind >= 3).collect();
    let (kind, sides) = (random.of(&shapes), made.sides());
    made.items.insert(at, shape(kind, random, sides, 6));
    at
}

const SHAPES: [u8; 6] = [3, 4, 5, 6, 7, 8];
const ALL: [u8; 8] = [1, 2, 3, 4, 5, 6, 7, 8];

fn set(b: &mut [u8], at: usize, value: u8) {
    if let Some(was) = b.get_mut(at) {
        *was = value;
    }
}

/// An item cut, or longer or shorter by a byte; or a polygon or chain that says a point more or fewer than it has.
fn wrong_length(made: &mut Made, random: &mut Random) {
    let says = random.below(4) == 0;
    let at = place(made, random, if says { &[6, 8] } else { &ALL });
    let b = &mut made.items[at];
    match random.below(3) {
        _ if says && b.len() >= 4 => {
            let m = half(b, 2) as u16;
            put(b, 2, random.of(&[m.wrapping_add(1), m.wrapping_sub(1)]));
        }
        0 => b.truncate(random.below(6) as usize),
        1 => b.push(0),
        _ => _ = b.pop(),
    }
}

/// More clips saved, or more points, than may be, or just as many.
fn too_many(made: &mut Made, random: &mut Random) {
    let (sides, at) = (made.sides(), random.below(made.items.len() as u32 + 1) as usize);
    let m = MOST_POINTS + random.of(&[0, 1, 1, 1, 2, 40]);
    match random.below(6) {
        0 => made.items.insert(at, polygon(random, sides, m)),
        1 => made.items.insert(at, chain(random, sides, m)),
        _ => {
            let many = MOST_SAVED + random.of(&[0, 1, 1, 2]);
            (0..many).for_each(|_| made.items.insert(at, push(random, sides)));
        }
    }
}

/// Wrong in an item, the pairs running as they must.
fn in_item(made: &mut Made, random: &mut Random) {
    let any = byte(random);
    let at = place(made, random, &ALL);
    match random.below(12) {
        0 => made.items[at][0] = random.of(&[0, 9, 10, 255, any]),
        1 => made.items[at][0] = 1 + any % 8,
        2 => wrong_length(made, random),
        3 | 4 => {
            let b = &mut made.items[at];
            if number(b) == 0 {
                let zero = random.of(&zeros(b));
                b[zero] = wrong_byte(random);
            }
        }
        5 => {
            let at = place(made, random, &[3, 6]);
            let kind = paint_at(made.items[at][0]).unwrap_or(0);
            set(&mut made.items[at], kind, random.of(&[4, 4, 5, 255, any]));
        }
        6 => {
            let at = place(made, random, &[7]);
            set(&mut made.items[at], 1, random.of(&[2, 2, 3, 255]));
        }
        7 | 8 => {
            let at = place(made, random, &SHAPES);
            let b = &mut made.items[at];
            let float = if number(b) == 0 { a_float(b, random) } else { None };
            if let Some(at) = float {
                b[at..at + 4].copy_from_slice(&wide(random).to_le_bytes());
            }
        }
        _ => too_many(made, random),
    }
}

fn put(bytes: &mut [u8], at: usize, value: u16) {
    if at + 1 < bytes.len() {
        bytes[at..at + 2].copy_from_slice(&value.to_le_bytes());
    }
}

/// Wrong in the bytes of the sheet.
fn in_bytes(bytes: &mut Vec<u8>, random: &mut Random) {
    let n = if bytes.len() < 12 { 0 } else { half(bytes, 8) };
    let pairs = if bytes.len() >= 12 + 4 * n { n } else { 0 };
    let any = random.word() as u16;
    match random.below(12) {
        0 => put(bytes, 0, random.of(&[0, 2049, 65535, any])),
        1 => put(bytes, 2, random.of(&[0, 2049, 65535, any])),
        2 => put(bytes, 8, random.of(&[1025, 65535, any, 1024])),
        3 => put(bytes, 8, random.of(&[(n + 1) as u16, n.saturating_sub(1) as u16, 0])),
        4 if bytes.len() >= 12 => bytes[random.of(&[7, 10, 11])] = wrong_byte(random),
        5 | 6 if pairs > 0 => {
            let at = 12 + 2 * random.below(2 * pairs as u32) as usize;
            let was = half(bytes, at) as u16;
            put(bytes, at, random.of(&[was.wrapping_add(1), was.wrapping_sub(1), 0, 65535, any]));
        }
        7 => bytes.truncate(match random.below(2) {
            0 => random.below(12) as usize,
            _ => bytes.len().saturating_sub(1),
        }),
        8 => {
            let at = random.below(bytes.len() as u32 + 1) as usize;
            bytes.insert(at, random.of(&[0, any as u8]));
        }
        9 if !bytes.is_empty() => {
            bytes.remove(random.below(bytes.len() as u32) as usize);
        }
        10 if random.below(3) == 0 => bytes.resize(LONGEST + random.of(&[0, 1, 1, 100]), 0),
        11 if random.below(8) == 0 => {
            let n = random.below(200) as usize;
            *bytes = (0..n).map(|_| random.word() as u8).collect();
        }
        _ if !bytes.is_empty() => {
            let at = random.below(bytes.len() as u32) as usize;
            bytes[at] = if random.below(2) == 0 { any as u8 } else { bytes[at] ^ 1 << random.below(8) };
        }
        _ => (),
    }
}

/// The bytes of a sheet with something wrong, or several things.
pub fn damaged(mut made: Made, random: &mut Random) -> Vec<u8> {
    let times = random.of(&[1, 1, 1, 1, 2, 3]);
    let inside = (0..times).filter(|_| random.below(2) == 0).count();
    if made.items.is_empty() && random.below(2) == 0 {
        let sides = made.sides();
        made.items.push(any_shape(random, sides, 6));
    }
    (0..inside).for_each(|_| in_item(&mut made, random));
    let mut bytes = made.bytes();
    (inside..times).for_each(|_| in_bytes(&mut bytes, random));
    bytes
}
