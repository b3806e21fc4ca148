//! The edges of change request 2026-04, each with what its words give: numbers, boxes and pixels are worked out by hand.
use crate::{
    fixed::{fill, made, painted, with, Painting, Patch, RED},
    make::{bytes, pop},
};

pub fn chain(points: &[f32], width: f32, rgba: [u8; 4]) -> Vec<u8> {
    let [low, high] = (points.len() as u16 / 2).to_le_bytes();
    [bytes([8, 0, low, high], &[width]), rgba.to_vec(), bytes([0; 4], points)[4..].to_vec()].concat()
}

/// Red at alpha 128 on black: over once, and over twice, (255 × 128 + 128 × 127 + 127) / 255 cut down.
pub const HALF: [u8; 4] = [255, 0, 0, 128];
pub const ONCE: u32 = 0x0080_0000;
const TWICE: u32 = 0x00c0_0000;

/// Points at the centres of 8 × 8 pixels, row after row, each row the other way than the one before; the 65th lies beneath them.
pub fn rows(m: usize) -> Vec<f32> {
    let column = |i: usize| if i / 8 % 2 == 0 { i % 8 } else { 7 - i % 8 };
    (0..m).flat_map(|i| [column(i) as f32 + 0.5, (i / 8) as f32 + 0.5]).collect()
}

pub fn paintings() -> Vec<Painting> {
    let mut all = vec![];
    let mut add = |name, w: u16, h: u16, items: Vec<Vec<u8>>, number, item| {
        let (sheet, pitch, px) = (made(w, h, items).bytes(), w as usize, w as usize * h as usize);
        all.push(Painting { name, sheet, pitch, px, scratch: 0, number, item });
    };
    let half = |points: &[f32], width: f32| chain(points, width, HALF);
    add("chain_0", 4, 1, vec![half(&[], 1.0)], 0, 0);
    add("chain_1", 4, 1, vec![half(&[1.5, 0.5], 1.0)], 0, 0);
    add("chain_2", 4, 1, vec![half(&[1.5, 0.5, 2.5, 0.5], 1.0)], 0, 0);
    add("chain_joint", 4, 1, vec![half(&[0.5, 0.5, 1.5, 0.5, 3.5, 0.5], 1.0)], 0, 0);
    add("chain_back", 4, 1, vec![half(&[0.5, 0.5, 2.5, 0.5, 0.5, 0.5], 1.0)], 0, 0);
    add("chain_64", 8, 8, vec![half(&rows(64), 1.0)], 0, 0);
    add("chain_65", 8, 8, vec![half(&rows(65), 1.0)], 13, 1);
    add("chain_width_0", 4, 1, vec![half(&[0.5, 0.5, 2.5, 0.5], 0.0)], 0, 0);
    add("chain_width_minus_1", 4, 1, vec![half(&[0.5, 0.5, 2.5, 0.5], -1.0)], 0, 0);
    add("chain_width_minus_3", 4, 1, vec![half(&[0.5, 0.5, 2.5, 0.5], -3.0)], 0, 0);
    let level = || half(&[0.5, 0.5, 2.5, 0.5], 1.0);
    add("kind_8_of_4_bytes", 4, 1, vec![vec![8, 0, 0, 0]], 4, 1);
    add("chain_of_1_more", 4, 1, vec![with(level(), 2, 3)], 4, 1);
    add("chain_of_1_fewer", 4, 1, vec![with(level(), 2, 1)], 4, 1);
    add("chain_of_258", 4, 1, vec![with(level(), 3, 1)], 4, 1);
    add("chain_byte_1", 4, 1, vec![with(level(), 1, 1)], 5, 1);
    // The item before the chain is a pop, so that the number of the item is seen.
    add("chain_width_8193", 4, 1, vec![pop(), half(&[0.5; 4], 8193.0)], 6, 2);
    add("chain_width_not_finite", 4, 1, vec![pop(), half(&[], f32::NAN)], 6, 2);
    add("chain_first_8193", 4, 1, vec![pop(), half(&[8193.0, 0.5], 1.0)], 6, 2);
    add("chain_last_8193", 4, 1, vec![pop(), half(&[0.5, 0.5, 0.5, -8193.0], 1.0)], 6, 2);
    // 13 comes before 5, and 5 before 6.
    add("chain_65_and_byte_1", 8, 8, vec![with(half(&rows(65), f32::INFINITY), 1, 1)], 13, 1);
    add("chain_byte_1_and_width", 4, 1, vec![with(half(&[0.5; 4], f32::INFINITY), 1, 1)], 5, 1);
    all
}

/// On 8 × 8: a line's reach is the box around its rectangle, wider by half the width and 1 on each side.
pub fn patches() -> Vec<Patch> {
    let mut all = vec![];
    let mut add = |old: Vec<u8>, new: Vec<u8>, area| {
        let [old, new] = [old, new].map(|item| made(8, 8, vec![item]).bytes());
        all.push(Patch { old, new, pitch: 8, px: 64, scratch: 0, number: 0, item: 0, area });
    };
    // Two lines reach 0,0,5,3 and 2,0,5,6; the third, 2,3,8,6. At width 3 the first two reach -1,-1,6,4 and 1,-1,6,7.
    let (two, three) = ([1.5, 1.5, 3.5, 1.5, 3.5, 4.5], [1.5, 1.5, 3.5, 1.5, 3.5, 4.5, 6.5, 4.5]);
    let trace = |points: &[f32]| chain(points, 1.0, RED);
    let dot = || fill(6.0, 6.0, 1.0, 1.0, RED);
    add(trace(&two), dot(), [0, 0, 7, 7]);
    add(dot(), trace(&two), [0, 0, 7, 7]);
    add(trace(&two), fill(9.0, 9.0, 1.0, 1.0, RED), [0, 0, 5, 6]);
    add(trace(&two), trace(&three), [0, 0, 8, 6]);
    add(trace(&three), trace(&two), [0, 0, 8, 6]);
    add(trace(&two), chain(&two, 1.0, HALF), [0, 0, 5, 6]);
    add(trace(&two), chain(&two, 3.0, RED), [0, 0, 6, 7]);
    add(trace(&two), trace(&two), [0; 4]);
    // Under two points there is no reach: the box is that of the other alone.
    add(trace(&[]), trace(&[4.5, 4.5]), [0; 4]);
    add(trace(&[4.5, 4.5]), trace(&[4.5, 4.5, 5.5, 4.5]), [3, 3, 7, 6]);
    add(trace(&[4.5, 4.5]), dot(), [6, 6, 7, 7]);
    // Colour does not matter to the reach, nor alpha 0.
    add(chain(&two, 1.0, [0; 4]), chain(&two, 1.0, [9, 9, 9, 0]), [0, 0, 5, 6]);
    // Width -1 pads by 0.5, width -3 by -0.5: of a level line nothing is left, of a sloping one 4,2,7,5.
    let level = [2.5, 2.5, 4.5, 2.5];
    add(chain(&level, -1.0, RED), chain(&level, -3.0, RED), [2, 2, 5, 3]);
    add(chain(&level, -3.0, RED), chain(&level, -4.0, RED), [0; 4]);
    let sloping = [1.5, 1.5, 7.5, 1.5, 3.5, 5.5];
    add(chain(&sloping, -3.0, RED), chain(&sloping, -3.0, HALF), [4, 2, 7, 5]);
    // Two lines past the canvas, one above it and one beside it: around both stands the whole canvas.
    let past = [-10.0, -10.0, 20.0, -10.0, 20.0, 20.0];
    add(trace(&past), chain(&past, 1.0, HALF), [0, 0, 8, 8]);
    add(trace(&past[..4]), chain(&past[..4], 1.0, HALF), [0; 4]);
    add(trace(&rows(63)), trace(&rows(64)), [0, 0, 8, 8]);
    all.extend(beside());
    all
}

/// Patches with an item beside the chain: that it stands at another offset does not count; a refusal names the chain.
fn beside() -> Vec<Patch> {
    let both = |points: &[f32]| made(8, 8, vec![chain(points, 1.0, RED), fill(6.0, 6.0, 1.0, 1.0, RED)]).bytes();
    let patch = |old, new, number, item, area| Patch { old, new, pitch: 8, px: 64, scratch: 0, number, item, area };
    let (one, two) = ([1.5, 1.5, 2.5, 1.5], [1.5, 1.5, 2.5, 1.5, 2.5, 3.5]);
    vec![
        patch(both(&one), both(&two), 0, 0, [0, 0, 4, 5]),
        patch(both(&[]), both(&one), 0, 0, [0, 0, 4, 3]),
        patch(both(&rows(64)), both(&rows(65)), 13, 1, [0; 4]),
        patch(both(&rows(65)), both(&rows(64)), 13, 1, [0; 4]),
        patch(both(&one), both(&[1.5, 1.5, 2.5, 8193.0]), 6, 1, [0; 4]),
    ]
}

/// Holds pixels to the request: a pixel that two lines cover is blended twice. A centre on a line of no width has a cover of 128, so that
/// alpha 128 counts as 64.
pub fn check() {
    let mut rows = [TWICE; 64];
    (rows[0], rows[56]) = (ONCE, ONCE);
    let known = [
        ("chain_0", &[0; 4][..]),
        ("chain_1", &[0; 4]),
        ("chain_2", &[0, ONCE, ONCE, 0]),
        ("chain_joint", &[ONCE, TWICE, ONCE, ONCE]),
        ("chain_back", &[TWICE, TWICE, TWICE, 0]),
        ("chain_64", &rows),
        ("chain_width_0", &[0x0040_0000, 0x0040_0000, 0x0040_0000, 0]),
        ("chain_width_minus_1", &[0; 4]),
        ("chain_width_minus_3", &[0; 4]),
    ];
    let all = paintings();
    for (name, px) in known {
        let p = all.iter().find(|p| p.name == name).expect("a painting of this name");
        assert_eq!(painted(p), px, "{name}");
    }
}
