//! Edges of change request 2026-07: paintings and patches in frames, with their numbers, boxes, counts and words worked out by hand from its
//! words.
use crate::{
    called,
    fixed::{fill, made, push, red, square, with, Painting, Patch, RED},
    fixed_counts::Count,
    Ceiling,
};

const RED_PIXEL: u32 = 0x00ff_0000;

/// A canvas of 4 × 3 with a red fill of two columns, at a place.
fn tall(x: f32, y: f32) -> Vec<u8> {
    made(4, 3, vec![fill(x, y, 2.0, 1.0, RED)]).bytes()
}

/// A canvas of 4 × 4 with a polygon that needs 26 words of scratch.
fn squared() -> Vec<u8> {
    made(4, 4, vec![square()]).bytes()
}

pub fn paintings() -> Vec<Painting> {
    let mut all = vec![];
    let mut add = |name, sheet: Vec<u8>, pitch, px, scratch, number, item| {
        all.push(Painting { name, sheet, pitch, px, scratch, number, item });
    };
    let high = || tall(1.0, 1.0);
    // From w to 4,096, whatever the length of px is.
    add("pitch_3", high(), 3, 9, 0, 15, 0);
    add("pitch_3_px_of_4", high(), 3, 12, 0, 15, 0);
    add("pitch_0", high(), 0, 0, 0, 15, 0);
    add("pitch_4", high(), 4, 12, 0, 0, 0);
    add("pitch_5", high(), 5, 15, 0, 0, 0);
    add("pitch_4096", high(), 4096, 12_288, 0, 0, 0);
    add("pitch_4097", high(), 4097, 12_291, 0, 15, 0);
    add("pitch_of_33_bits", high(), (1 << 32) + 4, 12, 0, 15, 0);
    add("pitch_greatest", high(), usize::MAX, 12, 0, 15, 0);
    // Four rows of so many words are 16 words, where they are counted in 64 bits.
    add("pitch_of_63_bits", squared(), 4 + (1 << 62), 16, 26, 15, 0);
    add("widest_canvas", made(2048, 1, vec![]).bytes(), 2048, 2048, 0, 0, 0);
    add("widest_canvas_cut", made(2048, 1, vec![]).bytes(), 2047, 2047, 0, 15, 0);
    add("widest_canvas_in_a_frame", made(2048, 1, vec![]).bytes(), 4096, 4096, 0, 0, 0);
    add("largest_frame", made(2048, 2048, vec![square()]).bytes(), 4096, 4096 * 2048, 26, 0, 0);
    // Px is pitch × h words: the last row is whole too.
    add("last_row_cut", high(), 7, 2 * 7 + 4, 0, 8, 0);
    add("a_word_less", high(), 7, 20, 0, 8, 0);
    add("rows_of_7", high(), 7, 21, 0, 0, 0);
    add("a_word_more", high(), 7, 22, 0, 8, 0);
    add("px_of_the_canvas_alone", high(), 7, 12, 0, 8, 0);
    // 7, 15, 8, 9 in this order; 2 and 6 before them.
    add("pitch_3_no_px", high(), 3, 0, 0, 15, 0);
    add("pitch_3_no_scratch", squared(), 3, 16, 0, 15, 0);
    add("px_short_no_scratch", squared(), 5, 16, 0, 8, 0);
    add("no_scratch_in_a_frame", squared(), 5, 20, 25, 9, 0);
    add("scratch_in_a_frame", squared(), 5, 20, 26, 0, 0);
    add("push_17_pitch_3", made(4, 1, vec![push(0.0, 0.0, 4.0, 1.0); 17]).bytes(), 3, 3, 0, 7, 17);
    add("x_8193_pitch_3", red(8193.0), 3, 3, 0, 6, 1);
    add("no_width_pitch_0", with(red(0.0), 0, 0), 0, 0, 0, 2, 0);
    all
}

pub fn patches() -> Vec<Patch> {
    let mut all = vec![];
    let mut add = |old: Vec<u8>, new: Vec<u8>, pitch, px, scratch, number, item, area| {
        all.push(Patch { old, new, pitch, px, scratch, number, item, area });
    };
    let [old, new] = [tall(1.0, 1.0), tall(2.0, 2.0)];
    let mut moved = |pitch, px, number, area| add(old.clone(), new.clone(), pitch, px, 0, number, 0, area);
    moved(6, 18, 0, [1, 1, 4, 3]);
    moved(4096, 12_288, 0, [1, 1, 4, 3]);
    moved(3, 9, 15, [0; 4]);
    moved(4097, 12_291, 15, [0; 4]);
    moved((1 << 32) + 4, 12, 15, [0; 4]);
    // 15 before 8; and with px of 6 × 3 words another pitch than 6: 15 out of range, 8 in it.
    moved(3, 0, 15, [0; 4]);
    moved(3, 18, 15, [0; 4]);
    moved(4, 18, 8, [0; 4]);
    moved(5, 18, 8, [0; 4]);
    moved(7, 18, 8, [0; 4]);
    moved(4096, 18, 8, [0; 4]);
    moved(4097, 18, 15, [0; 4]);
    moved(6, 2 * 6 + 4, 8, [0; 4]);
    // An empty box is no reason to leave out the tests.
    add(old.clone(), old.clone(), 6, 18, 0, 0, 0, [0; 4]);
    add(old.clone(), old.clone(), 3, 18, 0, 15, 0, [0; 4]);
    add(old.clone(), old.clone(), 5, 18, 0, 8, 0, [0; 4]);
    // What comes before 15: the old sheet's numbers, the new one's, 10 and 14; after it 9.
    add(red(8193.0), red(0.0), 3, 3, 0, 6, 1, [0; 4]);
    add(red(0.0), red(8193.0), 3, 3, 0, 6, 1, [0; 4]);
    add(red(0.0), with(red(0.0), 0, 5), 4, 4, 0, 10, 0, [0; 4]);
    add(red(0.0), with(red(0.0), 4, 1), 3, 4, 0, 10, 0, [0; 4]);
    let many = |x: f32| made(4, 1, vec![fill(x, 0.0, 1.0, 1.0, RED); 33]).bytes();
    add(many(0.0), many(2.0), 3, 4, 0, 14, 0, [0; 4]);
    add(squared(), squared(), 3, 16, 0, 15, 0, [0; 4]);
    add(squared(), squared(), 5, 20, 25, 9, 0, [0; 4]);
    all
}

/// Rows of six words, of which four are the canvas's: words past it are never grounded, altered or counted.
pub fn counts() -> Vec<Count> {
    let count = |name, old, new, pitch, before: Vec<u32>, steps, grounded, ceiling| Count { name, old, new, pitch, before, steps, grounded, ceiling };
    let known = known();
    let (high, moved) = (tall(1.0, 1.0), tall(2.0, 2.0));
    vec![
        count("in_a_frame", None, high.clone(), 6, known[0].to_vec(), 2, 12, None),
        count("again_in_a_frame", None, high.clone(), 6, known[1].to_vec(), 2, 2, None),
        count("moved_in_a_frame", Some(high), moved, 6, known[1].to_vec(), 2, 2, Some(Ceiling { meeting: 1, area: 6 })),
        count("red_in_the_widest_frame", None, red(0.0), 4096, vec![7; 4096], 1, 4, None),
    ]
}

/// Px of 3 rows before a painting, after it, and after a patch: the words past column 4 are 1 to 6 throughout.
fn known() -> [[u32; 18]; 3] {
    let (r, x) = (RED_PIXEL, 0xffff_ffff);
    [
        [x, x, x, x, 1, 2, x, x, x, x, 3, 4, x, x, x, x, 5, 6],
        [0, 0, 0, 0, 1, 2, 0, r, r, 0, 3, 4, 0, 0, 0, 0, 5, 6],
        [0, 0, 0, 0, 1, 2, 0, 0, 0, 0, 3, 4, 0, 0, r, r, 5, 6],
    ]
}

/// Holds words of px to the request.
pub fn check() {
    let (known, high, moved) = (known(), tall(1.0, 1.0), tall(2.0, 2.0));
    let calls = [(None, &high, 0, 1), (None, &high, 1, 1), (Some(&high), &moved, 1, 2), (None, &moved, 1, 2)];
    for (old, new, before, after) in calls {
        let done = called(old.map(|old| &old[..]), new, 6, 18, 0).on(&known[before]);
        assert_eq!((done.answer.number, &done.px[..]), (0, &known[after][..]));
    }
    for pitch in [3, 4, 5, 7, 4096, 4097] {
        let refused = called(Some(&high), &moved, pitch, 18, 0).on(&known[1]);
        assert_eq!((refused.answer.number, &refused.px[..]), (if (4..=4096).contains(&pitch) { 8 } else { 15 }, &known[1][..]));
    }
}
