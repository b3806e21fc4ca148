//! The edges of change request 2026-03: sheets, and what measuring each gives, worked out by hand from its words.
use crate::{
    fixed::{alone, fill, made, polygon, push, square, with, RED},
    fixed_chains::{chain, rows},
    make::{bytes, pop},
    measure, Room, MOST_ITEMS, MOST_SIDE,
};

/// A sheet, and what measuring it gives.
pub struct Measured {
    pub name: &'static str,
    pub sheet: Vec<u8>,
    pub room: Room,
}

/// An accepted sheet: sides, items, then words, saved and pixels.
fn accepted(name: &'static str, [w, h]: [u16; 2], items: Vec<Vec<u8>>, words: usize, saved: usize, pixels: u64) -> Measured {
    Measured { name, sheet: made(w, h, items).bytes(), room: Room { number: 0, item: 0, words, saved, pixels } }
}

/// A refused sheet: beside number and item stand three zeros.
fn refused(name: &'static str, sheet: Vec<u8>, number: u32, item: u32) -> Measured {
    Measured { name, sheet, room: Room { number, item, words: 0, saved: 0, pixels: 0 } }
}

const CLEAR: [u8; 4] = [255, 0, 0, 0];

/// A fill of a canvas of 8 × 8.
fn whole() -> Vec<u8> {
    fill(0.0, 0.0, 8.0, 8.0, RED)
}

pub fn stroke(rect: [f32; 4], width: f32, rgba: [u8; 4]) -> Vec<u8> {
    [bytes([4, 0, 0, 0], &[&rect[..], &[0.0, width]].concat()), rgba.to_vec()].concat()
}

pub fn line(ends: [f32; 4], width: f32, rgba: [u8; 4]) -> Vec<u8> {
    [bytes([5, 0, 0, 0], &[&ends[..], &[width]].concat()), rgba.to_vec()].concat()
}

/// A shadow around (3, 3, 2, 2), with `skip_inside` or without.
pub fn shadow(skip: u8, blur: f32, rgba: [u8; 4]) -> Vec<u8> {
    [bytes([7, skip, 0, 0], &[3.0, 3.0, 2.0, 2.0, 0.0, blur]), rgba.to_vec()].concat()
}

/// How many clips are saved: items are pushes, where a letter is p, and else pops, on a canvas of 4 × 1.
fn depths() -> Vec<Measured> {
    let items = |order: &str| order.chars().map(|c| if c == 'p' { push(0.0, 0.0, 4.0, 1.0) } else { pop() }).collect();
    let saved = |name, order: &str, saved| accepted(name, [4, 1], items(order), 0, saved, 0);
    vec![
        accepted("nothing", [1, 1], vec![], 0, 0, 0),
        accepted("nothing_on_the_largest", [2048, 2048], vec![], 0, 0, 0),
        saved("push_1", "p", 1),
        saved("push_16", "pppppppppppppppp", 16),
        saved("push_15_pop_3_push_2", "ppppppppppppppp---pp", 15),
        saved("push_16_pop_push", "pppppppppppppppp-p", 16),
        saved("push_3_pop_3", "ppp---", 3),
        saved("push_and_pop_4_times", "p-p-p-p-", 1),
        saved("pop_3", "---", 0),
        saved("pop_2_push", "--p", 1),
        saved("push_pop_3_push_2", "p---pp", 2),
    ]
}

/// Fills of a whole canvas of 8 × 8 under clips: of columns 2 to 4 and rows 1 to 4, 12 pixels; within it of column 4, rows 1 and 2.
fn clips() -> Vec<Measured> {
    let under = |name, items: Vec<Vec<u8>>, saved, pixels| accepted(name, [8, 8], items, 0, saved, pixels);
    let (outer, inner) = (|| push(2.0, 1.0, 3.0, 4.0), || push(4.0, 0.0, 4.0, 3.0));
    let sixteen = [vec![push(0.0, 0.0, 8.0, 8.0); 15], vec![outer(), whole()]].concat();
    vec![
        under("no_clip", vec![whole()], 0, 64),
        under("pop_then_fill", vec![pop(), whole()], 0, 64),
        under("push_fill", vec![outer(), whole()], 1, 12),
        under("push_fill_pop_fill", vec![outer(), whole(), pop(), whole()], 1, 12 + 64),
        under("fill_push", vec![whole(), outer()], 1, 64),
        under("two_clips", vec![outer(), inner(), whole(), pop(), whole(), pop(), whole()], 2, 2 + 12 + 64),
        under("sixteen_clips", sixteen, 16, 12),
        under("clip_by_halves", vec![push(1.5, 1.5, 2.0, 2.0), whole()], 1, 9),
        under("clip_partly_off", vec![push(-4.0, -3.0, 6.0, 6.0), whole()], 1, 2 * 3),
        under("empty_clip", vec![push(3.0, 3.0, 0.0, 0.0), whole(), whole()], 1, 0),
        under("empty_clip_popped", vec![push(3.0, 3.0, 0.0, 0.0), whole(), pop(), whole()], 1, 64),
        under("clip_of_negative_size", vec![push(5.0, 5.0, -3.0, -3.0), whole()], 1, 0),
        under("pushes_under_an_empty_clip", vec![push(9.0, 9.0, 2.0, 2.0), outer(), inner(), whole()], 3, 0),
    ]
}

/// Shapes of each kind but polygon and chain, on 8 × 8.
fn shapes() -> Vec<Measured> {
    let on = |name, items: Vec<Vec<u8>>, pixels| accepted(name, [8, 8], items, 0, 0, pixels);
    let off = [[-9.0, 0.0, 4.0, 4.0], [8.0, 0.0, 4.0, 4.0], [0.0, 8.0, 1.0, 1.0], [0.0, -2.0, 4.0, 2.0]];
    let disc = [bytes([3, 0, 0, 0], &[0.0, 0.0, 8.0, 8.0, 4.0]), whole()[24..].to_vec()].concat();
    // Half of width 1 and 1 more on each side of a line: columns 0 to 4 and rows 0 to 2. By width -3 nothing is left of it.
    let (level, frame) = ([1.5, 1.5, 3.5, 1.5], [1.0, 1.0, 6.0, 6.0]);
    vec![
        on("fills_off_the_canvas", off.map(|[x, y, w, h]| fill(x, y, w, h, RED)).to_vec(), 0),
        on("fill_partly_off", vec![fill(-3.0, -2.0, 5.0, 5.0, RED)], 2 * 3),
        on("fill_past_every_side", vec![fill(-9.0, -9.0, 99.0, 99.0, RED)], 64),
        on("fill_twice", vec![fill(2.0, 3.0, 3.0, 2.0, RED); 2], 12),
        on("fill_by_halves", vec![fill(0.5, 0.5, 1.0, 1.0, RED)], 4),
        on("fills_of_no_size", vec![fill(1.0, 1.0, 0.0, 4.0, RED), fill(1.0, 1.0, 4.0, -1.0, RED)], 0),
        on("fill_of_alpha_0", vec![fill(0.0, 0.0, 8.0, 8.0, CLEAR)], 64),
        on("disc_with_its_corners", vec![disc], 64),
        on("stroke_with_its_inside", vec![stroke(frame, 1.0, RED)], 36),
        on("stroke_of_width_0", vec![stroke(frame, 0.0, RED)], 36),
        on("stroke_of_alpha_0", vec![stroke(frame, 1.0, CLEAR)], 0),
        on("line", vec![line(level, 1.0, RED)], 15),
        on("line_of_alpha_0", vec![line(level, 1.0, CLEAR)], 15),
        on("line_of_width_minus_3", vec![line(level, -3.0, RED)], 0),
        on("shadow", vec![shadow(0, 1.0, RED)], 16),
        on("shadow_without_its_inside", vec![shadow(1, 1.0, RED)], 16),
        on("shadow_of_alpha_0", vec![shadow(0, 1.0, CLEAR)], 0),
        on("shadow_of_blur_0", vec![shadow(0, 0.0, RED)], 0),
    ]
}

/// Polygons on 4 × 4. The square of 2 has 4 × 4 cells from -1, -1 on, a dot 3 × 3: 9 and 4 pixels of the canvas.
fn polygons() -> Vec<Measured> {
    let on = |name, items: Vec<Vec<u8>>, words, saved, pixels| accepted(name, [4, 4], items, words, saved, pixels);
    let triangle = |left: f32, top: f32, right: f32, bottom: f32| polygon(&[left, top, right, top, right, bottom], RED);
    let dot = || polygon(&[0.5; 6], RED);
    let far = polygon(&[100.0, 100.0, 102.0, 100.0, 102.0, 102.0], RED);
    vec![
        on("polygon_of_0_points", vec![polygon(&[], RED)], 0, 0, 0),
        on("polygon_of_2_points", vec![polygon(&[0.0, 0.0, 2.0, 2.0], RED)], 0, 0, 0),
        on("polygon_of_3_points", vec![dot()], 17, 0, 4),
        on("polygon_of_64_points", vec![polygon(&[0.5; 128], RED)], 17, 0, 4),
        on("square", vec![square()], 26, 0, 9),
        on("square_of_alpha_0", vec![with(square(), 11, 0)], 26, 0, 9),
        on("square_then_dot", vec![square(), dot()], 26, 0, 9 + 4),
        on("dot_then_square", vec![dot(), square()], 26, 0, 4 + 9),
        on("polygon_off_the_canvas", vec![far], 26, 0, 0),
        on("square_under_an_empty_clip", vec![push(9.0, 9.0, 1.0, 1.0), square()], 26, 1, 0),
        on("square_under_a_clip", vec![push(2.0, 0.0, 2.0, 4.0), square()], 26, 1, 3),
        // 2,000 × 2,000 cells; a column more, so that nothing is painted; 245 × 16,326 cells, which need the most words.
        on("cells_4000000", vec![triangle(-1994.0, 0.0, 4.0, 1998.0)], 4_004_002, 0, 16),
        on("cells_4002000", vec![triangle(-1994.0, 0.0, 4.5, 1998.0)], 0, 0, 0),
        on("most_words", vec![triangle(-100.0, -8192.0, 143.0, 8132.0), dot()], 4_032_524, 0, 16 + 4),
    ]
}

/// Chains on 8 × 8: a line to the right, columns 0 to 4 and rows 0 to 2, one down, 2 to 4 and 0 to 5, and one to the right, up to column 7.
fn chains() -> Vec<Measured> {
    let on = |name, items: Vec<Vec<u8>>, saved, pixels| accepted(name, [8, 8], items, 0, saved, pixels);
    let points = [1.5, 1.5, 3.5, 1.5, 3.5, 4.5, 6.5, 4.5];
    let of = |m: usize| chain(&points[..2 * m], 1.0, RED);
    let lines = vec![line([1.5, 1.5, 3.5, 1.5], 1.0, RED), line([3.5, 1.5, 3.5, 4.5], 1.0, RED)];
    let past = chain(&[-10.0, -10.0, 20.0, -10.0, 20.0, 20.0], 1.0, RED);
    vec![
        on("chain_of_0_points", vec![of(0)], 0, 0),
        on("chain_of_1_point", vec![of(1)], 0, 0),
        on("chain_of_2_points", vec![of(2)], 0, 15),
        on("chain_of_3_points", vec![of(3)], 0, 30),
        on("its_lines_as_items", lines, 0, 15 + 18),
        on("chain_of_4_points", vec![of(4)], 0, 48),
        on("chain_of_64_points", vec![chain(&rows(64), 1.0, RED)], 0, 64),
        on("chain_of_alpha_0", vec![chain(&points[..6], 1.0, CLEAR)], 0, 30),
        on("chain_under_a_clip", vec![push(1.0, 1.0, 3.0, 3.0), of(3)], 1, 9),
        // Of columns 0 and 1 below row 2 no line reaches a pixel.
        on("chain_beside_its_lines", vec![push(0.0, 3.0, 2.0, 5.0), of(3)], 1, 6),
        on("chain_under_an_empty_clip", vec![push(1.0, 1.0, 0.0, 3.0), of(4)], 1, 0),
        on("chain_around_the_canvas", vec![past], 0, 64),
    ]
}

/// Sheets refused at the last item, after a clip, a polygon and a fill, or after 16 clips.
fn refused_late() -> Vec<Measured> {
    let last = |item: Vec<u8>| made(8, 8, vec![push(0.0, 0.0, 4.0, 4.0), square(), whole(), item]).bytes();
    let pushes = [vec![push(0.0, 0.0, 4.0, 4.0); 16], vec![square(), push(0.0, 0.0, 4.0, 4.0)]].concat();
    vec![
        refused("last_of_kind_9", last(vec![9, 0, 0, 0]), 4, 4),
        refused("last_of_65_points", last(polygon(&[0.5; 130], RED)), 13, 4),
        refused("last_chain_of_65_points", last(chain(&[0.5; 130], 1.0, RED)), 13, 4),
        refused("last_byte_3", last(with(pop(), 3, 1)), 5, 4),
        refused("last_x_8193", last(fill(8193.0, 0.0, 1.0, 1.0, RED)), 6, 4),
        refused("last_push_of_17", made(8, 8, pushes).bytes(), 7, 18),
    ]
}

/// Every sheet of `fixed` that its own checks refuse.
fn refused_paintings() -> Vec<Measured> {
    let own = alone().into_iter().filter(|p| ![0, 8, 9].contains(&p.number));
    own.map(|p| refused(p.name, p.sheet, p.number, p.item)).collect()
}

/// The most fills, each of the whole of the largest canvas: one pixel more than 32 bits count.
fn most_pixels() -> Measured {
    let side = MOST_SIDE as f32;
    accepted("most_pixels", [2048, 2048], vec![fill(0.0, 0.0, side, side, RED); MOST_ITEMS], 0, 0, 4_294_967_296)
}

pub fn rooms() -> Vec<Measured> {
    [depths(), clips(), shapes(), polygons(), chains(), refused_late(), refused_paintings(), vec![most_pixels()]].into_iter().flatten().collect()
}

/// Holds the measuring to these numbers before anything is compared with it.
pub fn check(rooms: &[Measured]) {
    for m in rooms {
        assert_eq!(measure(&m.sheet), m.room, "{}", m.name);
    }
    for number in [1, 2, 3, 4, 5, 6, 7, 13] {
        assert!(rooms.iter().any(|m| m.room.number == number), "a sheet refused by {number}");
    }
}
