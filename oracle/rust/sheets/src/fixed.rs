//! The sheets and patches that document 01 gives as examples, the largest of their kinds, and the edges of requests 2026-01, 2026-04, 2026-07
//! and 2026-09.
use crate::{
    fixed_ceilings, fixed_chains, fixed_clips, fixed_counts, fixed_frames, half,
    make::{bytes, pop},
    Made, LONGEST,
};

/// A painting: sheet, pitch, px and scratch words lent, and the number and item that the documents give.
pub struct Painting {
    pub name: &'static str,
    pub sheet: Vec<u8>,
    pub pitch: usize,
    pub px: usize,
    pub scratch: usize,
    pub number: u32,
    pub item: u32,
}

/// The width that the bytes of a sheet say: the pitch of a canvas alone.
pub fn width(sheet: &[u8]) -> usize {
    if sheet.len() < 2 { 0 } else { half(sheet, 0) }
}

fn solid(rgba: [u8; 4]) -> Vec<u8> {
    [&[0; 4], &rgba[..], &[0; 20]].concat()
}

pub const RED: [u8; 4] = [255, 0, 0, 255];

pub fn fill(x: f32, y: f32, w: f32, h: f32, rgba: [u8; 4]) -> Vec<u8> {
    [bytes([3, 0, 0, 0], &[x, y, w, h, 0.0]), solid(rgba)].concat()
}

pub fn push(x: f32, y: f32, w: f32, h: f32) -> Vec<u8> {
    bytes([1, 0, 0, 0], &[x, y, w, h])
}

pub fn polygon(points: &[f32], rgba: [u8; 4]) -> Vec<u8> {
    let [low, high] = (points.len() as u16 / 2).to_le_bytes();
    [vec![6, 0, low, high], solid(rgba), bytes([0; 4], points)[4..].to_vec()].concat()
}

pub fn made(w: u16, h: u16, items: Vec<Vec<u8>>) -> Made {
    Made { w, h, ground: [0; 3], items }
}

/// Document 01's sheet of `paintsheet`, its fill at column x.
pub fn red(x: f32) -> Vec<u8> {
    made(4, 1, vec![fill(x, 0.0, 1.0, 1.0, RED)]).bytes()
}

pub fn with(mut sheet: Vec<u8>, at: usize, value: u8) -> Vec<u8> {
    sheet[at] = value;
    sheet
}

/// A square of 2 as a polygon.
pub fn square() -> Vec<u8> {
    polygon(&[0.0, 0.0, 2.0, 0.0, 2.0, 2.0, 0.0, 2.0], RED)
}

/// Canvases alone: each pitch is the width.
pub fn alone() -> Vec<Painting> {
    let mut all = vec![];
    let mut add = |name, sheet: Vec<u8>, px, scratch, number, item| {
        all.push(Painting { name, pitch: width(&sheet), sheet, px, scratch, number, item });
    };
    let white = [255; 4];
    add("red", red(0.0), 4, 0, 0, 0);
    add("half_covered", made(2, 1, vec![fill(0.5, 0.0, 1.0, 1.0, white)]).bytes(), 2, 0, 0, 0);
    add("empty", made(1, 1, vec![]).bytes(), 1, 0, 0, 0);
    add("eleven_bytes", red(0.0)[..11].to_vec(), 4, 0, 1, 0);
    add("no_bytes", vec![], 0, 0, 1, 0);
    add("no_width", with(red(0.0), 0, 0), 4, 0, 2, 0);
    add("first_offset_17", with(red(0.0), 12, 17), 4, 0, 3, 0);
    add("kind_9", with(red(0.0), 16, 9), 4, 0, 4, 1);
    add("byte_3", with(red(0.0), 19, 1), 4, 0, 5, 1);
    add("x_8193", made(4, 1, vec![pop(), fill(8193.0, 0.0, 1.0, 1.0, RED)]).bytes(), 4, 0, 6, 2);
    add("push_16", made(4, 1, vec![push(0.0, 0.0, 4.0, 1.0); 16]).bytes(), 4, 0, 0, 0);
    add("push_17", made(4, 1, vec![push(0.0, 0.0, 4.0, 1.0); 17]).bytes(), 4, 0, 7, 17);
    add("px_3", red(0.0), 3, 0, 8, 0);
    add("square_unlent", made(4, 4, vec![square()]).bytes(), 16, 0, 9, 0);
    add("square", made(4, 4, vec![square()]).bytes(), 16, 26, 0, 0);
    add("points_64", made(4, 1, vec![polygon(&[0.5; 128], RED)]).bytes(), 4, 17, 0, 0);
    add("points_65", made(4, 1, vec![polygon(&[0.5; 130], RED)]).bytes(), 4, 17, 13, 1);
    let triangle = |x: f32| made(4, 4, vec![polygon(&[-1994.0, 0.0, x, 0.0, x, 1998.0], RED)]).bytes();
    add("cells_4000000", triangle(4.0), 16, 4_004_002, 0, 0);
    add("cells_4000000_short", triangle(4.0), 16, 4_004_001, 9, 0);
    add("cells_4002000", triangle(4.5), 16, 0, 0, 0);
    // A canvas of 2,048 a side; the longest sheet, one byte more, and the most items.
    let far = fill(-8192.0, -8192.0, 8192.0 * 2.0 - 8192.0, 8192.0, white);
    let round = [bytes([3, 0, 0, 0], &[1.5, 2.5, 2040.25, 2039.75, 700.0]), solid([9, 200, 30, 128])].concat();
    add("largest", made(2048, 2048, vec![far, round, square()]).bytes(), 2048 * 2048, 26, 0, 0);
    let mut items = vec![polygon(&[0.5; 128], RED); 108];
    items.push(polygon(&[], RED));
    items.extend(vec![pop(); 96]);
    let long = made(4, 1, items).bytes();
    assert_eq!(long.len(), LONGEST);
    let pops = |n: usize| made(4, 1, vec![pop(); n]).bytes();
    add("long", long.clone(), 4, 100, 0, 0);
    add("too_long", [long, vec![0]].concat(), 4, 100, 1, 0);
    add("items_1024", pops(1024), 4, 0, 0, 0);
    add("items_1025", pops(1025), 4, 0, 2, 0);
    all.extend(fixed_chains::paintings());
    all
}

pub fn paintings() -> Vec<Painting> {
    alone().into_iter().chain(fixed_frames::paintings()).collect()
}

/// A patch: old and new sheet, pitch, px and scratch words lent, number, item and box.
pub struct Patch {
    pub old: Vec<u8>,
    pub new: Vec<u8>,
    pub pitch: usize,
    pub px: usize,
    pub scratch: usize,
    pub number: u32,
    pub item: u32,
    pub area: [i32; 4],
}

fn examples() -> Vec<Patch> {
    let mut all = vec![];
    let mut add = |old: Vec<u8>, new: Vec<u8>, px, scratch, number, item, area| {
        all.push(Patch { pitch: width(&new), old, new, px, scratch, number, item, area });
    };
    let two = |a: f32, b: f32| made(4, 1, vec![fill(a, 0.0, 1.0, 1.0, RED), fill(b, 0.0, 1.0, 1.0, RED)]).bytes();
    let clipped = |x: f32| made(4, 1, vec![push(x, 0.0, 2.0, 1.0), fill(0.0, 0.0, 4.0, 1.0, RED)]).bytes();
    let squared = |x: f32| made(4, 4, vec![square(), fill(x, 0.0, 1.0, 1.0, RED)]).bytes();
    add(red(0.0), red(2.0), 4, 0, 0, 0, [0, 0, 3, 1]);
    add(red(0.0), red(0.0), 4, 0, 0, 0, [0; 4]);
    add(red(-9.0), red(9.0), 4, 0, 0, 0, [0; 4]);
    add(red(-9.0), red(3.0), 4, 0, 0, 0, [3, 0, 4, 1]);
    add(two(0.0, 1.0), two(2.0, 3.0), 4, 0, 0, 0, [0, 0, 4, 1]);
    add(two(0.0, 9.0), two(-9.0, 1.0), 4, 0, 0, 0, [0, 0, 2, 1]);
    add(red(0.0), two(0.0, 1.0), 4, 0, 10, 0, [0; 4]);
    add(clipped(0.0), clipped(1.0), 4, 0, 10, 0, [0; 4]);
    add(red(0.0), with(red(0.0), 4, 1), 4, 0, 10, 0, [0; 4]);
    add(red(0.0), with(red(0.0), 0, 5), 4, 0, 10, 0, [0; 4]);
    add(with(red(0.0), 16, 9), red(0.0)[..11].to_vec(), 4, 0, 4, 1, [0; 4]);
    add(red(0.0), red(0.0)[..11].to_vec(), 4, 0, 1, 0, [0; 4]);
    add(red(0.0), red(8193.0), 3, 0, 6, 1, [0; 4]);
    add(red(0.0), red(1.0), 3, 0, 8, 0, [0; 4]);
    add(squared(0.0), squared(2.0), 16, 25, 9, 0, [0; 4]);
    add(squared(0.0), squared(2.0), 16, 26, 0, 0, [0, 0, 3, 1]);
    add(squared(0.0), squared(0.0), 16, 25, 9, 0, [0; 4]);
    add(squared(0.0), squared(0.0), 16, 30, 0, 0, [0; 4]);
    // Two shapes change places; a shape grows, so that the one after it stands at another offset and does not differ.
    let green = [0, 255, 0, 255];
    let [under, upper] = [fill(0.0, 0.0, 2.0, 1.0, RED), fill(1.0, 0.0, 2.0, 1.0, green)];
    add(made(4, 1, vec![under.clone(), upper.clone()]).bytes(), made(4, 1, vec![upper, under]).bytes(), 4, 0, 0, 0, [0, 0, 3, 1]);
    let after = |first: Vec<u8>| made(4, 1, vec![first, fill(3.0, 0.0, 1.0, 1.0, RED)]).bytes();
    add(after(polygon(&[], RED)), after(fill(0.0, 0.0, 1.0, 1.0, RED)), 4, 0, 0, 0, [0, 0, 1, 1]);
    // 32 shapes may differ, 33 may not; a push that differs is 10, wherever it stands.
    let many = |n: usize, x: f32, clip: f32| {
        let shapes = vec![fill(x, 0.0, 1.0, 1.0, RED); n];
        made(4, 1, [shapes, vec![push(clip, 0.0, 2.0, 1.0)]].concat()).bytes()
    };
    add(many(32, 0.0, 0.0), many(32, 2.0, 0.0), 4, 0, 0, 0, [0, 0, 3, 1]);
    add(many(33, 0.0, 0.0), many(33, 2.0, 0.0), 4, 0, 14, 0, [0; 4]);
    add(many(33, 0.0, 0.0), many(33, 2.0, 1.0), 4, 0, 10, 0, [0; 4]);
    add(many(33, 0.0, 0.0), many(33, 2.0, 0.0), 3, 0, 14, 0, [0; 4]);
    let triangle = |x: f32| made(4, 4, vec![polygon(&[-1994.0, 1.0, x, 1.0, x, 1999.0], RED)]).bytes();
    add(triangle(4.5), triangle(5.0), 16, 0, 0, 0, [0; 4]);
    all
}

/// Those of document 01 and request 2026-01, and the edges of the requests after it, with number, item and box.
pub fn patches() -> Vec<Patch> {
    [examples(), fixed_chains::patches(), fixed_clips::patches(), fixed_frames::patches()].into_iter().flatten().collect()
}

/// Holds the reading to document 01's examples before anything is compared with it.
pub fn check() {
    for p in paintings() {
        let e = crate::paint(&p.sheet, p.pitch, p.px, p.scratch);
        assert_eq!((e.number, e.item), (p.number, p.item), "{}", p.name);
    }
    for (i, p) in patches().iter().enumerate() {
        let e = crate::patch(&p.old, &p.new, p.pitch, p.px, p.scratch);
        assert_eq!((e.number, e.item, [e.area.x0, e.area.y0, e.area.x1, e.area.y1]), (p.number, p.item, p.area), "patch {i}");
    }
    assert_eq!(painted(&paintings()[0]), [0x00ff_0000, 0, 0, 0]);
    assert_eq!(painted(&paintings()[1]), [0x0080_8080; 2]);
    let patched = crate::patch(&red(0.0), &red(2.0), 4, 4, 0).on(&[0x00ff_0000, 0, 0, 0]);
    assert_eq!(patched.px, [0, 0, 0x00ff_0000, 0]);
    fixed_chains::check();
    fixed_counts::check();
    fixed_ceilings::check();
    fixed_clips::check();
    fixed_frames::check();
}

/// The pixels that a painting leaves, all bits set before it.
pub fn painted(p: &Painting) -> Vec<u32> {
    crate::paint(&p.sheet, p.pitch, p.px, p.scratch).on(&vec![0xffff_ffff; p.px]).px
}
