//! Edges of change request 2026-09: patches of shapes under clips, with their boxes, counts and ceilings worked out by hand from its words.
use crate::{
    boxes::{fault, unclipped, wrong, WRONG},
    fixed::{fill, made, push, square, Patch, RED},
    fixed_ceilings::{patch, GREEN},
    fixed_chains::{chain, HALF},
    fixed_counts::{Count, WHITE},
    fixed_rooms::{line, shadow, stroke},
    item::EMPTY,
    make::pop,
    Sheet,
};
use kash::geom::IRect;

/// A patch on 8 × 8 without scratch: the items of both sheets, its box, and what that was before the request; the steps, and M.
struct Cut {
    name: &'static str,
    items: [Vec<Vec<u8>>; 2],
    area: [i32; 4],
    before: [i32; 4],
    steps: u64,
    meeting: u64,
}

const WHOLE: [f32; 4] = [0.0, 0.0, 8.0, 8.0];
const ALL: [i32; 4] = [0, 0, 8, 8];
const NONE: [i32; 4] = [0; 4];

fn pixels([x0, y0, x1, y1]: [i32; 4]) -> u64 {
    ((x1 - x0) * (y1 - y0)) as u64
}

fn filled([x, y, w, h]: [f32; 4], rgba: [u8; 4]) -> Vec<u8> {
    fill(x, y, w, h, rgba)
}

/// Column 2; columns 2 to 4 and rows 1 to 4; columns 4 to 7 and rows 0 to 2.
fn column() -> Vec<u8> {
    push(2.0, 0.0, 1.0, 8.0)
}

fn outer() -> Vec<u8> {
    push(2.0, 1.0, 3.0, 4.0)
}

fn inner() -> Vec<u8> {
    push(4.0, 0.0, 4.0, 3.0)
}

/// A fill at whole pixels that turns from red to green after pushes and pops: it alters each pixel of the box, and nothing else does.
fn fill_under(name: &'static str, clips: Vec<Vec<u8>>, rect: [f32; 4], area: [i32; 4]) -> Cut {
    let items = [RED, GREEN].map(|rgba| [&clips[..], &[filled(rect, rgba)]].concat());
    let [x, y, w, h] = rect.map(|z| z as i32);
    let before = [x.max(0), y.max(0), (x + w).min(8), (y + h).min(8)];
    Cut { name, items, area, before, steps: pixels(area), meeting: (pixels(area) > 0) as u64 }
}

/// Fills under clips that leave something of them.
fn seen() -> Vec<Cut> {
    let (small, kept) = ([1.0, 1.0, 3.0, 3.0], [1, 1, 4, 4]);
    let last = |n: usize, clip: Vec<u8>| [vec![push(0.0, 0.0, 8.0, 8.0); n], vec![clip]].concat();
    vec![
        fill_under("in_a_column", vec![column()], WHOLE, [2, 0, 3, 8]),
        fill_under("in_two_rows", vec![push(0.0, 5.0, 8.0, 2.0)], [1.0, 4.0, 3.0, 4.0], [1, 5, 4, 7]),
        fill_under("two_clips", vec![outer(), inner()], WHOLE, [4, 1, 5, 3]),
        fill_under("three_clips", vec![outer(), inner(), push(0.0, 2.0, 8.0, 8.0)], WHOLE, [4, 2, 5, 3]),
        fill_under("popped_to_the_first", vec![outer(), inner(), pop()], WHOLE, [2, 1, 5, 5]),
        fill_under("popped_to_the_canvas", vec![outer(), inner(), pop(), pop()], small, kept),
        fill_under("popped_past_the_first", vec![outer(), pop(), pop()], small, kept),
        fill_under("popped_with_nothing_saved", vec![pop(), pop(), outer()], WHOLE, [2, 1, 5, 5]),
        fill_under("popped_and_pushed", vec![outer(), pop(), inner()], WHOLE, [4, 0, 8, 3]),
        // From 1.5 to 3.5 are columns and rows 1 to 3.
        fill_under("clip_by_halves", vec![push(1.5, 1.5, 2.0, 2.0)], [2.0, 0.0, 5.0, 3.0], [2, 1, 4, 3]),
        fill_under("clip_over_two_edges", vec![push(-4.0, -3.0, 6.0, 6.0)], [1.0, 1.0, 9.0, 9.0], [1, 1, 2, 3]),
        fill_under("clip_over_the_right_edge", vec![push(6.0, 0.0, 9.0, 9.0)], [-3.0, 2.0, 99.0, 1.0], [6, 2, 8, 3]),
        fill_under("clip_past_every_edge", vec![push(-1.0, -1.0, 10.0, 10.0)], small, kept),
        fill_under("clip_just_around", vec![push(1.0, 1.0, 3.0, 3.0)], small, kept),
        // A push of no size lies in one pixel where it lies between whole places.
        fill_under("clip_of_no_size_in_a_pixel", vec![push(3.5, 3.5, 0.0, 0.0)], WHOLE, [3, 3, 4, 4]),
        fill_under("clips_apart_popped", vec![column(), inner(), pop()], WHOLE, [2, 0, 3, 8]),
        fill_under("empty_clip_popped", vec![push(3.0, 3.0, 0.0, 0.0), pop()], small, kept),
        fill_under("the_16th_push", last(15, outer()), WHOLE, [2, 1, 5, 5]),
        fill_under("the_15th_and_the_16th", [last(14, outer()), vec![inner()]].concat(), WHOLE, [4, 1, 5, 3]),
        fill_under("16_pushes_15_pops", [vec![outer()], vec![inner(); 15], vec![pop(); 15]].concat(), WHOLE, [2, 1, 5, 5]),
    ]
}

/// Fills under clips that leave nothing of them.
fn hidden() -> Vec<Cut> {
    let none = |name, clips: Vec<Vec<u8>>| fill_under(name, clips, WHOLE, NONE);
    vec![
        fill_under("beside_the_clip", vec![column()], [3.0, 0.0, 2.0, 2.0], NONE),
        fill_under("far_from_the_clip", vec![column()], [5.0, 5.0, 2.0, 2.0], NONE),
        none("clips_apart", vec![column(), inner()]),
        none("empty_clip", vec![push(3.0, 3.0, 0.0, 0.0)]),
        none("clip_under_an_empty_one", vec![push(3.0, 3.0, 0.0, 0.0), outer()]),
        none("clip_of_no_columns", vec![push(4.0, 0.0, 0.0, 8.0)]),
        none("clip_of_negative_size", vec![push(5.0, 5.0, -3.0, -3.0)]),
        none("clip_off_the_canvas", vec![push(9.0, 9.0, 2.0, 2.0)]),
        none("hidden_by_the_16th_push", [vec![push(0.0, 0.0, 8.0, 8.0); 14], vec![column(), inner()]].concat()),
    ]
}

/// Old and new shape cut otherwise, and several shapes.
fn pairs() -> Vec<Cut> {
    let cut = |name, items, area, before, steps, meeting| Cut { name, items, area, before, steps, meeting };
    // A fill of columns 3 to 5, of which columns 2 and 3 leave one, and one of 5 to 7, of which they leave none.
    let moved = |x: f32| vec![push(2.0, 0.0, 2.0, 8.0), fill(x, 1.0, 3.0, 2.0, RED)];
    // Of columns 2 to 4 the first alone in row 0, then the last alone in rows 5 and 6.
    let across = |rect: [f32; 4]| vec![push(2.0, 0.0, 3.0, 8.0), filled(rect, RED)];
    let across = [[0.0, 0.0, 3.0, 1.0], [4.0, 5.0, 4.0, 2.0]].map(across);
    // A fill of one pixel that no clip cuts, and one of columns 2 to 7, of which column 4 is left.
    let (dot, wide, narrow) = (|rgba| fill(0.0, 0.0, 1.0, 1.0, rgba), |rgba| fill(2.0, 3.0, 6.0, 2.0, rgba), || push(4.0, 0.0, 1.0, 8.0));
    let then_clipped = [RED, GREEN].map(|rgba| vec![dot(rgba), narrow(), wide(rgba)]);
    let then_popped = [RED, GREEN].map(|rgba| vec![narrow(), wide(rgba), pop(), dot(rgba)]);
    // One that the clip hides, and one of columns 1 to 3.
    let one_hidden = [RED, GREEN].map(|rgba| vec![column(), fill(5.0, 0.0, 2.0, 2.0, rgba), fill(1.0, 1.0, 3.0, 1.0, rgba)]);
    let columns = [RED, GREEN].map(|rgba| {
        let at = |x: f32| [push(x, 0.0, 1.0, 8.0), filled(WHOLE, rgba), pop()];
        [at(1.0), at(6.0)].concat()
    });
    vec![
        cut("old_cut_new_hidden", [3.0, 5.0].map(moved), [3, 1, 4, 3], [3, 1, 8, 3], 0, 0),
        cut("old_hidden_new_cut", [5.0, 3.0].map(moved), [3, 1, 4, 3], [3, 1, 8, 3], 2, 1),
        cut("old_and_new_cut_apart", across, [2, 0, 5, 7], [0, 0, 8, 7], 2, 1),
        cut("before_a_push_and_after", then_clipped, [0, 0, 5, 5], [0, 0, 8, 5], 1 + 2, 2),
        cut("before_a_pop_and_after", then_popped, [0, 0, 5, 5], [0, 0, 8, 5], 2 + 1, 2),
        cut("one_hidden_one_cut", one_hidden, [2, 1, 3, 2], [1, 0, 7, 2], 1, 1),
        cut("in_two_columns", columns, [1, 0, 7, 8], ALL, 8 + 8, 2),
        cut("no_difference_under_a_clip", [RED, RED].map(|rgba| vec![column(), filled(WHOLE, rgba)]), NONE, NONE, 0, 0),
    ]
}

/// What M counts beside a shape that differs: a shape under a clip where what is left of its reach meets the box.
fn beside() -> Vec<Cut> {
    let cut = |name, others: Vec<Vec<u8>>, rect: [f32; 4], area: [i32; 4], steps, meeting| {
        let items = [RED, GREEN].map(|rgba| [&[filled(rect, rgba)][..], &others].concat());
        Cut { name, items, area, before: area, steps, meeting }
    };
    let (white, corner, at) = (|| filled(WHOLE, WHITE), [5.0, 0.0, 2.0, 2.0], [5, 0, 7, 2]);
    vec![
        cut("hidden_under_the_box", vec![column(), filled(corner, WHITE)], WHOLE, ALL, 64, 1),
        cut("cut_within_the_box", vec![column(), white()], WHOLE, ALL, 64 + 8, 2),
        cut("cut_beside_the_box", vec![column(), white()], corner, at, 4, 1),
        cut("cut_at_the_box_then_popped", vec![column(), pop(), white()], corner, at, 4 + 4, 2),
        cut("cut_across_the_box", vec![push(6.0, 0.0, 1.0, 8.0), white()], corner, at, 4 + 2, 2),
    ]
}

/// Chains: at width 1 a line down column 1 from row 1 to 6 reaches 0,0,3,8, one along row 6 from column 1 to 6 reaches 0,5,8,8. Around both
/// stands the whole canvas.
fn chains() -> Vec<Cut> {
    let cut = |name, items, area, before, steps, meeting| Cut { name, items, area, before, steps, meeting };
    let bend = [1.5, 1.5, 1.5, 6.5, 6.5, 6.5];
    let under = |clip: [f32; 4], points: &[f32]| {
        let [x, y, w, h] = clip;
        [RED, GREEN].map(|rgba| vec![push(x, y, w, h), chain(points, 1.0, rgba)])
    };
    let panel = |clip: [f32; 4]| {
        let [x, y, w, h] = clip;
        [RED, GREEN].map(|rgba| vec![filled(WHOLE, rgba), push(x, y, w, h), chain(&bend, 1.0, HALF)])
    };
    let (in_the_bend, one_line, both_lines) = ([4.0, 1.0, 3.0, 3.0], [4.0, 4.0, 3.0, 3.0], [2.0, 4.0, 2.0, 4.0]);
    // Columns 0 to 2 have the first line, six pixels of column 1, and of the second the last of these and one more.
    let grown = [&bend[..4], &bend].map(|points| vec![push(0.0, 0.0, 3.0, 8.0), chain(points, 1.0, HALF)]);
    vec![
        cut("chain_around_the_clip", under(in_the_bend, &bend), [4, 1, 7, 4], ALL, 0, 0),
        cut("one_line_in_the_clip", under(one_line, &bend), [4, 4, 7, 7], ALL, 3, 1),
        cut("both_lines_reach_the_clip", under(both_lines, &bend), [2, 4, 4, 8], ALL, 2, 2),
        cut("a_line_that_is_hidden", under([3.0, 0.0, 2.0, 5.0], &bend[..4]), NONE, [0, 0, 3, 8], 0, 0),
        cut("grown_out_of_the_clip", grown, [0, 0, 3, 8], ALL, 6 + 2, 2),
        cut("no_line_within_the_box", panel(in_the_bend), ALL, ALL, 64, 1),
        cut("one_line_within_the_box", panel(one_line), ALL, ALL, 64 + 3, 1 + 1),
        cut("both_lines_within_the_box", panel(both_lines), ALL, ALL, 64 + 2, 1 + 2),
    ]
}

fn cuts() -> Vec<Cut> {
    [seen(), hidden(), pairs(), beside(), chains()].into_iter().flatten().collect()
}

/// Patches in which a shape of each other kind differs under a clip, and what is tested where the box is empty.
fn others() -> Vec<Patch> {
    let mut all = vec![];
    let mut add = |items: [Vec<Vec<u8>>; 2], [pitch, px, scratch]: [usize; 3], number, area| {
        let [old, new] = items.map(|items| made(8, 8, items).bytes());
        all.push(Patch { old, new, pitch, px, scratch, number, item: 0, area });
    };
    let third = |shape: [Vec<u8>; 2]| shape.map(|shape| vec![push(3.0, 0.0, 1.0, 8.0), shape]);
    add(third([RED, GREEN].map(|rgba| stroke([1.0, 1.0, 6.0, 6.0], 1.0, rgba))), [8, 64, 0], 0, [3, 1, 4, 7]);
    add(third([RED, GREEN].map(|rgba| line([1.5, 1.5, 3.5, 1.5], 1.0, rgba))), [8, 64, 0], 0, [3, 0, 4, 3]);
    add(third([RED, GREEN].map(|rgba| shadow(0, 1.0, rgba))), [8, 64, 0], 0, [3, 2, 4, 6]);
    add(third([shadow(0, 1.0, RED), fill(0.0, 7.0, 8.0, 1.0, RED)]), [8, 64, 0], 0, [3, 2, 4, 8]);
    // The polygon of a square of 2 reaches -1,-1,3,3 and needs 26 words, whether it is seen or not.
    let polygon = |clip: Vec<u8>| [vec![clip.clone(), square(), fill(0.0, 0.0, 1.0, 1.0, RED)], vec![clip, fill(0.0, 0.0, 1.0, 1.0, RED), square()]];
    let (seen, unseen) = (|| polygon(column()), || polygon(push(5.0, 5.0, 2.0, 2.0)));
    add(seen(), [8, 64, 26], 0, [2, 0, 3, 3]);
    add(seen(), [8, 64, 25], 9, NONE);
    add(unseen(), [8, 64, 26], 0, NONE);
    add(unseen(), [8, 64, 30], 0, NONE);
    add(unseen(), [8, 64, 25], 9, NONE);
    add(unseen(), [8, 63, 25], 8, NONE);
    add(unseen(), [9, 64, 26], 8, NONE);
    add(unseen(), [7, 63, 25], 15, NONE);
    // Shapes that a clip hides are counted all the same, and pushes that hide them must be equal.
    let many = |n: usize| [RED, GREEN].map(|rgba| [vec![column()], vec![fill(5.0, 5.0, 2.0, 2.0, rgba); n]].concat());
    add(many(32), [8, 64, 0], 0, NONE);
    add(many(33), [8, 64, 0], 14, NONE);
    add([column(), outer()].map(|clip| vec![clip, fill(5.0, 5.0, 2.0, 2.0, RED)]), [8, 64, 0], 10, NONE);
    all
}

/// These patches, in every second of them in rows of 11 words.
pub fn patches() -> Vec<Patch> {
    let of = |(i, cut): (usize, Cut)| {
        let ([old, new], pitch) = (cut.items.map(|items| made(8, 8, items).bytes()), [8, 11][i % 2]);
        Patch { old, new, pitch, px: 8 * pitch, scratch: 0, number: 0, item: 0, area: cut.area }
    };
    cuts().into_iter().enumerate().map(of).chain(others()).collect()
}

pub fn counts() -> Vec<Count> {
    cuts().into_iter().map(|cut| patch(cut.name, [8, 8], cut.items, cut.steps, [cut.meeting, pixels(cut.area)])).collect()
}

fn of([x0, y0, x1, y1]: [i32; 4]) -> IRect {
    IRect::new(x0, y0, x1, y1)
}

/// Holds the box of before the request to these patches, and what a reported box must be to each, which must find wrong ones; each wrong rule must
/// give another box in one of them.
pub fn check() {
    let mut told = [false; WRONG.len()];
    for cut in cuts() {
        let sheets = cut.items.each_ref().map(|items| Sheet::read(&made(8, 8, items.clone()).bytes()).expect("a sound sheet"));
        let (area, before) = (of(cut.area), of(cut.before));
        assert_eq!((unclipped(&sheets), fault(&sheets, area)), (before, None), "{}", cut.name);
        for past in [[1, 0, 0, 0], [0, 1, 0, 0], [0, 0, 1, 0], [0, 0, 0, 1]] {
            let larger = IRect::new(before.x0 - past[0], before.y0 - past[1], before.x1 + past[2], before.y1 + past[3]);
            assert!(fault(&sheets, larger).is_some(), "{}, past {before:?}", cut.name);
        }
        let [old, new] = &cut.items;
        let upto = (0..new.len()).rposition(|i| old[i] != new[i]).unwrap_or(0);
        let pushed = new[..upto].iter().any(|item| item[0] == 1);
        assert_eq!(fault(&sheets, EMPTY).is_some(), !pushed && before != EMPTY, "{}, an empty box", cut.name);
        wrong(&sheets).iter().zip(&mut told).for_each(|(other, told)| *told |= *other != area);
    }
    assert_eq!(told, [true; WRONG.len()], "boxes by {WRONG:?}");
}
