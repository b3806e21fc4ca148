//! Edges of change request 2026-06: patches with what they count and their ceilings, worked out by hand from its words; those under a clip by
//! 2026-09's.
use crate::{
    called,
    fixed::{fill, made, polygon, push, RED},
    fixed_chains::{chain, rows, HALF},
    fixed_counts::{counts, Count, WHITE},
    make::{bytes, pop},
    Answer, Ceiling, Sheet,
};

pub const GREEN: [u8; 4] = [0, 255, 0, 255];

/// A patch on a canvas of w columns and h rows. No pixel has the ground's value before it, so that the ground alters the whole area.
pub fn patch(name: &'static str, [w, h]: [u16; 2], items: [Vec<Vec<u8>>; 2], steps: u64, [meeting, area]: [u64; 2]) -> Count {
    let [old, new] = items.map(|items| made(w, h, items).bytes());
    let before = vec![7; w as usize * h as usize];
    Count { name, old: Some(old), new, pitch: w as usize, before, steps, grounded: area, ceiling: Some(Ceiling { meeting, area }) }
}

/// Patches of fills; mostly the last one gets another colour, so that the box is its reach.
fn fills() -> Vec<Count> {
    // Both alter each of 3 × 2 pixels: the count is the ceiling.
    let both = |rgba| vec![fill(0.0, 0.0, 3.0, 2.0, WHITE), fill(0.0, 0.0, 3.0, 2.0, rgba)];
    // Beside the box 1,1,3,3, and at a corner of it.
    let sides = [[0.0, 1.0, 1.0, 2.0], [3.0, 1.0, 1.0, 2.0], [1.0, 0.0, 2.0, 1.0], [1.0, 3.0, 2.0, 1.0], [0.0, 0.0, 1.0, 1.0]];
    let touching = |rgba| {
        let beside = sides.map(|[x, y, w, h]| fill(x, y, w, h, RED));
        [&beside[..], &[fill(1.0, 1.0, 2.0, 2.0, rgba)]].concat()
    };
    // The clip leaves column 0, so that the first fill, in column 2, does not count; without the pop the box is empty, and none counts.
    let hidden = |rgba| vec![push(0.0, 0.0, 1.0, 1.0), fill(2.0, 0.0, 1.0, 1.0, RED), pop(), fill(2.0, 0.0, 1.0, 1.0, rgba)];
    let both_hidden = |rgba| vec![push(0.0, 0.0, 1.0, 1.0), fill(2.0, 0.0, 1.0, 1.0, RED), fill(2.0, 0.0, 1.0, 1.0, rgba)];
    // Three fills, each in column 0 or off the canvas.
    let three = |[a, b, c]: [f32; 3]| vec![fill(a, 0.0, 1.0, 1.0, RED), fill(b, 0.0, 1.0, 1.0, WHITE), fill(c, 0.0, 1.0, 1.0, GREEN)];
    let [one, two] = [[0.0, 9.0, -9.0], [9.0, 0.0, 0.0]];
    vec![
        patch("both_alter_all", [4, 3], [RED, GREEN].map(both), 12, [2, 6]),
        patch("touching", [4, 4], [RED, GREEN].map(touching), 4, [1, 4]),
        patch("hidden_by_a_clip", [4, 1], [RED, GREEN].map(hidden), 1, [1, 1]),
        patch("both_hidden_by_a_clip", [4, 1], [RED, GREEN].map(both_hidden), 0, [0, 0]),
        patch("one_gone_two_come", [4, 1], [one, two].map(three), 2, [2, 1]),
        patch("two_gone_one_come", [4, 1], [two, one].map(three), 1, [1, 1]),
    ]
}

/// Patches with chains, whose lines at width 1 reach 1.5 past their ends, and with shapes of which no reach is left.
fn chains() -> Vec<Count> {
    // Lines from column 0 to 1, 1 to 5 and 5 to 7 reach columns -1 to 2, 0 to 6 and 4 to 8. A fill goes from column 6 to 7: of the box
    // 6,0,8,1 the second line reaches a pixel and alters none, the third alters both, the fill one.
    let beside = |x| vec![chain(&[0.5, 0.5, 1.5, 0.5, 5.5, 0.5, 7.5, 0.5], 1.0, HALF), fill(x, 0.0, 1.0, 1.0, RED)];
    // Lines that reach 0,0,3,8 and 0,5,8,8: around both stands the whole canvas, but neither meets the box 5,1,7,2.
    let in_the_bend = |x| vec![chain(&[1.5, 1.5, 1.5, 6.5, 6.5, 6.5], 1.0, HALF), fill(x, 1.0, 1.0, 1.0, RED)];
    // A fill of columns 1 and 2 under a line over all four, and back: each alters both.
    let there_and_back = |rgba| vec![fill(1.0, 0.0, 2.0, 1.0, rgba), chain(&[0.5, 0.5, 3.5, 0.5, 0.5, 0.5], 1.0, HALF)];
    // 63 lines over two pixels each, on a fill of all 64.
    let all_over = |rgba| vec![fill(0.0, 0.0, 8.0, 8.0, rgba), chain(&rows(64), 1.0, HALF)];
    let trace = |points: &[f32], width| chain(points, width, RED);
    // No columns, two points, one point, a width that leaves nothing of a level line; alpha 0; no blur.
    let none = fill(1.0, 0.0, 0.0, 1.0, RED);
    let stroke = [bytes([4, 0, 0, 0], &[0.0, 0.0, 4.0, 1.0, 0.0, 1.0]), vec![255, 0, 0, 0]].concat();
    let shadow = [bytes([7, 0, 0, 0], &[0.0, 0.0, 4.0, 1.0, 0.0, 0.0]), RED.to_vec()].concat();
    let few = [none, polygon(&[0.0, 0.0, 4.0, 1.0], RED), trace(&[1.5, 0.5], 1.0), trace(&[0.5, 0.5, 3.5, 0.5], -3.0), stroke, shadow];
    let no_reach = |rgba| [&few[..], &[fill(0.0, 0.0, 4.0, 1.0, rgba)]].concat();
    // A chain of one point, or of none, differs without a reach.
    let no_box = |points: &[f32]| vec![fill(0.0, 0.0, 4.0, 1.0, RED), trace(points, 1.0)];
    vec![
        patch("some_lines_meet", [8, 1], [6.0, 7.0].map(beside), 2 + 1, [2 + 1, 2]),
        patch("in_the_bend", [8, 8], [5.0, 6.0].map(in_the_bend), 1, [1, 2]),
        patch("each_line_alters_all", [4, 1], [GREEN, WHITE].map(there_and_back), 2 + 2 + 2, [1 + 2, 2]),
        patch("a_fill_under_63_lines", [8, 8], [GREEN, WHITE].map(all_over), 64 + 126, [1 + 63, 64]),
        patch("no_reach", [4, 1], [GREEN, WHITE].map(no_reach), 4, [1, 4]),
        patch("no_box", [4, 1], [no_box(&[1.5, 0.5]), no_box(&[])], 0, [0, 0]),
    ]
}

pub fn patches() -> Vec<Count> {
    [fills(), chains()].into_iter().flatten().collect()
}

/// Holds the reading to the ceilings of calls, and the ceilings to one more than they allow, before any patch is held to them.
pub fn check() {
    for count in counts() {
        let Some(ceiling) = count.ceiling else { continue };
        let answer = called(count.old.as_deref(), &count.new, count.pitch, count.before.len(), 0).on(&count.before).answer;
        let sheet = Sheet::read(&count.new).expect("a sound sheet");
        assert_eq!(Ceiling::of(&sheet, answer.reported()), ceiling, "{}", count.name);
        assert_eq!(ceiling.fault(&answer), None, "{}", count.name);
        let (steps, grounded) = (ceiling.steps() + 1, ceiling.area + 1);
        assert!(ceiling.fault(&Answer { steps, ..answer }).is_some(), "{}, a step more", count.name);
        assert!(ceiling.fault(&Answer { grounded, ..answer }).is_some(), "{}, a grounded pixel more", count.name);
    }
}
