//! The cases of shapes: calls on canvases of up to 64 pixels, alone or in a wider frame, with a clip or without, each with the pixels that the
//! Rust leaves; and calls that documents 01 and 02 refuse, with their number.
use crate::{framed, left, Stored, WORDS};
use answers::{
    frame::{steps, Frame},
    random::{Random, SEED},
    shape::{call, Call, Given, FILL_POLY, NAMES, POLYLINE},
};
use kash::{geom::IRect, gfx::Canvas};

/// Words of a case, those of its call, the place of its number, and the most that it has of coordinates and scratch.
const WIDTH: usize = 102;
const CALL: usize = 30;
const NUMBER: usize = 100;
const COORDS: usize = 12;
const SCRATCH: usize = 4096;

const SIDES: [[i32; 2]; 8] = [[1, 1], [8, 8], [16, 4], [4, 16], [10, 6], [7, 9], [64, 1], [1, 64]];

/// Cases of each shape: accepted ones, then refused ones.
const ACCEPTED: usize = 95;
const REFUSED: usize = 18;

/// A canvas that a case can hold, with its frame.
fn canvas(random: &mut Random) -> (Canvas, Frame) {
    let [w, h] = random.of(&SIDES);
    let mut canvas = Canvas::new(w, h);
    if random.below(3) == 0 {
        let mut end = |side: i32| random.below(side as u32 + 2) as i32;
        canvas.push_clip_i(IRect::new(end(w / 2) - 1, end(h / 2) - 1, end(w), end(h)));
    }
    (canvas, framed(w as usize, h as usize, random))
}

/// The count of px, and the base and step in which they run before a call.
fn lent(n: usize, random: &mut Random) -> [u32; 3] {
    [n as u32, random.word(), random.word() | 1]
}

/// The case of a call's words, of the px lent, and of what it leaves and returns: words of scratch that are +0, px, number and steps.
fn case(words: Vec<u32>, lent: [u32; 3], swept: usize, left: Vec<u32>, [number, steps]: [u32; 2]) -> Vec<u32> {
    let mut case = words;
    case.resize(CALL, 0);
    case.extend(lent);
    case.push(swept as u32);
    case.extend(left);
    case.resize(NUMBER, 0);
    case.extend([number, steps]);
    case
}

/// A call of shape f that a case can hold.
fn accepted(f: u32, random: &mut Random) -> Vec<u32> {
    let (mut canvas, frame) = canvas(random);
    let [n, base, step] = lent(frame.words(), random);
    canvas.px = frame.rows(&steps(frame.words(), base, step));
    let call = loop {
        let made = call(f, random, [canvas.w, canvas.h], 6);
        if made.coords.len() <= COORDS && made.need() <= SCRATCH {
            break made;
        }
    };
    let words = call.words(&canvas, frame.pitch);
    let steps = call.counted(&mut canvas).steps;
    case(words, [n, base, step], call.need(), left(Some((frame, &canvas.px))), [0, steps as u32])
}

/// A polygon that needs more scratch than a case lends, and paints.
fn wide_polygon(random: &mut Random, sides: [i32; 2]) -> Call {
    loop {
        let mut made = call(FILL_POLY, random, sides, 6);
        made.coords = (0..6).map(|_| random.within(-90.0, 900.0)).collect();
        if made.need() > SCRATCH {
            return made;
        }
    }
}

/// A call of shape f that is refused, by one thing wrong or by two; through 65 points where `many`.
fn refused(f: u32, random: &mut Random, many: bool) -> Vec<u32> {
    loop {
        let (canvas, frame) = canvas(random);
        let sides = [canvas.w, canvas.h];
        let mut given = Given { sides, pitch: frame.pitch, clip: canvas.clip(), px: frame.words(), scratch: SCRATCH };
        let mut made = if f == FILL_POLY && random.below(4) == 0 { wide_polygon(random, sides) } else { call(f, random, sides, 6) };
        if many {
            made.coords.resize(130, 1.0);
        } else {
            (0..random.below(3)).for_each(|_| made.spoil(&mut given, random));
        }
        given.scratch = SCRATCH;
        let number = made.number(&given);
        if number == 0 || given.px > WORDS || made.coords.len() > COORDS && number != 13 {
            continue;
        }
        let mut words = made.words_on(given.sides, given.pitch, given.clip);
        words.truncate(CALL);
        return case(words, lent(given.px, random), 0, left(None), [number, 0]);
    }
}

/// The numbers that a shape can return, each of which stands in its cases.
fn numbers(f: u32) -> Vec<u32> {
    match f {
        FILL_POLY => vec![6, 8, 9, 12, 13, 15],
        POLYLINE => vec![6, 8, 12, 13, 15],
        _ => vec![6, 8, 12, 15],
    }
}

pub fn stored() -> Stored {
    let mut random = Random(SEED + 7);
    let mut cases: Vec<Vec<u32>> = vec![];
    for f in 1..=NAMES.len() as u32 {
        cases.extend((0..ACCEPTED).map(|_| accepted(f, &mut random)));
        let from = cases.len();
        let by_points = f == POLYLINE || f == FILL_POLY;
        cases.extend((0..REFUSED).map(|i| refused(f, &mut random, by_points && i == 0)));
        for number in numbers(f) {
            assert!(cases[from..].iter().any(|case| case[NUMBER] == number), "shape {f} has no case of {number}");
        }
    }
    Stored { functions: 1..=NAMES.len() as u32, width: WIDTH, cases }
}
