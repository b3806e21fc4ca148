//! The cases of geom: document 01's example, extreme floats and integers, and numbers of a canvas's size; the rectangle of zeros.
use crate::Stored;
use answers::{
    geom::{answer, BOXES, NAMES, ZERO},
    random::{Random, SEED},
};

const EDGES: [f32; 20] = [
    0.0, -0.0, 1.0e-45, -1.0e-45, 0.5, -0.5, 1.0, -1.0, 0.99999994, 8192.0, -8192.0, 16777216.0, 2147483520.0, 2147483648.0, -2147483648.0,
    f32::MAX, f32::MIN, f32::INFINITY, f32::NEG_INFINITY, f32::NAN,
];

const ENDS: [i32; 9] = [0, 1, -1, 4, 2048, 8192, -8192, i32::MAX, i32::MIN];

/// Any float: an edge, any pattern, or a number of a canvas's size, whole or not.
fn float(random: &mut Random) -> u32 {
    match random.below(4) {
        0 => random.of(&EDGES).to_bits(),
        1 => random.word(),
        2 => random.within(-8192.0, 8192.0).to_bits(),
        _ => random.within(-40.0, 40.0).floor().to_bits(),
    }
}

/// Any integer: an end, any pattern, or a small number.
fn integer(random: &mut Random) -> u32 {
    match random.below(3) {
        0 => random.of(&ENDS) as u32,
        1 => random.word(),
        _ => random.below(40).wrapping_sub(20),
    }
}

pub fn stored() -> Stored {
    let mut random = Random(SEED + 2);
    let mut cases = vec![];
    let mut add = |f: u32, words: [u32; 8]| {
        let mut case = vec![f];
        case.extend(words);
        case.extend(answer(f, &words));
        cases.push(case);
    };
    let example = [0, 0, 4, 4, 6, 1, 9, 3];
    assert_eq!(answer(BOXES, &example), [6, 1, 6, 3]);
    add(BOXES, example);
    for f in 1..ZERO {
        for x in EDGES {
            for w in EDGES {
                if f == 10 {
                    add(f, [x, -0.0, w, 0.5, 0.0, 0.0, 0.0, 0.0].map(f32::to_bits));
                }
            }
        }
        for _ in 0..580 {
            add(f, core::array::from_fn(|_| if f < BOXES { float(&mut random) } else { integer(&mut random) }));
        }
    }
    add(ZERO, [0; 8]);
    Stored { functions: 1..=NAMES.len() as u32, width: 13, cases }
}
