//! The cases of coverage, distance and paints: document 01's examples, edges, and points of a canvas's size.
use crate::Stored;
use answers::{
    paint::{answer, NAMES},
    random::{Random, SEED},
};

const COV8: u32 = 1;
const RRECT_SD: u32 = 2;

const EDGES: [f32; 16] = [
    0.0, -0.0, 0.5, -0.5, 1.0, 0.001, -0.001, 1.0e-45, 8192.0, -8192.0, 1.0e20, f32::MAX, f32::MIN, f32::INFINITY, f32::NEG_INFINITY, f32::NAN,
];

/// Document 01's starred coverages.
const STARRED: [(f32, u32); 4] = [(0.0, 128), (0.5, 0), (-0.5, 255), (f32::NAN, 0)];

/// Any float: an edge, any pattern, or a place on a canvas, at a pixel's centre or not.
fn float(random: &mut Random) -> u32 {
    match random.below(8) {
        0 => random.of(&EDGES).to_bits(),
        1 => random.word(),
        2..=4 => (random.within(0.0, 200.0).floor() + 0.5).to_bits(),
        _ => random.within(-100.0, 300.0).to_bits(),
    }
}

pub fn stored() -> Stored {
    let mut random = Random(SEED + 6);
    let mut cases = vec![];
    let mut add = |f: u32, words: [u32; 8]| {
        let mut case = vec![f];
        case.extend(words);
        case.push(answer(f, words));
        cases.push(case);
    };
    for (d, want) in STARRED {
        assert_eq!(answer(COV8, [d.to_bits(), 0, 0, 0, 0, 0, 0, 0]), want);
        add(COV8, [d.to_bits(), 0, 0, 0, 0, 0, 0, 0]);
    }
    for i in 0..1000 {
        let d = if i < 16 { EDGES[i] } else { random.within(-0.6, 0.6) };
        add(COV8, [d.to_bits(), 0, 0, 0, 0, 0, 0, 0]);
    }
    for f in RRECT_SD..=NAMES.len() as u32 {
        for _ in 0..if f == 3 { 100 } else { 2000 } {
            let mut words: [u32; 8] = core::array::from_fn(|_| float(&mut random));
            if f > RRECT_SD {
                (words[4], words[5]) = (random.word(), random.word());
            }
            add(f, words);
        }
    }
    Stored { functions: 1..=NAMES.len() as u32, width: 10, cases }
}
