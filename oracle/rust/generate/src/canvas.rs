//! The cases of the canvas: document 01's examples of each number, the edges of change request 2026-07, then a walk from state to state.
use crate::Stored;
use answers::{
    canvas::{Wrong::Nothing, *},
    random::{Random, SEED},
};

/// The calls on a state.
const ON_STATE: [u32; 8] = [RESIZE, PUSH_CLIP, PUSH_CLIP_I, POP_CLIP, CLEAR, GET, BOUNDS, CLIP];

/// A walk, and the calls that it made.
struct Examples {
    walk: Walk,
    cases: Vec<Vec<u32>>,
}

impl Examples {
    /// A call that must return a number.
    fn add(&mut self, f: u32, args: [u32; 4], n: u32, wrong: Wrong, number: u32) {
        let case = self.walk.case(f, args, n, wrong);
        assert_eq!(case[NUMBER], number, "call {f} of {args:?} on {n} words");
        self.cases.push(case);
    }

    /// 12 and 15 for the state of each call: 12 before 15, and that before 8, 6 and 7. The canvas has 4 × 4 pixels.
    fn states(&mut self) {
        let mut outside = self.walk.state();
        outside[CLIP_AT..CLIP_AT + 4].copy_from_slice(&[0, 0, 9, 9]);
        let mut both = outside;
        both[PITCH] = 3;
        for f in ON_STATE {
            self.add(f, [2, 2, 0, 0], 16, Wrong::State(outside), 12);
            self.add(f, [2, 2, 0, 0], 16, Wrong::State(both), 12);
            self.add(f, [2, 2, 0, 0], 12, Wrong::Pitch(3), 15);
            self.add(f, [2, 2, 0, 0], 16, Wrong::Pitch(4097), 15);
        }
        self.add(CLEAR, [0; 4], 0, Wrong::Pitch(3), 15);
        self.add(PUSH_CLIP, [8193.0f32.to_bits(), 0, 0, 0], 16, Wrong::Pitch(3), 15);
        self.add(RESIZE, [2049, 1, 0, 0], 16, Wrong::Pitch(3), 2);
    }

    /// `new` by its sides and its pitch: 2, 15, 8 in this order, for the sides as they are raised.
    fn made(&mut self) {
        let known = [
            ([2049, 1, 2049], 2048, 2),
            ([2049, 1, 0], 0, 2),
            ([4, 1, 3], 3, 15),
            ([4, 1, 3], 0, 15),
            ([4, 1, 4097], 4096, 15),
            ([0, -7, 0], 0, 15),
            ([2048, 1, 2047], 2047, 15),
            ([4, 1, 4], 3, 8),
            ([4, 2, 6], 6 + 4, 8),
            ([4, 2, 6], 8, 8),
            ([0, -7, 1], 1, 0),
            ([2048, 1, 2048], 2048, 0),
            ([2048, 1, 4096], 4096, 0),
            ([3, 1, 4096], 4096, 0),
            ([4, 4, 6], 24, 0),
        ];
        for ([w, h, pitch], n, number) in known {
            self.add(NEW, [w, h, pitch, 0].map(|z: i32| z as u32), n, Nothing, number);
        }
    }

    /// `resize` of a canvas of 4 × 4 whose pitch is 6, which it keeps: 15 for a width above it, and for a pitch below the canvas's own width
    /// although the width wanted is less.
    fn resized(&mut self) {
        let known = [
            ([2049, 1], 2048, 2),
            ([7, 1], 6, 15),
            ([7, 1], 7, 15),
            ([4, 3], 2 * 6 + 4, 8),
            ([4, 3], 12, 8),
            ([4, 4], 23, 8),
            ([4, 4], 24, 0),
            ([6, 2], 12, 0),
            ([0, -7], 6, 0),
            ([5, 3], 18, 0),
        ];
        for ([w, h], n, number) in known {
            self.add(RESIZE, [w, h, 0, 0].map(|z: i32| z as u32), n, Nothing, number);
        }
        self.add(RESIZE, [2, 3, 0, 0], 12, Wrong::Pitch(4), 15);
        self.add(RESIZE, [5, 3, 0, 0], 12, Wrong::Pitch(4), 15);
        self.add(RESIZE, [2, 3, 0, 0], 18, Wrong::Pitch(4097), 15);
    }

    /// Pixels by the pitch, then 8, 6 and, at the 17th push, 7, on a canvas of 4 × 4 whose pitch is 5.
    fn clips(&mut self) {
        self.add(NEW, [4, 4, 5, 0], 20, Nothing, 0);
        self.add(CLEAR, [0xff12_3456, 0, 0, 0], 20, Nothing, 0);
        self.add(CLEAR, [0xff12_3456, 0, 0, 0], 19, Nothing, 8);
        self.add(GET, [3, 3, 0, 0], 20, Nothing, 0);
        self.add(GET, [9, 1, 0, 0], 20, Nothing, 0);
        self.add(GET, [0, 0, 0, 0], 21, Nothing, 8);
        self.add(PUSH_CLIP, [8193.0f32, 0.0, 1.0, 1.0].map(f32::to_bits), 20, Nothing, 6);
        for i in 0..17 {
            self.add(PUSH_CLIP_I, [i / 8, 0, 4, 4], 20, Nothing, if i < 16 { 0 } else { 7 });
        }
        self.add(PUSH_CLIP, [0.5f32, 0.5, 1.0, 1.0].map(f32::to_bits), 20, Nothing, 7);
        self.add(PUSH_CLIP_I, [0, 0, 4, 4], 20, Wrong::Pitch(3), 15);
        for _ in 0..17 {
            self.add(POP_CLIP, [0; 4], 20, Nothing, 0);
        }
    }
}

pub fn stored() -> Stored {
    let mut examples = Examples { walk: Walk::new(Random(SEED + 5), 4, 4, 4), cases: vec![] };
    examples.states();
    examples.made();
    examples.resized();
    examples.clips();
    let Examples { mut walk, mut cases } = examples;
    while cases.len() < 650 {
        cases.push(walk.step());
    }
    let mut returned = Returned::default();
    cases.iter().for_each(|case| returned.add(case));
    returned.check();
    Stored { functions: 1..=NAMES.len() as u32, width: WIDTH, cases }
}
