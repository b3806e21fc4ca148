//! The state of a canvas as the library takes it by value, and document 01's test of it, number 12.

use crate::canvas::STATE;

/// A box by its sides: x0, y0, x1, y1.
pub type Sides = [i32; 4];

/// The places of saved clips.
pub const PLACES: usize = 16;

/// Sides, pitch, clip and saved clips, of which `depth` are in use.
#[repr(C)]
#[derive(Clone, Copy, Debug, PartialEq)]
pub struct State {
    pub w: i32,
    pub h: i32,
    pub pitch: usize,
    pub clip: Sides,
    pub saved: [Sides; PLACES],
    pub depth: usize,
}

/// What document 01 names beside 12, in its order.
pub const STATE_FAULTS: [&str; 5] = ["a side", "the depth", "the clip", "a saved clip", "an unused place"];

pub fn is_empty([x0, y0, x1, y1]: Sides) -> bool {
    x1 <= x0 || y1 <= y0
}

impl State {
    /// The whole canvas as clip, nothing saved.
    pub fn fresh(w: i32, h: i32, pitch: usize) -> State {
        State { w, h, pitch, clip: [0, 0, w, h], saved: [[0; 4]; PLACES], depth: 0 }
    }

    /// Whether a box lies inside the canvas.
    pub fn has(&self, [x0, y0, x1, y1]: Sides) -> bool {
        x0 >= 0 && y0 >= 0 && x1 <= self.w && y1 <= self.h
    }

    /// Whether a box is empty, wherever it lies, or inside the canvas.
    pub fn fits(&self, b: Sides) -> bool {
        is_empty(b) || self.has(b)
    }

    /// The first of `STATE_FAULTS` that it has; nothing where a canvas can be in it. The pitch has a number of its own.
    pub fn fault(&self) -> Option<usize> {
        let side = |n| (1..=2048).contains(&n);
        if !side(self.w) || !side(self.h) {
            return Some(0);
        }
        if self.depth > PLACES {
            return Some(1);
        }
        if !self.fits(self.clip) {
            return Some(2);
        }
        let (used, unused) = self.saved.split_at(self.depth);
        if used.iter().any(|b| !self.fits(*b)) {
            return Some(3);
        }
        unused.iter().any(|b| *b != [0; 4]).then_some(4)
    }

    /// As it is stored: sides, pitch, clip, depth, saved clips.
    pub fn words(&self) -> [u32; STATE] {
        let sides = |b: &[i32]| b.iter().map(|z| *z as u32).collect::<Vec<u32>>();
        let [pitch, depth] = [self.pitch, self.depth].map(|n| vec![u32::try_from(n).expect("a word")]);
        let words = [sides(&[self.w, self.h]), pitch, sides(&self.clip), depth, sides(self.saved.as_flattened())].concat();
        words.try_into().expect("as many words as a state has")
    }
}
