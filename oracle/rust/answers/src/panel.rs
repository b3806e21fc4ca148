//! The panel's registers by the words of change request 2026-13, apart from the proved crates: what a step returns, and why registers are refused.
//! Where the definition counts on from pixel to pixel, here the registers are those of the pixel k of the held box, by division.
use crate::{
    frame::pitch_ok,
    state::{is_empty, Sides, State},
};

/// The steps, and last the fresh panel, which is given nothing and has no number.
pub const NAMES: [&str; 4] = ["command", "flags", "take", "fresh"];
pub const STEPS: usize = 3;

/// The numbers that each step can return.
pub const NUMBERS: [[u32; 5]; STEPS] = [[0, 8, 12, 15, 20], [0, 8, 12, 15, 21], [0, 8, 12, 15, 22]];

/// Why registers are refused by 12, in the order of the request.
pub const REGISTER_FAULTS: [&str; 6] = ["the command", "a flag", "an empty held box", "a held box outside", "the place", "the pixels left"];

/// Bytes 0 command, 1 flags, 2-3 column, 4-5 row, 6-7 pixels left in this row, the lowest byte first; and the box last loaded.
#[repr(C)]
#[derive(Clone, Copy, Debug, PartialEq)]
pub struct Panel {
    pub regs: [u8; 8],
    pub held: Sides,
}

/// A write to the command with a box, a write to the flags, or a take.
#[derive(Clone, Copy, Debug)]
pub enum Step {
    Command(u8, Sides),
    Flags(u8),
    Take,
}

/// What a step returned; the value is a take's.
#[derive(Clone, Copy, Debug, PartialEq)]
pub struct Answer {
    pub number: u32,
    pub value: u32,
    pub panel: Panel,
}

impl Step {
    /// Its place in `NAMES`.
    pub fn at(self) -> usize {
        match self {
            Step::Command(..) => 0,
            Step::Flags(_) => 1,
            Step::Take => 2,
        }
    }
}

/// How many pixels a box has.
pub fn pixels(b: Sides) -> i64 {
    let [x0, y0, x1, y1] = b.map(i64::from);
    if is_empty(b) { 0 } else { (x1 - x0) * (y1 - y0) }
}

/// The registers at the pixel k of a box, row by row; finished where it has none.
fn registers(flags: u8, b: Sides, k: i64) -> [u8; 8] {
    if k >= pixels(b) {
        return [0, 0x80, 0, 0, 0, 0, 0, 0];
    }
    let [x0, y0, x1, _] = b.map(i64::from);
    let (x, y) = (x0 + k % (x1 - x0), y0 + k / (x1 - x0));
    let [x, y, left] = [x, y, x1 - x].map(|n| (n as u16).to_le_bytes());
    [0, flags, x[0], x[1], y[0], y[1], left[0], left[1]]
}

impl Panel {
    /// All zero.
    pub const FRESH: Panel = Panel { regs: [0; 8], held: [0; 4] };

    pub fn flags(&self) -> u8 {
        self.regs[1]
    }

    /// Whether bit 0 is set: a pixel is ready.
    pub fn ready(&self) -> bool {
        self.flags() & 1 != 0
    }

    /// Column, row and pixels left.
    pub fn place(&self) -> [i64; 3] {
        [2, 4, 6].map(|at| u16::from_le_bytes([self.regs[at], self.regs[at + 1]]) as i64)
    }

    /// The first of `REGISTER_FAULTS` that it has; nothing where it is in order. Without a pixel ready, place and held box may be any.
    pub fn fault(&self, s: &State) -> Option<usize> {
        let ([x0, y0, x1, y1], [x, y, left]) = (self.held.map(i64::from), self.place());
        if self.regs[0] != 0 {
            Some(0)
        } else if self.flags() & !0x81 != 0 {
            Some(1)
        } else if !self.ready() {
            None
        } else if is_empty(self.held) {
            Some(2)
        } else if !s.has(self.held) {
            Some(3)
        } else if x < x0 || x1 <= x || y < y0 || y1 <= y {
            Some(4)
        } else {
            (left != x1 - x).then_some(5)
        }
    }

    /// The number of a step on so many words of px: 12, 15, 8, and then its only check.
    pub fn number(&self, s: &State, words: usize, step: Step) -> u32 {
        if s.fault().is_some() || self.fault(s).is_some() {
            return 12;
        }
        if !pitch_ok(s.w as usize, s.pitch) {
            return 15;
        }
        if words != s.pitch * s.h as usize {
            return 8;
        }
        match step {
            Step::Command(value, b) if value != 1 || !s.fits(b) => 20,
            Step::Flags(value) if value != 128 => 21,
            Step::Take if !self.ready() => 22,
            _ => 0,
        }
    }

    /// What a step returns.
    pub fn step(&self, s: &State, px: &[u32], step: Step) -> Answer {
        let number = self.number(s, px.len(), step);
        let mut answer = Answer { number, value: 0, panel: *self };
        if number > 0 {
            return answer;
        }
        match step {
            Step::Command(_, held) => answer.panel = Panel { regs: registers(1, held, 0), held },
            Step::Flags(_) => answer.panel.regs[1] &= 0x7f,
            Step::Take => {
                let ([x0, y0, x1, _], [x, y, _]) = (self.held.map(i64::from), self.place());
                let k = (y - y0) * (x1 - x0) + x - x0;
                answer.value = px[y as usize * s.pitch + x as usize];
                answer.panel.regs = registers(self.flags(), self.held, k + 1);
            }
        }
        answer
    }
}

/// How often each step returned each number.
#[derive(Default)]
pub struct Returned([[u64; 23]; STEPS]);

impl Returned {
    pub fn add(&mut self, step: Step, number: u32) {
        self.0[step.at()][number as usize] += 1;
    }

    /// How often a step returned each number that it can.
    pub fn of(&self, step: usize) -> [(u32, u64); 5] {
        NUMBERS[step].map(|number| (number, self.0[step][number as usize]))
    }

    /// What never came, as `take 22`.
    pub fn never(&self) -> Vec<String> {
        let never = |f: usize| self.of(f).into_iter().filter(|(_, times)| *times == 0).map(move |(number, _)| format!("{} {number}", NAMES[f]));
        (0..STEPS).flat_map(never).collect()
    }
}
