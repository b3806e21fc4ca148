//! The calls on gfx.rs's canvas, in a walk from state to state. The Rust keeps its stack to itself, so the walk keeps the clips that it
//! saw saved beside it, and the pitch that the Rust does not know: it draws on a canvas of its own, whose rows are compared. What documents
//! 01 and 02 refuse, the Rust is not asked: the number is given by their order of conditions.
use crate::{
    frame::{pitch_ok, Frame, MOST_PITCH},
    random::Random,
};
use kash::{
    color::Color,
    geom::{IRect, Rect},
    gfx::Canvas,
};

pub const NAMES: [&str; 9] = ["new", "resize", "push_clip", "push_clip_i", "pop_clip", "clear", "get", "bounds", "clip"];
pub const NEW: u32 = 1;
pub const RESIZE: u32 = 2;
pub const PUSH_CLIP: u32 = 3;
pub const PUSH_CLIP_I: u32 = 4;
pub const POP_CLIP: u32 = 5;
pub const CLEAR: u32 = 6;
pub const GET: u32 = 7;
pub const BOUNDS: u32 = 8;
pub const CLIP: u32 = 9;

/// The numbers that each call can return, beside 0.
pub const NUMBERS: [&[u32]; NAMES.len()] =
    [&[2, 15, 8], &[12, 2, 15, 8], &[12, 15, 6, 7], &[12, 15, 7], &[12, 15], &[12, 15, 8], &[12, 15, 8], &[12, 15], &[12, 15]];

/// Words of a state: sides, pitch, clip, depth and 16 saved clips.
pub const STATE: usize = 72;
/// Of which these are its pitch, its clip, its depth and the first saved clip.
pub const PITCH: usize = 2;
pub const CLIP_AT: usize = 3;
const DEPTH: usize = 7;
const SAVED: usize = 8;
pub const WIDTH: usize = 1 + 4 + 3 + STATE + 1 + 4 + 3 + STATE;
/// The place of a case's number.
pub const NUMBER: usize = 8 + STATE;

/// No case lends more words of px, few more than are usual.
const MOST: u32 = MOST_PITCH as u32;
const USUAL: usize = 512;

/// What a call leaves in px, as it is stored: a pitch, so many columns, and the value that the first words of each row then have. Here
/// every word stays as it came.
const KEPT: [u32; 3] = [0; 3];

/// What is wrong with the state that a call is given.
#[derive(Clone, Copy)]
pub enum Wrong {
    Nothing,
    /// A state that is refused by 12.
    State([u32; STATE]),
    /// A pitch that is refused by 15.
    Pitch(u32),
}

/// How often each call returned each number.
#[derive(Default)]
pub struct Returned([[u64; 16]; NAMES.len()]);

impl Returned {
    pub fn add(&mut self, case: &[u32]) {
        self.0[case[0] as usize - 1][case[NUMBER] as usize] += 1;
    }

    /// How often a number was returned by all calls.
    pub fn of(&self, number: u32) -> u64 {
        self.0.iter().map(|times| times[number as usize]).sum()
    }

    /// Holds each call to have returned 0 and each number that it can.
    pub fn check(&self) {
        for (f, name) in NAMES.iter().enumerate() {
            for number in [&[0], NUMBERS[f]].concat() {
                assert!(self.0[f][number as usize] > 0, "{name} never returned {number}");
            }
        }
    }
}

pub struct Walk {
    pub random: Random,
    canvas: Canvas,
    pitch: u32,
    saved: Vec<IRect>,
}

fn words(b: IRect) -> [u32; 4] {
    [b.x0, b.y0, b.x1, b.y1].map(|z| z as u32)
}

fn raised(args: [u32; 4]) -> [i32; 2] {
    [args[0], args[1]].map(|side| (side as i32).max(1))
}

/// The words of px that a pitch and rows ask for, or the most that a case lends.
fn asked(pitch: u32, h: i32) -> u32 {
    (pitch as u64 * h as u64).min(MOST as u64) as u32
}

/// Numbers 2, 15 and 8, in this order.
fn size_number([w, h]: [i32; 2], pitch: u32, n: u32) -> u32 {
    if w > 2048 || h > 2048 {
        2
    } else if !pitch_ok(w as usize, pitch as usize) {
        15
    } else if n != pitch * h as u32 {
        8
    } else {
        0
    }
}

impl Walk {
    pub fn new(random: Random, w: i32, h: i32, pitch: u32) -> Walk {
        Walk { random, canvas: Canvas::new(w, h), pitch, saved: vec![] }
    }

    fn frame(&self) -> Frame {
        Frame { w: self.canvas.w as usize, h: self.canvas.h as usize, pitch: self.pitch as usize }
    }

    /// The words of px.
    fn words(&self) -> u32 {
        self.frame().words() as u32
    }

    /// The pixels of the canvas where px run from a base in equal steps.
    fn pixels(&self, base: u32, step: u32) -> Vec<u32> {
        let row = |y: i32| (0..self.canvas.w as u32).map(move |x| y as u32 * self.pitch + x);
        (0..self.canvas.h).flat_map(row).map(|i| base.wrapping_add(i.wrapping_mul(step))).collect()
    }

    pub fn state(&self) -> [u32; STATE] {
        let mut s = [0; STATE];
        s[..CLIP_AT].copy_from_slice(&[self.canvas.w as u32, self.canvas.h as u32, self.pitch]);
        s[CLIP_AT..DEPTH].copy_from_slice(&words(self.canvas.clip()));
        s[DEPTH] = self.saved.len() as u32;
        for (i, b) in self.saved.iter().enumerate() {
            s[SAVED + 4 * i..][..4].copy_from_slice(&words(*b));
        }
        s
    }

    /// The number of a call on a state that is all right but for its pitch, in the order 2, 15, 8, 6, 7.
    fn number(&self, f: u32, args: [u32; 4], n: u32, pitch: u32) -> u32 {
        let wide = args.iter().any(|a| !(f32::from_bits(*a).abs() <= 8192.0));
        let full = self.saved.len() == 16;
        let own = pitch_ok(self.canvas.w as usize, pitch as usize);
        match f {
            NEW => size_number(raised(args), args[2], n),
            RESIZE => match size_number(raised(args), pitch, n) {
                2 => 2,
                _ if !own => 15,
                number => number,
            },
            _ if !own => 15,
            CLEAR | GET if n != self.words() => 8,
            PUSH_CLIP if wide => 6,
            PUSH_CLIP | PUSH_CLIP_I if full => 7,
            _ => 0,
        }
    }

    /// Runs an accepted call; answers the words that it returns and what it leaves in px.
    fn run(&mut self, f: u32, args: [u32; 4], base: u32, step: u32) -> ([u32; 4], [u32; 3]) {
        let [x, y, ..] = args.map(|a| a as i32);
        self.canvas.px = self.pixels(base, step);
        let before = self.canvas.clip();
        match f {
            NEW => {
                *self = Walk::new(Random(self.random.0), x, y, args[2]);
                self.all(0)
            }
            RESIZE => {
                let was = (self.canvas.w, self.canvas.h);
                self.canvas.resize(x, y);
                if was == (self.canvas.w, self.canvas.h) {
                    return ([0; 4], KEPT);
                }
                self.saved.clear();
                self.all(0)
            }
            PUSH_CLIP => {
                let [x, y, w, h] = args.map(f32::from_bits);
                self.canvas.push_clip(Rect::new(x, y, w, h));
                self.saved.push(before);
                ([0; 4], KEPT)
            }
            PUSH_CLIP_I => {
                let [x0, y0, x1, y1] = args.map(|a| a as i32);
                self.canvas.push_clip_i(IRect::new(x0, y0, x1, y1));
                self.saved.push(before);
                ([0; 4], KEPT)
            }
            POP_CLIP => {
                self.canvas.pop_clip();
                assert_eq!(self.canvas.clip(), self.saved.pop().unwrap_or(before));
                ([0; 4], KEPT)
            }
            CLEAR => {
                let [r, g, b, a] = args[0].to_le_bytes();
                self.canvas.clear(Color::rgba(r, g, b, a));
                self.all(self.canvas.px[0])
            }
            GET => ([self.canvas.get(x, y), 0, 0, 0], KEPT),
            BOUNDS => (words(self.canvas.bounds()), KEPT),
            CLIP => (words(self.canvas.clip()), KEPT),
            _ => panic!("no call {f}"),
        }
    }

    /// All pixels have one value.
    fn all(&self, value: u32) -> ([u32; 4], [u32; 3]) {
        assert!(self.canvas.px.iter().all(|p| *p == value));
        ([0; 4], [self.pitch, self.canvas.w as u32, value])
    }

    /// A call as a case, on n words of px.
    pub fn case(&mut self, f: u32, args: [u32; 4], n: u32, wrong: Wrong) -> Vec<u32> {
        let (base, step) = (self.random.word(), self.random.word() | 1);
        let mut given = self.state();
        match wrong {
            Wrong::Nothing => (),
            Wrong::State(state) => given = state,
            Wrong::Pitch(pitch) => given[PITCH] = pitch,
        }
        let by_state = f != NEW && matches!(wrong, Wrong::State(_));
        let number = if by_state { 12 } else { self.number(f, args, n, given[PITCH]) };
        let refused = if f == NEW { [0; STATE] } else { given };
        let mut case = vec![f];
        case.extend(args);
        case.extend([n, base, step]);
        case.extend(given);
        let (value, px) = if number == 0 { self.run(f, args, base, step) } else { ([0; 4], KEPT) };
        case.push(number);
        case.extend(value);
        case.extend(px);
        case.extend(if number == 0 { self.state() } else { refused });
        assert_eq!(case.len(), WIDTH);
        case
    }

    /// The state with one thing wrong that document 01 names beside 12, in one of four with a wrong pitch too.
    fn spoilt(&mut self) -> [u32; STATE] {
        let mut s = self.state();
        let (w, h, depth) = (s[0], s[1], s[DEPTH] as usize);
        if self.random.below(4) == 0 {
            s[PITCH] = self.bad_pitch();
        }
        let place = self.random.below(16) as usize;
        let outside = self.random.of(&[[0, 0, w + 1, h], [0, 0, w, h + 1], [u32::MAX, 0, w, h], [0, u32::MAX, w, h]]);
        match self.random.below(5) {
            0 => s[self.random.below(2) as usize] = self.random.of(&[0, 2049, u32::MAX, 1 << 31]),
            1 => s[DEPTH] = self.random.of(&[17, u32::MAX]),
            2 => s[CLIP_AT..DEPTH].copy_from_slice(&outside),
            _ if place < depth => s[SAVED + 4 * place..][..4].copy_from_slice(&outside),
            _ => s[SAVED + 4 * place + self.random.below(4) as usize] = 1 << self.random.below(32),
        }
        s
    }

    /// A pitch that is out of range for the state's width.
    fn bad_pitch(&mut self) -> u32 {
        self.frame().bad_pitch(&mut self.random) as u32
    }

    fn size(&mut self) -> [u32; 4] {
        let side = |random: &mut Random| match random.below(16) {
            0 => random.of(&[0, -1, i32::MIN, 2048, 2049, i32::MAX]),
            1 => random.word() as i32 >> random.below(32),
            _ => 1 + random.below(12) as i32,
        };
        [side(&mut self.random) as u32, side(&mut self.random) as u32, 0, 0]
    }

    /// Sides and pitch for `new`: one pitch in eight is out of range.
    fn framed(&mut self, args: [u32; 4]) -> [u32; 4] {
        let [w, h] = raised(args);
        if w > 2048 || h > 2048 {
            return [args[0], args[1], self.random.of(&[0, 12, 4096, 4097]), 0];
        }
        let most = if self.random.below(16) == 0 { MOST as usize } else { USUAL };
        let frame = Frame::within(w as usize, h as usize, most, &mut self.random);
        let pitch = if self.random.below(8) == 0 { frame.bad_pitch(&mut self.random) } else { frame.pitch };
        [args[0], args[1], pitch as u32, 0]
    }

    /// Sides for `resize`: mostly a width that the pitch has room for, in one of eight a column less or more than it.
    fn fitting(&mut self, args: [u32; 4]) -> [u32; 4] {
        let w = match self.random.below(8) {
            0 => args[0],
            1 => self.pitch.saturating_add_signed(self.random.of(&[-1, 0, 1])),
            _ => 1 + self.random.below(self.pitch.min(12)),
        };
        [w, args[1], 0, 0]
    }

    fn float(&mut self) -> u32 {
        match self.random.below(40) {
            0 => self.random.of(&[f32::NAN, f32::INFINITY, f32::NEG_INFINITY, 8192.001, -8192.001, 8193.0]).to_bits(),
            1 => self.random.of(&[8192.0f32, -8192.0, -0.0]).to_bits(),
            _ => self.random.within(-4.0, 14.0).to_bits(),
        }
    }

    fn integer(&mut self) -> u32 {
        match self.random.below(12) {
            0 => self.random.of(&[i32::MIN, i32::MAX, 2048, -1]) as u32,
            _ => self.random.below(18).wrapping_sub(4),
        }
    }

    /// Any call on the state where the walk stands; one in eight on a spoilt one, one in sixteen on one with a wrong pitch, one in eight with
    /// another count of words.
    pub fn step(&mut self) -> Vec<u32> {
        let f = self.random.of(&[NEW, RESIZE, PUSH_CLIP, PUSH_CLIP, PUSH_CLIP_I, PUSH_CLIP_I, PUSH_CLIP, PUSH_CLIP_I, POP_CLIP, CLEAR, GET, GET, BOUNDS, CLIP]);
        let args = match f {
            RESIZE if self.random.below(4) == 0 => [self.canvas.w as u32, self.canvas.h as u32, 0, 0],
            NEW | RESIZE => {
                let sides = self.size();
                if f == NEW { self.framed(sides) } else { self.fitting(sides) }
            }
            PUSH_CLIP => core::array::from_fn(|_| self.float()),
            PUSH_CLIP_I | GET => core::array::from_fn(|_| self.integer()),
            _ => [self.random.word(), 0, 0, 0],
        };
        let right = match f {
            NEW => asked(args[2], raised(args)[1]),
            RESIZE => asked(self.pitch, raised(args)[1]),
            _ => self.words(),
        };
        let short = right.saturating_sub(self.pitch - self.canvas.w as u32);
        let others = [right.saturating_sub(1), (right + 1).min(MOST), 0, short];
        let n = if self.random.below(8) == 0 { self.random.of(&others) } else { right };
        let wrong = match self.random.below(16) {
            0 | 1 => Wrong::State(self.spoilt()),
            2 => Wrong::Pitch(self.bad_pitch()),
            _ => Wrong::Nothing,
        };
        self.case(f, args, n, wrong)
    }
}
