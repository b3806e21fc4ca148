//! The canvas calls that are lent pixels and draw no shape, `new`, `resize`, `clear` and `get`, beside the unchanged Rust: `frames CALLS`. Px ends,
//! or one time in four begins, at a page that cannot be touched. The Rust has a canvas of its own, whose rows are compared; what change request
//! 2026-07 and document 01 refuse, it is not asked. Exit status 1 where anything differs, or where a call never returns a number that it can.
use answers::{
    frame::{pitch_ok, Frame, Frames},
    lent::{bytes, Lent},
    random::{Random, SEED},
};
use calls::raw::{maldjupp_clear, maldjupp_get, maldjupp_new, maldjupp_resize, Done, Ink, Pixel, State};
use kash::{color::Color, gfx::Canvas};
use std::{env, process::exit};

/// The calls, and the numbers that each can return beside 0.
const CALLS: [(&str, &[usize]); 4] = [("new", &[2, 15, 8]), ("resize", &[12, 2, 15, 8]), ("clear", &[12, 15, 8]), ("get", &[12, 15, 8])];
const NEW: usize = 0;
const RESIZE: usize = 1;
const CLEAR: usize = 2;

const INK: [u8; 4] = [0x20, 0x40, 0xf0, 0x80];
const ZEROS: State = State { w: 0, h: 0, pitch: 0, clip: [0; 4], saved: [[0; 4]; 16], depth: 0 };

/// What a call is given: a state, or a pitch where there is none; the sides wanted, of `get` the column and the row; and px.
struct Given {
    state: State,
    pitch: usize,
    sides: [i32; 2],
    px: Vec<u32>,
}

/// What a call returned, and left in px.
#[derive(PartialEq, Debug)]
struct After {
    number: u32,
    /// Of `get` the given one, which does not come back.
    state: State,
    value: u32,
    px: Vec<u32>,
}

fn fresh([w, h]: [i32; 2], pitch: usize) -> State {
    State { w, h, pitch, clip: [0, 0, w, h], ..ZEROS }
}

fn raised(sides: [i32; 2]) -> [i32; 2] {
    sides.map(|side| side.max(1))
}

/// The sides of the canvas after a call, its pitch, and the least pitch that is in range.
fn asked(call: usize, g: &Given) -> ([i32; 2], usize, i32) {
    let wanted = raised(g.sides);
    match call {
        NEW => (wanted, g.pitch, wanted[0]),
        RESIZE => (wanted, g.state.pitch, wanted[0].max(g.state.w)),
        _ => ([g.state.w, g.state.h], g.state.pitch, g.state.w),
    }
}

/// 12, 2, 15, 8, in this order. A state is wrong by its sides or its depth alone.
fn number(call: usize, g: &Given) -> u32 {
    let ([w, h], pitch, least) = asked(call, g);
    if call != NEW && (g.state.w < 1 || g.state.h < 1 || g.state.depth > 16) {
        12
    } else if w > 2048 || h > 2048 {
        2
    } else if !pitch_ok(least as usize, pitch) {
        15
    } else if g.px.len() != pitch * h as usize {
        8
    } else {
        0
    }
}

/// What a call must return and leave; the Rust's own canvas is asked where it is accepted.
fn expected(call: usize, g: &Given) -> After {
    let number = number(call, g);
    let mut after = After { number, state: if call == NEW { ZEROS } else { g.state }, value: 0, px: g.px.clone() };
    if number > 0 {
        return after;
    }
    let (sides, pitch, _) = asked(call, g);
    let mut rust = Canvas::new(g.state.w, g.state.h);
    match call {
        NEW => rust = Canvas::new(g.sides[0], g.sides[1]),
        _ => rust.px = frame([g.state.w, g.state.h], pitch).rows(&after.px),
    }
    match call {
        RESIZE => rust.resize(g.sides[0], g.sides[1]),
        CLEAR => rust.clear(Color::rgb(INK[0], INK[1], INK[2])),
        NEW => (),
        _ => after.value = rust.get(g.sides[0], g.sides[1]),
    }
    if call == NEW || call == RESIZE && sides != [g.state.w, g.state.h] {
        after.state = fresh(sides, pitch);
    }
    frame(sides, pitch).lay(&rust.px, &mut after.px);
    after
}

fn frame([w, h]: [i32; 2], pitch: usize) -> Frame {
    Frame { w: w as usize, h: h as usize, pitch }
}

struct Run {
    random: Random,
    lent: Lent,
    frames: Frames,
    returned: [[u64; 16]; CALLS.len()],
    differ: u64,
}

impl Run {
    fn one_in(&mut self, n: u32) -> bool {
        self.random.below(n) == 0
    }

    fn side(&mut self) -> i32 {
        1 + self.random.below(40) as i32
    }

    /// A state with a clip of its own, which none of the calls but `resize` looks at; now and then a wrong one.
    fn state(&mut self) -> State {
        let sides = [self.side(), self.side()];
        let around = Frame::around(sides[0] as usize, sides[1] as usize, &mut self.random);
        let mut state = fresh(sides, around.pitch);
        if self.one_in(2) {
            (state.saved[0], state.depth) = (state.clip, 1);
            state.clip = [0, 0, 1 + self.random.below(sides[0] as u32) as i32, 1];
        }
        if self.one_in(8) {
            state.pitch = around.bad_pitch(&mut self.random);
        }
        if self.one_in(8) {
            match self.random.below(3) {
                0 => state.w = 0,
                1 => state.h = -1,
                _ => state.depth = 17,
            }
        }
        state
    }

    fn given(&mut self, call: usize) -> Given {
        let state = self.state();
        let wanted = [self.random.below(43) as i32 - 2, self.random.below(43) as i32 - 2];
        let sides = match self.random.below(8) {
            0 => [state.w, state.h],
            1 => [wanted[0], 2049],
            2 if call == NEW || call == RESIZE => [2049, wanted[1]],
            _ => wanted,
        };
        let w = raised(sides)[0].min(2048);
        let pitch = match self.random.below(8) {
            0 => w as usize - 1,
            1 => 4097,
            _ => Frame::around(w as usize, 1 + self.random.below(40) as usize, &mut self.random).pitch,
        };
        let mut g = Given { state, pitch, sides, px: vec![] };
        let words = self.words(call, &g);
        g.px = (0..words).map(|_| self.random.word()).collect();
        g
    }

    /// How many words are lent: mostly just what the pitch and the rows ask for.
    fn words(&mut self, call: usize, g: &Given) -> usize {
        let ([w, h], pitch, _) = asked(call, g);
        let (w, h) = (w.clamp(0, 64) as usize, h.clamp(0, 64) as usize);
        let pitch = pitch.min(4097);
        let whole = pitch * h;
        if self.one_in(8) {
            return self.random.of(&[whole + 1, whole.saturating_sub(1), (pitch * h).saturating_sub(pitch) + w, w * h, 0]);
        }
        whole
    }

    /// Makes a call on lent memory; answers too whether nothing beside it was written.
    fn call(&mut self, call: usize, g: &Given) -> (After, bool) {
        let at_start = self.one_in(4);
        let (px, m) = (self.lent.lend(bytes(&g.px), at_start) as *mut u32, g.px.len());
        let done = |Done { number, state }| (number, state, 0);
        let (number, state, value) = unsafe {
            match call {
                NEW => done(maldjupp_new(g.sides[0], g.sides[1], g.pitch, px, m)),
                RESIZE => done(maldjupp_resize(g.state, g.sides[0], g.sides[1], px, m)),
                CLEAR => done(maldjupp_clear(g.state, px, m, Ink { rgba: INK })),
                _ => {
                    let Pixel { number, value } = maldjupp_get(g.state, px, m, g.sides[0], g.sides[1]);
                    (number, g.state, value)
                }
            }
        };
        let px = self.lent.words().to_vec();
        (After { number, state, value, px }, self.lent.back().1)
    }

    fn case(&mut self) {
        let call = self.random.below(CALLS.len() as u32) as usize;
        let g = self.given(call);
        let must = expected(call, &g);
        let (after, inside) = self.call(call, &g);
        self.returned[call][must.number as usize] += 1;
        if must.number == 0 {
            let (sides, pitch, _) = asked(call, &g);
            self.frames.add(&frame(sides, pitch));
        }
        if after != must || !inside {
            self.differ += 1;
            if self.differ <= 3 {
                let (name, [w, h]) = (CALLS[call].0, g.sides);
                println!("{name} differs: number {} instead of {}, sides {w} and {h}, pitch {}, {} words, {:?}", after.number, must.number, g.pitch, g.px.len(), g.state);
            }
        }
    }

    /// Whether a call never returned 0, or a number that it can.
    fn lacks(&self) -> bool {
        let mut lacks = self.frames.lack(false);
        for ((name, numbers), returned) in CALLS.iter().zip(self.returned) {
            for number in [&[0], *numbers].concat().into_iter().filter(|number| returned[*number] == 0) {
                println!("{name} never returned {number}");
                lacks = true;
            }
        }
        lacks
    }
}

fn main() {
    let calls: u64 = env::args().nth(1).and_then(|n| n.parse().ok()).expect("usage: frames CALLS");
    let returned = [[0; 16]; CALLS.len()];
    let mut run = Run { random: Random(SEED + 12), lent: Lent::new(1 << 22), frames: Frames::default(), returned, differ: 0 };
    for _ in 0..calls {
        run.case();
    }
    let fifteen: u64 = run.returned.iter().map(|returned| returned[15]).sum();
    println!("frames: {calls} calls, {}, {fifteen} refused by 15, {} differences", run.frames.told(), run.differ);
    if run.lacks() || run.differ > 0 {
        exit(1);
    }
}
