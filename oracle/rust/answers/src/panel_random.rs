//! What steps of the panel are tried on at random: states that a canvas can be in and others, boxes, registers and writes.
use crate::{
    frame::Frame,
    panel::{Panel, Step},
    random::Random,
    state::{Sides, State, PLACES},
};

/// A box inside a canvas, which has pixels; one time in eight any sides from 0 up to the canvas's, so that it may be empty.
fn inside(s: &State, random: &mut Random) -> Sides {
    if random.below(8) == 0 {
        return [s.w, s.h, s.w, s.h].map(|side| random.below(side as u32 + 1) as i32);
    }
    let [x0, y0] = [s.w, s.h].map(|side| random.below(side as u32) as i32);
    let [columns, rows] = [s.w - x0, s.h - y0].map(|most| 1 + random.below(most as u32) as i32);
    [x0, y0, x0 + columns, y0 + rows]
}

/// An empty box, anywhere.
pub fn empty(random: &mut Random) -> Sides {
    let mut b = [(); 4].map(|_| random.word() as i32 >> random.below(32));
    let i = random.below(2) as usize;
    b[i + 2] = b[i + 2].min(b[i]);
    b
}

/// A box that is not empty and leaves the canvas.
fn outside(s: &State, random: &mut Random) -> Sides {
    let (w, h, wider, higher) = (s.w, s.h, s.w.wrapping_add(1), s.h.wrapping_add(1));
    random.of(&[[0, 0, wider, h], [0, 0, w, higher], [-1, 0, w, h], [0, -1, w, h], [w, 0, wider, 1], [i32::MIN, i32::MIN, i32::MAX, i32::MAX]])
}

/// A clip that a canvas can have: the whole canvas, an empty one anywhere, or one inside.
fn clip(s: &State, random: &mut Random) -> Sides {
    match random.below(4) {
        0 => [0, 0, s.w, s.h],
        1 => empty(random),
        _ => inside(s, random),
    }
}

/// A state that a canvas can be in: fresh one time in four, else with a clip of its own, and with saved clips one time in two.
pub fn state(frame: &Frame, random: &mut Random) -> State {
    let mut s = State::fresh(frame.w as i32, frame.h as i32, frame.pitch);
    if random.below(4) == 0 {
        return s;
    }
    s.clip = clip(&s, random);
    if random.below(2) == 0 {
        s.depth = random.of(&[1, 2, 15, 16]);
        for i in 0..s.depth {
            s.saved[i] = clip(&s, random);
        }
    }
    s
}

/// Makes a state one that a canvas cannot be in, by one of `STATE_FAULTS`.
pub fn spoil(s: &mut State, random: &mut Random) {
    match random.below(5) {
        0 if random.below(2) == 0 => s.w = random.of(&[0, -1, 2_049, i32::MIN, i32::MAX]),
        0 => s.h = random.of(&[0, -1, 2_049, i32::MIN, i32::MAX]),
        1 => s.depth = random.of(&[17, 255, u32::MAX as usize]),
        2 => s.clip = outside(s, random),
        3 => {
            s.depth = s.depth.clamp(1, PLACES);
            s.saved[random.below(s.depth as u32) as usize] = outside(s, random);
        }
        _ => {
            s.depth = s.depth.min(PLACES - 1);
            s.saved[s.depth..].fill([0; 4]);
            let place = s.depth + random.below((PLACES - s.depth) as u32) as usize;
            s.saved[place] = [0, 0, s.w, s.h];
            if random.below(2) == 0 {
                s.saved[place] = [0; 4];
                s.saved[place][random.below(4) as usize] = 1 << random.below(32);
            }
        }
    }
}

/// A box near a canvas: mostly inside, now and then empty or outside.
pub fn boxed(s: &State, random: &mut Random) -> Sides {
    match random.below(12) {
        0 => empty(random),
        1 => outside(s, random),
        2 => {
            let (mut b, i) = (inside(s, random), random.below(4) as usize);
            b[i] = random.of(&[-1, s.w + 1, s.h + 1, i32::MIN, i32::MAX, 65_536]);
            b
        }
        _ => inside(s, random),
    }
}

/// Adds to one of the two-byte registers.
fn shift(p: &mut Panel, at: usize, by: u16) {
    let bytes = u16::from_le_bytes([p.regs[at], p.regs[at + 1]]).wrapping_add(by).to_le_bytes();
    p.regs[at..at + 2].copy_from_slice(&bytes);
}

/// Alters registers or the held box, so that they are mostly out of order.
pub fn damage(p: &mut Panel, random: &mut Random) {
    let (i, j, by) = (random.below(8) as usize, random.below(4) as usize, random.of(&[1, u16::MAX, 256]));
    match random.below(8) {
        0 => p.regs[i] ^= 1 << random.below(8),
        1 => p.regs[i] = random.word() as u8,
        2 => p.held[j] = p.held[j].wrapping_add(random.of(&[-1, 1])),
        3 => p.held[j] = random.of(&[i32::MIN, i32::MAX, -1, 4_096]),
        4 => p.held[2 + j % 2] = p.held[j % 2],
        5 => shift(p, random.of(&[2, 4, 6]), by),
        6 => {
            shift(p, 2, by);
            shift(p, 6, by.wrapping_neg());
        }
        _ => p.regs[1] ^= random.of(&[0x80, 0x01, 0x81]),
    }
}

/// A step: a write to the command one time in so many, or in two where no pixel is ready; one time in eight one to the flags.
pub fn step(s: &State, p: &Panel, loads: u32, random: &mut Random) -> Step {
    if random.below(if p.ready() { loads } else { 2 }) == 0 {
        return Step::Command(random.of(&[1, 1, 1, 1, 1, 1, 0, 2, 129, 255]), boxed(s, random));
    }
    if random.below(8) == 0 {
        return Step::Flags(random.of(&[128, 128, 128, 128, 0, 1, 127, 129, 255]));
    }
    Step::Take
}
