//! A canvas within a wider frame, change request 2026-07: rows of `pitch` words, of which the first w are the canvas's.
use crate::random::Random;

/// The greatest pitch.
pub const MOST_PITCH: usize = 4_096;

/// The most words of px that a case of a run gets: usually, and in one of 32; but at least so many times the pixels of its canvas.
const USUAL: usize = 1 << 13;
pub const SELDOM: usize = 1 << 18;
const TIMES: usize = 2;

/// Whether a canvas of w columns may have a pitch.
pub fn pitch_ok(w: usize, pitch: usize) -> bool {
    (w..=MOST_PITCH).contains(&pitch)
}

/// Words that run from a base in equal steps.
pub fn steps(n: usize, base: u32, step: u32) -> Vec<u32> {
    (0..n as u32).map(|i| base.wrapping_add(i.wrapping_mul(step))).collect()
}

/// The sides of a canvas, and the pitch of its rows.
#[derive(Clone, Copy, Debug, PartialEq)]
pub struct Frame {
    pub w: usize,
    pub h: usize,
    pub pitch: usize,
}

impl Frame {
    /// A canvas alone: its rows are as long as it is wide.
    pub fn alone(w: usize, h: usize) -> Frame {
        Frame { w, h, pitch: w }
    }

    /// A frame of at most so many words, where that is enough for the canvas: the pitch is w in one of two; else w, w + 1, w + 7, 4,096 or
    /// any, and any where another is too great.
    pub fn within(w: usize, h: usize, most: usize, random: &mut Random) -> Frame {
        let greatest = (most / h).clamp(w, MOST_PITCH);
        let any = w + random.below((greatest - w) as u32 + 1) as usize;
        let pitch = match random.below(10) {
            0..=5 => w,
            6 => w + 1,
            7 => w + 7,
            8 => MOST_PITCH,
            _ => any,
        };
        Frame { w, h, pitch: if pitch <= greatest { pitch } else { any } }
    }

    /// A frame for a case of a run.
    pub fn around(w: usize, h: usize, random: &mut Random) -> Frame {
        let most = if random.below(32) == 0 { SELDOM } else { USUAL };
        Frame::within(w, h, most.max(TIMES * w * h), random)
    }

    /// The words of px.
    pub fn words(&self) -> usize {
        self.pitch * self.h
    }

    /// The words of px that are none of the canvas's.
    pub fn past(&self) -> usize {
        (self.pitch - self.w) * self.h
    }

    /// Whether the rows are longer than the canvas is wide.
    pub fn is_wider(&self) -> bool {
        self.pitch > self.w
    }

    /// A pitch that is refused by 15, of up to 32 bits.
    pub fn bad_pitch(&self, random: &mut Random) -> usize {
        let below = random.below(self.w as u32) as usize;
        random.of(&[self.w - 1, self.w - 1, below, MOST_PITCH + 1, MOST_PITCH + 1, 2 * MOST_PITCH, u32::MAX as usize])
    }

    /// Another pitch that is in range.
    pub fn other_pitch(&self, random: &mut Random) -> usize {
        let any = self.w + random.below((MOST_PITCH - self.w) as u32 + 1) as usize;
        let others = [self.w, self.w + 1, self.pitch + 1, self.pitch - 1, MOST_PITCH, any];
        let fit: Vec<usize> = others.into_iter().filter(|pitch| pitch_ok(self.w, *pitch) && *pitch != self.pitch).collect();
        random.of(&fit)
    }

    /// Px with the rows of a canvas; the words past them have a pattern of their own, another at each place.
    pub fn laid(&self, rows: &[u32], random: &mut Random) -> Vec<u32> {
        let mut px = steps(self.words(), random.word(), random.word() | 1);
        self.lay(rows, &mut px);
        px
    }

    /// Sets the words of the canvas, and no others.
    pub fn lay(&self, rows: &[u32], px: &mut [u32]) {
        assert_eq!((rows.len(), px.len()), (self.w * self.h, self.words()));
        for (row, to) in rows.chunks_exact(self.w).zip(px.chunks_exact_mut(self.pitch)) {
            to[..self.w].copy_from_slice(row);
        }
    }

    /// The words of the canvas.
    pub fn rows(&self, px: &[u32]) -> Vec<u32> {
        px.chunks_exact(self.pitch).flat_map(|row| &row[..self.w]).copied().collect()
    }

    /// Whether the words past the canvas are the same.
    pub fn same_past(&self, px: &[u32], other: &[u32]) -> bool {
        let past = |row: &[u32], other: &[u32]| row[self.w..] == other[self.w..];
        px.chunks_exact(self.pitch).zip(other.chunks_exact(self.pitch)).all(|(row, other)| past(row, other))
    }
}

/// The sorts of pitches of which each must be seen.
const PITCHES: [&str; 5] = ["w", "w + 1", "w + 7", "4,096", "another"];

/// What a run has seen of frames: accepted calls by their pitch, and the words past the canvas that were compared after them.
#[derive(Default)]
pub struct Frames {
    calls: [u64; PITCHES.len()],
    past: u64,
}

impl Frames {
    pub fn add(&mut self, frame: &Frame) {
        self.past += frame.past() as u64;
        self.calls[match frame.pitch {
            MOST_PITCH => 3,
            pitch if pitch == frame.w => 0,
            pitch if pitch == frame.w + 1 => 1,
            pitch if pitch == frame.w + 7 => 2,
            _ => 4,
        }] += 1;
    }

    fn wider(&self) -> u64 {
        self.calls[1..].iter().sum()
    }

    /// Prints how often each sort came where `told`, and what came too seldom; answers whether anything did.
    pub fn lack(&self, told: bool) -> bool {
        for (name, times) in PITCHES.iter().zip(self.calls).filter(|_| told) {
            println!("frames: pitch {name:18} {times:>9}");
        }
        let never: Vec<_> = PITCHES.iter().zip(self.calls).filter(|(_, times)| *times == 0).map(|(name, _)| name).collect();
        if !never.is_empty() {
            println!("pitches never seen: {never:?}");
        }
        let seldom = 4 * self.wider() < self.calls.iter().sum();
        if seldom {
            println!("less than a quarter of the calls were made in a wider frame");
        }
        seldom || !never.is_empty()
    }

    pub fn told(&self) -> String {
        format!("{} calls in wider frames with {} words past the canvas", self.wider(), self.past)
    }
}
