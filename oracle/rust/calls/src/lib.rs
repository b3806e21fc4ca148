//! The sheet calls, measuring, the call of the clip orders, the canvas calls on pixels and the panel's steps of the crate `maldjupp`, on lent
//! memory. A slice passes as a pointer and a length.
pub mod boxes;
pub mod ceilings;
pub mod panels;
pub mod rooms;
pub mod transfers;

use answers::{
    frame::{Frame, Frames},
    lent::{bytes, Lent},
    random::Random,
};
use sheets::{orders::Written, After, Answer, Room};

/// The functions as they are exported.
pub mod raw {
    pub use answers::{panel::Panel, state::State};
    use sheets::{orders::Written, Answer, Room};

    /// What a canvas call returns.
    #[repr(C)]
    #[derive(Clone, Copy, Debug, PartialEq)]
    pub struct Done {
        pub number: u32,
        pub state: State,
    }

    /// What `get` returns.
    #[repr(C)]
    pub struct Pixel {
        pub number: u32,
        pub value: u32,
    }

    /// A box, which goes by value.
    #[repr(C)]
    #[derive(Clone, Copy)]
    pub struct Area {
        pub sides: [i32; 4],
    }

    /// What a write to the panel returns.
    #[repr(C)]
    pub struct Stepped {
        pub number: u32,
        pub panel: Panel,
    }

    /// What a take returns.
    #[repr(C)]
    pub struct Taken {
        pub number: u32,
        pub value: u32,
        pub panel: Panel,
    }

    #[repr(C)]
    #[derive(Clone, Copy)]
    pub struct Ink {
        pub rgba: [u8; 4],
    }

    extern "C" {
        pub fn maldjupp_paint(sheet: *const u8, n: usize, pitch: usize, px: *mut u32, m: usize, scratch: *mut f32, k: usize) -> Answer;
        pub fn maldjupp_patch(
            old: *const u8,
            o: usize,
            new: *const u8,
            n: usize,
            pitch: usize,
            px: *mut u32,
            m: usize,
            scratch: *mut f32,
            k: usize,
        ) -> Answer;
        pub fn maldjupp_measure(sheet: *const u8, n: usize) -> Room;
        pub fn maldjupp_clip_order(number: usize, buf: *mut u8, room: usize) -> Written;
        pub fn maldjupp_new(w: i32, h: i32, pitch: usize, px: *mut u32, m: usize) -> Done;
        pub fn maldjupp_resize(canvas: State, w: i32, h: i32, px: *mut u32, m: usize) -> Done;
        pub fn maldjupp_clear(canvas: State, px: *mut u32, m: usize, ink: Ink) -> Done;
        pub fn maldjupp_get(canvas: State, px: *const u32, m: usize, x: i32, y: i32) -> Pixel;
        pub fn maldjupp_panel_fresh() -> Panel;
        pub fn maldjupp_panel_command(panel: Panel, canvas: State, px: *const u32, m: usize, value: u8, area: Area) -> Stepped;
        pub fn maldjupp_panel_flags(panel: Panel, canvas: State, px: *const u32, m: usize, value: u8) -> Stepped;
        pub fn maldjupp_panel_take(panel: Panel, canvas: State, px: *const u32, m: usize) -> Taken;
    }
}

/// Memory for one call.
pub struct Memory {
    old: Lent,
    new: Lent,
    px: Lent,
    scratch: Lent,
}

impl Default for Memory {
    fn default() -> Self {
        Memory { old: Lent::new(1 << 18), new: Lent::new(1 << 18), px: Lent::new(1 << 25), scratch: Lent::new(1 << 25) }
    }
}

/// What a call left: whether nothing was written beside what was lent, nor into a sheet.
pub struct Left {
    pub answer: Answer,
    pub px: Vec<u32>,
    pub scratch: Vec<u32>,
    pub inside: bool,
}

fn words(bytes: &[u8]) -> Vec<u32> {
    bytes.chunks_exact(4).map(|b| u32::from_ne_bytes([b[0], b[1], b[2], b[3]])).collect()
}

impl Memory {
    /// Paints, or patches where there is an old sheet. Each piece of memory ends at a page that cannot be touched, or, one time in four,
    /// begins at one.
    pub fn call(&mut self, old: Option<&[u8]>, new: &[u8], pitch: usize, px: &[u32], scratch: &[u32], random: &mut Random) -> Left {
        self.call_at(old, new, pitch, px, scratch, [(); 4].map(|_| random.below(4) == 0))
    }

    /// The same, where old sheet, new sheet, px and scratch each begin at such a page or end at one.
    pub fn call_at(&mut self, old: Option<&[u8]>, new: &[u8], pitch: usize, px: &[u32], scratch: &[u32], at_start: [bool; 4]) -> Left {
        let given = old.unwrap_or(&[]);
        let o = self.old.lend(given, at_start[0]);
        let n = self.new.lend(new, at_start[1]);
        let p = self.px.lend(bytes(px), at_start[2]) as *mut u32;
        let s = self.scratch.lend(bytes(scratch), at_start[3]) as *mut f32;
        let answer = unsafe {
            match old {
                None => raw::maldjupp_paint(n, new.len(), pitch, p, px.len(), s, scratch.len()),
                Some(_) => raw::maldjupp_patch(o, given.len(), n, new.len(), pitch, p, px.len(), s, scratch.len()),
            }
        };
        let (old_left, a) = self.old.back();
        let (new_left, b) = self.new.back();
        let (px_left, c) = self.px.back();
        let (scratch_left, d) = self.scratch.back();
        let inside = a && b && c && d && old_left == given && new_left == new;
        Left { answer, px: words(px_left), scratch: words(scratch_left), inside }
    }

    /// Measures a sheet, which begins at such a page or ends at one: what is returned, and whether nothing was written into it or beside it.
    pub fn measure(&mut self, sheet: &[u8], at_start: bool) -> (Room, bool) {
        let lent = self.new.lend(sheet, at_start);
        let room = unsafe { raw::maldjupp_measure(lent, sheet.len()) };
        let (left, inside) = self.new.back();
        (room, inside && left == sheet)
    }

    /// Asks for the clip order of a number: what is returned, the buffer after the call, and whether nothing beside it was written.
    pub fn clip_order(&mut self, number: usize, buf: &[u8], at_start: bool) -> (Written, Vec<u8>, bool) {
        let lent = self.new.lend(buf, at_start);
        let written = unsafe { raw::maldjupp_clip_order(number, lent, buf.len()) };
        let (left, inside) = self.new.back();
        (written, left.to_vec(), inside)
    }
}

/// A pitch that is refused by 15: just out of range, one of which the lowest 32 bits are in range, or the greatest.
pub fn bad_pitch(frame: &Frame, random: &mut Random) -> usize {
    let near = frame.bad_pitch(random);
    random.of(&[near, near, near, near, (1 << 32) + frame.pitch, usize::MAX])
}

/// Scratch as it may come: NaN of every kind, infinities, any patterns.
pub fn dirty(n: usize, random: &mut Random) -> Vec<u32> {
    match random.below(3) {
        0 => vec![random.of(&[0x7fc0_0000, 0x7f80_0001, 0xffff_ffff, 0x7f80_0000, 0x8000_0000, 0x3f80_0000]); n],
        _ => (0..n).map(|_| random.word()).collect(),
    }
}

/// How much scratch is lent: just what is needed, or a little more.
pub fn enough(need: usize, random: &mut Random) -> usize {
    need + random.of(&[0, 0, 1, 2, 17])
}

/// What a run has compared, summed over its calls: counts, and the frames of those that were accepted.
#[derive(Default)]
pub struct Compared {
    steps: u64,
    grounded: u64,
    pub frames: Frames,
}

/// What of px differs.
fn in_px(left: &Left, after: &After) -> &'static str {
    match after.frame {
        Some(frame) if !frame.same_past(&left.px, &after.px) => "words past the canvas",
        _ => "pixels",
    }
}

impl Compared {
    /// What differs between a call and what it must do; nothing where all is as it must be.
    pub fn fault(&mut self, left: &Left, after: &After, scratch: &[u32]) -> Option<&'static str> {
        self.steps += after.answer.steps;
        self.grounded += after.answer.grounded;
        after.frame.iter().for_each(|frame| self.frames.add(frame));
        let words = left.scratch.iter().zip(scratch).enumerate().all(|(i, (now, was))| *now == if i < after.swept { 0 } else { *was });
        if left.answer.uncounted() != after.answer.uncounted() {
            Some("answer")
        } else if left.answer != after.answer {
            Some("counts")
        } else if left.px != after.px {
            Some(in_px(left, after))
        } else if !words {
            Some("scratch")
        } else if !left.inside {
            Some("memory that was not lent for writing")
        } else {
            None
        }
    }

    pub fn told(&self) -> String {
        format!("{} steps and {} grounded pixels, {}", self.steps, self.grounded, self.frames.told())
    }
}

/// Runs of so many cases or more print how often each number was returned.
pub const TOLD: u64 = 100_000;

/// Runs of so many cases or more must have seen every sort of chain.
pub const USUAL: u64 = 5_000;

/// How often each number was returned.
#[derive(Default)]
pub struct Numbers([u64; 16]);

impl Numbers {
    pub fn add(&mut self, number: u32) {
        self.0[number as usize] += 1;
    }

    /// Prints them where `told`, and answers those of a list that came less often than they should.
    pub fn report(&self, wanted: &[u32], least: u64, told: bool) -> Vec<u32> {
        for (number, times) in self.0.iter().enumerate().filter(|(_, times)| told && **times > 0) {
            println!("number {number:>2} {times:>9} times");
        }
        wanted.iter().copied().filter(|number| self.0[*number as usize] < least).collect()
    }
}
