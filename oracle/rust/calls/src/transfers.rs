//! The whole path of a ticket to the panel: a sheet is painted and patched by the library, and each box that it returns is loaded and taken to
//! its end. What was taken must be the box of the unchanged Rust's fresh painting; and a second picture, of what was taken alone, that painting.
use crate::{dirty, enough, panels::Steps, Memory};
use answers::{
    frame::{Frame, Frames},
    panel::{pixels, Panel, Step},
    random::{Random, SEED},
    state::{Sides, State},
};
use sheets::{
    change::{self, PX},
    columns::with_columns,
    make, Made, Sheet,
};

/// What a run has seen of whole paths.
#[derive(Default)]
pub struct Transfers {
    memory: Memory,
    /// Accepted patches by their pitch.
    frames: Frames,
    pub paintings: u64,
    pub patches: u64,
    refused: u64,
    empty: u64,
    /// Boxes of several rows that are not the whole canvas.
    parts: u64,
    taken: u64,
}

/// A ticket on its canvas: the kept sheet, px as the library left them, the panel, and the picture beside it.
struct Ticket {
    kept: Made,
    frame: Frame,
    px: Vec<u32>,
    panel: Panel,
    picture: Vec<u32>,
}

/// The pixels of a box in rows of so many words.
fn part(rows: &[u32], w: usize, [x0, y0, x1, y1]: Sides) -> Vec<u32> {
    (y0 as usize..y1 as usize).flat_map(|y| &rows[y * w + x0 as usize..y * w + x1 as usize]).copied().collect()
}

/// Sets the pixels of a box, row by row.
fn put(rows: &mut [u32], w: usize, [x0, y0, x1, _]: Sides, values: &[u32]) {
    for (i, row) in values.chunks_exact(((x1 - x0) as usize).max(1)).enumerate() {
        let from = (y0 as usize + i) * w + x0 as usize;
        rows[from..from + row.len()].copy_from_slice(row);
    }
}

impl Ticket {
    /// Loads a box, takes as many pixels as it has, finds none more and clears the interrupt; answers what was taken.
    fn transfer(&mut self, steps: &mut Steps, b: Sides) -> Vec<u32> {
        let s = State::fresh(self.frame.w as i32, self.frame.h as i32, self.frame.pitch);
        let lent = steps.lend(&self.px);
        let mut step = |step: Step| {
            let answer = steps.on(lent, &s, &self.px, &self.panel, step);
            self.panel = answer.panel;
            answer
        };
        let loaded = step(Step::Command(1, b)).number;
        let taken: Vec<_> = (0..pixels(b)).map(|_| step(Step::Take)).collect();
        let (more, flags) = (step(Step::Take), step(Step::Flags(128)));
        let numbers = [loaded, more.number, flags.number] == [0, 22, 0] && taken.iter().all(|answer| answer.number == 0);
        if !numbers || more.panel.regs != [0, 0x80, 0, 0, 0, 0, 0, 0] || flags.panel.regs != [0; 8] {
            steps.differs(format!("the transfer of {b:?} ends with {more:?}, then {flags:?}"));
        }
        steps.hold(&self.px);
        taken.iter().map(|answer| answer.value).collect()
    }
}

impl Transfers {
    /// Takes a box that the library returned, and holds it and the picture to a fresh painting.
    fn shown(&mut self, steps: &mut Steps, ticket: &mut Ticket, b: Sides, fresh: &[u32]) {
        let (w, taken) = (ticket.frame.w, ticket.transfer(steps, b));
        self.taken += taken.len() as u64;
        put(&mut ticket.picture, w, b, &taken);
        if taken != part(fresh, w, b) {
            steps.differs(format!("what was taken of {b:?} is not the box of the fresh painting of {:02x?}", ticket.kept.bytes()));
        }
        if ticket.picture != fresh {
            steps.differs(format!("the picture after {b:?} is not the fresh painting of {:02x?}", ticket.kept.bytes()));
            ticket.picture.copy_from_slice(fresh);
        }
    }

    /// A painting, all of which is taken.
    fn painted(&mut self, steps: &mut Steps, random: &mut Random) -> Ticket {
        let made = make::sheet(random, 32, 14);
        let kept = if random.below(2) == 0 { with_columns(made, random) } else { made };
        let (bytes, area) = (kept.bytes(), kept.area());
        let sheet = Sheet::read(&bytes).expect("a sound sheet");
        let frame = Frame::around(sheet.w, sheet.h, random);
        let px = frame.laid(&vec![random.word(); area], random);
        let scratch = dirty(enough(sheet.need(), random), random);
        let left = self.memory.call(None, &bytes, frame.pitch, &px, &scratch, random);
        let mut ticket = Ticket { kept, frame, px: left.px, panel: Panel::FRESH, picture: vec![0; area] };
        self.paintings += 1;
        if left.answer.number > 0 {
            steps.differs(format!("the painting is refused: {:?} of {bytes:02x?}", left.answer));
            return ticket;
        }
        let b = left.answer.reported();
        self.shown(steps, &mut ticket, [b.x0, b.y0, b.x1, b.y1], &sheet.fresh());
        ticket
    }

    /// A patch on px as the call before left them; where it is accepted, its box is taken.
    fn patched(&mut self, steps: &mut Steps, ticket: &mut Ticket, random: &mut Random) {
        let way = loop {
            let way = change::way(random);
            if way < PX {
                break way;
            }
        };
        let (old, new) = change::patch(&ticket.kept, random, way);
        let sheet = Sheet::read(&new);
        let need = sheet.as_ref().map_or(0, Sheet::need);
        let scratch = dirty(enough(need, random), random);
        let left = self.memory.call(Some(&old), &new, ticket.frame.pitch, &ticket.px, &scratch, random);
        self.patches += 1;
        ticket.px = left.px;
        let (Ok(sheet), 0) = (sheet, left.answer.number) else {
            self.refused += 1;
            return;
        };
        let b = left.answer.reported();
        self.frames.add(&ticket.frame);
        self.empty += b.is_empty() as u64;
        self.parts += (b.h() > 1 && b != sheet.canvas()) as u64;
        ticket.kept = Made::of(&sheet);
        self.shown(steps, ticket, [b.x0, b.y0, b.x1, b.y1], &sheet.fresh());
    }

    /// So many patches, in lists of up to 16 after a painting.
    pub fn run(&mut self, steps: &mut Steps, patches: u64) {
        let mut random = Random(SEED + 17);
        while self.patches < patches {
            let mut ticket = self.painted(steps, &mut random);
            for _ in 0..(1 + random.below(16) as u64).min(patches - self.patches) {
                self.patched(steps, &mut ticket, &mut random);
            }
        }
    }

    /// Prints what was seen; answers whether something was not.
    pub fn lack(&self, told: bool) -> bool {
        let Transfers { paintings, patches, refused, empty, parts, taken, .. } = self;
        print!("panels: {paintings} paintings and {patches} patches, {refused} refused, {empty} with an empty box, ");
        println!("{parts} with a part of several rows, {taken} pixels taken, {}", self.frames.told());
        self.frames.lack(told) | [refused, empty, parts].into_iter().any(|times| *times == 0)
    }
}
