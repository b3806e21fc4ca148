//! The panel's registers, change request 2026-13, beside a model that is written apart: `panels STEPS`. First every box, command and flags byte on
//! canvases up to 3 × 3, up to 2 × 2 in a short run, each box taken to its end and one more; then so many steps at random in lists, with damaged
//! registers, wrong states, pitches and lengths of px beside them; then the whole path of tickets to the panel. Px ends, or one time in four begins,
//! at a page that cannot be touched. Exit status 1 where anything differs, or where something that must be seen never came.
use answers::{
    frame::Frame,
    panel::{pixels, Panel, Step},
    panel_random::{damage, spoil, state, step},
    random::{Random, SEED},
    state::{is_empty, Sides, State},
};
use calls::{
    bad_pitch,
    panels::{Steps, Transfer},
    raw::maldjupp_panel_fresh,
    transfers::Transfers,
    TOLD,
};
use std::{env, process::exit};

/// What lists must show, each in an accepted step.
const SHOWN: [&str; 12] = [
    "a box taken to its end",
    "an empty box loaded",
    "an empty box outside the canvas loaded",
    "a load while a pixel was ready",
    "a load while bit 7 was set",
    "128 written with bit 7 set",
    "128 written with bit 7 clear",
    "a column of two bytes",
    "a row of two bytes",
    "pixels left of two bytes",
    "a clip that is not the canvas",
    "saved clips",
];

struct Run {
    random: Random,
    steps: Steps,
    shown: [u64; SHOWN.len()],
    lists: u64,
}

/// What a list is given at each of its steps.
struct Given {
    frame: Frame,
    state: State,
    px: Vec<u32>,
}

impl Run {
    fn one_in(&mut self, n: u32) -> bool {
        self.random.below(n) == 0
    }

    /// At registers that were reached: each byte written to the command and to the flags, and each flags byte and command byte held.
    fn around(&mut self, lent: *const u32, s: &State, px: &[u32], p: &Panel, b: Sides) {
        let mut on = |p: &Panel, step: Step| self.steps.on(lent, s, px, p, step);
        for v in 0..=255 {
            let [mut flags, mut command] = [*p, *p];
            flags.regs[1] = v;
            command.regs[0] = v;
            on(p, Step::Command(v, b));
            on(p, Step::Flags(v));
            for step in [Step::Take, Step::Flags(128), Step::Command(1, b)] {
                on(&flags, step);
            }
            on(&command, Step::Take);
        }
    }

    /// A box loaded, and taken to its end and one more.
    fn taken(&mut self, s: &State, px: &[u32], b: Sides) {
        let (lent, mut p) = (self.steps.lend(px), Panel::FRESH);
        self.around(lent, s, px, &p, b);
        let loaded = self.steps.on(lent, s, px, &p, Step::Command(1, b));
        p = loaded.panel;
        for _ in 0..if loaded.number == 0 { pixels(b) + 1 } else { 0 } {
            self.around(lent, s, px, &p, b);
            p = self.steps.on(lent, s, px, &p, Step::Take).panel;
        }
        self.steps.hold(px);
    }

    /// Every box with sides from -1 to one more than the greatest, on a canvas alone, and in a wider frame with an empty clip and two saved.
    fn small(&mut self, w: i32, h: i32, most: i32) {
        let alone = State::fresh(w, h, w as usize);
        let mut wider = State { pitch: w as usize + 1, clip: [9, -7, 9, 5], depth: 2, ..alone };
        wider.saved[0] = [0, 0, 1, 1];
        let n = most + 3;
        for s in [alone, wider] {
            let px: Vec<u32> = (0..(s.pitch * h as usize) as u32).map(|i| 0xa500_0000 + i * 0x0101).collect();
            for i in 0..n.pow(4) {
                self.taken(&s, &px, [i / n.pow(3), i / n.pow(2) % n, i / n % n, i % n].map(|side| side - 1));
            }
        }
    }

    /// A canvas: small mostly, else with sides that take two bytes. One list in 16 is on a state, a pitch or px that are refused.
    fn given(&mut self) -> Given {
        let random = &mut self.random;
        let (w, h) = match random.below(16) {
            0 => (2048, 1),
            1 => (1, 2048),
            2 => (1 + random.below(600) as usize, 1 + random.below(8) as usize),
            _ => (1 + random.below(6) as usize, 1 + random.below(6) as usize),
        };
        let frame = Frame::around(w, h, random);
        let px = (0..frame.words()).map(|_| random.word()).collect();
        let mut given = Given { frame, state: state(&frame, random), px };
        if self.one_in(16) {
            self.refused(&mut given);
        }
        given
    }

    /// Makes a state, a pitch or px one that is refused.
    fn refused(&mut self, given: &mut Given) {
        let (n, Frame { w, h, pitch }) = (given.frame.words(), given.frame);
        match self.random.below(3) {
            0 => spoil(&mut given.state, &mut self.random),
            1 => given.state.pitch = bad_pitch(&given.frame, &mut self.random),
            _ => given.px.resize(self.random.of(&[0, n - 1, n + 1, n / 2, w * h, n - pitch + w]), 7),
        }
    }

    /// A list from fresh on one state and px, held to the request's claim by what the library returned.
    fn list(&mut self, most: u64) {
        let (given, loads) = (self.given(), self.random.of(&[4, 8, 64]));
        let Given { frame, state: s, px } = &given;
        let canvas = State::fresh(frame.w as i32, frame.h as i32, frame.pitch);
        let (mut p, mut transfer) = (unsafe { maldjupp_panel_fresh() }, Transfer::default());
        let end = (self.steps.made + 200).min(most);
        self.lists += 1;
        while self.steps.made < end {
            let step = step(&canvas, &p, loads, &mut self.random);
            if self.one_in(4) {
                self.beside(&given, &p, step);
                continue;
            }
            let answer = self.steps.step(s, px, &p, step);
            let right = match step {
                _ if answer.number > 0 => answer.panel == p && answer.value == 0 && (answer.number != 12 || s.fault().is_some()),
                Step::Command(_, b) => transfer.load(s.pitch, px, b, &answer.panel),
                Step::Take => transfer.take(&answer),
                Step::Flags(_) => answer.panel.flags() == p.flags() & 0x7f,
            };
            if !right {
                self.steps.differs(format!("{step:?} in a list at {p:?}: {answer:?}, {s:?}"));
            }
            if answer.number == 0 {
                self.show(s, &p, step, &answer.panel, &transfer);
            }
            p = answer.panel;
        }
    }

    /// Counts what an accepted step of a list shows.
    fn show(&mut self, s: &State, p: &Panel, step: Step, after: &Panel, transfer: &Transfer) {
        let (bit_7, high) = (p.flags() & 0x80 != 0, after.place().map(|n| n > 255));
        let loaded = |is: &dyn Fn(Sides) -> bool| matches!(step, Step::Command(_, b) if is(b));
        let written = matches!(step, Step::Flags(_));
        let shown = [
            matches!(step, Step::Take) && transfer.ended(),
            loaded(&is_empty),
            loaded(&|b| !s.has(b)),
            loaded(&|_| p.ready()),
            loaded(&|_| bit_7),
            written && bit_7,
            written && !bit_7,
            high[0],
            high[1],
            high[2],
            s.clip != [0, 0, s.w, s.h],
            s.depth > 0,
        ];
        self.shown.iter_mut().zip(shown).for_each(|(times, now)| *times += now as u64);
    }

    /// A step that is none of the list: registers damaged, one time in two, and one time in two a state, a pitch or px that are refused.
    fn beside(&mut self, given: &Given, p: &Panel, step: Step) {
        let (mut other, mut p) = (Given { px: given.px.clone(), ..*given }, *p);
        if self.one_in(2) {
            damage(&mut p, &mut self.random);
        }
        if self.one_in(2) {
            self.refused(&mut other);
        }
        if self.one_in(4) {
            self.refused(&mut other);
        }
        self.steps.step(&other.state, &other.px, &p, step);
    }

    /// Prints what lists never showed; answers whether there is anything.
    fn lacks(&self, told: bool) -> bool {
        for (name, times) in SHOWN.iter().zip(self.shown).filter(|_| told) {
            println!("panels: {name:38} {times:>9} times");
        }
        let never: Vec<_> = SHOWN.iter().zip(self.shown).filter(|(_, times)| *times == 0).map(|(name, _)| name).collect();
        if !never.is_empty() {
            println!("panels: never shown in lists: {never:?}");
        }
        !never.is_empty()
    }
}

fn main() {
    let steps: u64 = env::args().nth(1).and_then(|n| n.parse().ok()).expect("usage: panels STEPS");
    let (told, most) = (steps >= TOLD, if steps >= TOLD { 3 } else { 2 });
    let mut run = Run { random: Random(SEED + 16), steps: Steps::default(), shown: [0; SHOWN.len()], lists: 0 };
    assert_eq!(unsafe { maldjupp_panel_fresh() }, Panel::FRESH);
    for i in 0..most * most {
        run.small(1 + i / most, 1 + i % most, most);
    }
    let every = run.steps.made;
    while run.steps.made < every + steps {
        run.list(every + steps);
    }
    let mut transfers = Transfers::default();
    transfers.run(&mut run.steps, (steps / 1000).max(500));
    let lacks = run.steps.lack(told) | run.lacks(told) | transfers.lack(told);
    let (lists, differ, rest) = (run.lists, run.steps.differ, run.steps.made - every - steps);
    println!("panels: {every} steps on every small box, {steps} in {lists} lists and beside them, {rest} of whole boxes, {differ} differences");
    if lacks || differ > 0 {
        exit(1);
    }
}
