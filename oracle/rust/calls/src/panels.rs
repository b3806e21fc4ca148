//! Steps of the panel on lent px, each beside the model; what was returned, and why registers and states were refused.
use crate::raw::{maldjupp_panel_command, maldjupp_panel_flags, maldjupp_panel_take, Area, Stepped, Taken};
use answers::{
    lent::{bytes, Lent},
    panel::{pixels, Answer, Panel, Returned, Step, NAMES, REGISTER_FAULTS, STEPS},
    state::{Sides, State, STATE_FAULTS},
};

const FAULTS: usize = STATE_FAULTS.len() + REGISTER_FAULTS.len();

/// A step of the library on px that are lent.
pub fn call(s: &State, px: *const u32, m: usize, p: &Panel, step: Step) -> Answer {
    let stepped = |Stepped { number, panel }| Answer { number, value: 0, panel };
    unsafe {
        match step {
            Step::Command(value, sides) => stepped(maldjupp_panel_command(*p, *s, px, m, value, Area { sides })),
            Step::Flags(value) => stepped(maldjupp_panel_flags(*p, *s, px, m, value)),
            Step::Take => {
                let Taken { number, value, panel } = maldjupp_panel_take(*p, *s, px, m);
                Answer { number, value, panel }
            }
        }
    }
}

/// The steps of a run.
pub struct Steps {
    lent: Lent,
    returned: Returned,
    /// Steps refused by 12, by the one reason: the state's, then the registers'.
    faults: [[u64; FAULTS]; STEPS],
    pub made: u64,
    pub differ: u64,
}

impl Default for Steps {
    fn default() -> Self {
        Steps { lent: Lent::new(1 << 25), returned: Returned::default(), faults: [[0; FAULTS]; STEPS], made: 0, differ: 0 }
    }
}

impl Steps {
    pub fn differs(&mut self, what: String) {
        self.differ += 1;
        if self.differ <= 3 {
            println!("{what}");
        }
    }

    /// Lends px up to a page that cannot be touched; one time in four from one on.
    pub fn lend(&mut self, px: &[u32]) -> *const u32 {
        self.lent.lend(bytes(px), self.made % 4 == 3) as *const u32
    }

    /// A step on px that were lent at a place; answers what the library returned.
    pub fn on(&mut self, lent: *const u32, s: &State, px: &[u32], p: &Panel, step: Step) -> Answer {
        let (answer, must) = (call(s, lent, px.len(), p, step), p.step(s, px, step));
        self.made += 1;
        self.count(s, p, step, must.number);
        if answer != must {
            self.differs(format!("{step:?} of {p:?} differs: {answer:?} instead of {must:?}, {} words, {s:?}", px.len()));
        }
        answer
    }

    /// Holds lent px to be as they were.
    pub fn hold(&mut self, px: &[u32]) {
        let (left, beside) = self.lent.back();
        if !beside || left != bytes(px) {
            self.differs(format!("px of {} words are not as they were", px.len()));
        }
    }

    /// A step on px of its own.
    pub fn step(&mut self, s: &State, px: &[u32], p: &Panel, step: Step) -> Answer {
        let lent = self.lend(px);
        let answer = self.on(lent, s, px, p, step);
        self.hold(px);
        answer
    }

    fn count(&mut self, s: &State, p: &Panel, step: Step, number: u32) {
        self.returned.add(step, number);
        if number == 12 {
            match (s.fault(), p.fault(s)) {
                (Some(fault), None) => self.faults[step.at()][fault] += 1,
                (None, Some(fault)) => self.faults[step.at()][STATE_FAULTS.len() + fault] += 1,
                _ => (),
            }
        }
    }

    /// Prints how often each step returned each number, and for what 12, where `told`, and what never came; answers whether anything did not.
    pub fn lack(&self, told: bool) -> bool {
        for (f, name) in NAMES[..STEPS].iter().enumerate().filter(|_| told) {
            println!("panels: {name} returned {}", self.returned.of(f).map(|(number, times)| format!("{number}: {times}")).join(", "));
        }
        let mut never = self.returned.never();
        for (i, name) in STATE_FAULTS.into_iter().chain(REGISTER_FAULTS).enumerate() {
            let times = [0, 1, 2].map(|f: usize| self.faults[f][i]);
            if told {
                println!("panels: 12 for {name} alone: {} times", times.map(|n| n.to_string()).join(", "));
            }
            never.extend((0..STEPS).filter(|f| times[*f] == 0).map(|f| format!("{} 12 for {name}", NAMES[f])));
        }
        if !never.is_empty() {
            println!("panels: never returned: {}", never.join("; "));
        }
        !never.is_empty()
    }
}

/// What is due since the last accepted load, by the request's own words, and how much of it the library has handed over.
#[derive(Default)]
pub struct Transfer {
    due: Vec<u32>,
    handed: usize,
}

impl Transfer {
    /// The pixels of a box, row by row, by the pitch; `None` where a box with pixels leaves px.
    fn pixels(pitch: usize, px: &[u32], b: Sides) -> Option<Vec<u32>> {
        if pixels(b) == 0 {
            return Some(vec![]);
        }
        let row = |y: i32| px.get(y as usize * pitch + b[0] as usize..y as usize * pitch + b[2] as usize);
        Some((b[1]..b[3]).map(row).collect::<Option<Vec<_>>>()?.concat())
    }

    /// Whether the flags are those of a transfer that has pixels to come, or has none.
    fn flags(&self, p: &Panel) -> bool {
        p.flags() & 0x81 == if self.handed < self.due.len() { 0x01 } else { 0x80 }
    }

    /// After an accepted load; answers whether the panel is ready or finished as it must be.
    pub fn load(&mut self, pitch: usize, px: &[u32], b: Sides, p: &Panel) -> bool {
        let Some(due) = Transfer::pixels(pitch, px, b) else { return false };
        *self = Transfer { due, handed: 0 };
        self.flags(p)
    }

    /// After an accepted take; answers whether it handed over the next pixel, and the panel is ready or finished as it must be.
    pub fn take(&mut self, answer: &Answer) -> bool {
        let next = self.due.get(self.handed) == Some(&answer.value);
        self.handed += 1;
        next && self.flags(&answer.panel)
    }

    /// Whether a box with pixels was taken to its end.
    pub fn ended(&self) -> bool {
        self.handed > 0 && self.handed == self.due.len()
    }
}
