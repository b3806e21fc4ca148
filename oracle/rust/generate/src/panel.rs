//! The cases of the panel's registers: steps whose answers are worked out by hand from change request 2026-13, then steps at random. Every answer is
//! the model's; it is held to those that are worked out before anything is written.
use crate::{Stored, WORDS};
use answers::{
    frame::{steps, Frame},
    panel::{Answer, Panel, Returned, Step, NAMES, REGISTER_FAULTS, STEPS},
    panel_random::{damage, spoil, state, step},
    random::{Random, SEED},
    state::{Sides, State, STATE_FAULTS},
};

const CASES: usize = 500;
/// The function's number, a box, count, base and step of px, the state, the byte written and a panel; then number, value and panel.
const WIDTH: usize = 1 + 4 + 3 + 72 + 1 + 6 + 2 + 6;

/// The box that is held in most of the cases worked out by hand, and the registers at its four pixels.
const HELD: Sides = [1, 1, 3, 3];
const FIRST: [u8; 8] = [0, 1, 1, 0, 1, 0, 2, 0];
const SECOND: [u8; 8] = [0, 1, 2, 0, 1, 0, 1, 0];
const THIRD: [u8; 8] = [0, 1, 1, 0, 2, 0, 2, 0];
const FOURTH: [u8; 8] = [0, 1, 2, 0, 2, 0, 1, 0];
const FINISHED: [u8; 8] = [0, 128, 0, 0, 0, 0, 0, 0];

/// A box without pixels that lies far outside.
const FAR: Sides = [i32::MAX, -5, i32::MIN, 9];

/// Steps that are accepted on the canvas below, and refused by their own number alone.
const ACCEPTED: [Step; STEPS] = [Step::Command(1, HELD), Step::Flags(128), Step::Take];
const REFUSED: [Step; STEPS] = [Step::Command(0, HELD), Step::Flags(0), Step::Take];

fn panel(regs: [u8; 8], held: Sides) -> Panel {
    Panel { regs, held }
}

/// The same with other flags.
fn flagged(flags: u8, mut regs: [u8; 8]) -> [u8; 8] {
    regs[1] = flags;
    regs
}

/// The canvas of most of the cases worked out by hand, 4 × 3 within rows of 5 words. Px run from 100 by 1, so the pixel at x, y is
/// 100 + 5 × y + x.
fn canvas() -> State {
    State::fresh(4, 3, 5)
}

fn words_of(p: &Panel) -> Vec<u32> {
    let regs = p.regs.chunks_exact(4).map(|b| u32::from_le_bytes([b[0], b[1], b[2], b[3]]));
    regs.chain(p.held.map(|z| z as u32)).collect()
}

#[derive(Default)]
struct Cases {
    cases: Vec<Vec<u32>>,
    returned: Returned,
    /// Steps refused by 12: for what of the state, and for what of the registers.
    faults: [[u64; STATE_FAULTS.len()]; STEPS],
    disorders: [[u64; REGISTER_FAULTS.len()]; STEPS],
}

impl Cases {
    /// A step on n words of px that run from a base in equal steps.
    fn add(&mut self, s: &State, [n, base, by]: [u32; 3], p: &Panel, step: Step) -> Answer {
        assert!(n as usize <= WORDS, "a case lends no more");
        let answer = p.step(s, &steps(n as usize, base, by), step);
        let (b, value) = match step {
            Step::Command(value, b) => (b, value),
            Step::Flags(value) => ([0; 4], value),
            Step::Take => ([0; 4], 0),
        };
        self.returned.add(step, answer.number);
        s.fault().iter().for_each(|fault| self.faults[step.at()][*fault] += 1);
        p.fault(s).iter().for_each(|fault| self.disorders[step.at()][*fault] += 1);
        let mut case = vec![step.at() as u32 + 1];
        case.extend(b.map(|z| z as u32));
        case.extend([n, base, by]);
        case.extend(s.words());
        case.push(value as u32);
        case.extend(words_of(p));
        case.extend([answer.number, answer.value]);
        case.extend(words_of(&answer.panel));
        self.cases.push(case);
        answer
    }

    /// An accepted step that is worked out: the value and the panel after it.
    fn known(&mut self, s: &State, p: Panel, step: Step, value: u32, after: Panel) {
        let n = s.pitch as u32 * s.h as u32;
        assert_eq!(self.add(s, [n, 100, 1], &p, step), Answer { number: 0, value, panel: after }, "{step:?} of {p:?}");
    }

    /// A refused step: its number, nothing handed over and the panel as given.
    fn refused(&mut self, s: &State, n: u32, p: Panel, step: Step, number: u32) {
        assert_eq!(self.add(s, [n, 100, 1], &p, step), Answer { number, value: 0, panel: p }, "{step:?} of {p:?} on {n} words of {s:?}");
    }

    /// Boxes loaded, from fresh, over flags and while a pixel is ready; the bytes 2-3, 4-5 and 6-7 with their higher byte in use.
    fn loads(&mut self) {
        let known = [
            (Panel::FRESH, HELD, FIRST),
            (Panel::FRESH, [0, 0, 4, 3], [0, 1, 0, 0, 0, 0, 4, 0]),
            (Panel::FRESH, [3, 2, 4, 3], [0, 1, 3, 0, 2, 0, 1, 0]),
            (Panel::FRESH, [2, 1, 2, 3], FINISHED),
            (Panel::FRESH, [0, 3, 4, 3], FINISHED),
            (Panel::FRESH, FAR, FINISHED),
            (panel(FINISHED, HELD), HELD, FIRST),
            (panel(SECOND, HELD), [0, 0, 1, 1], [0, 1, 0, 0, 0, 0, 1, 0]),
            (panel(SECOND, HELD), FAR, FINISHED),
            (panel(flagged(0x81, THIRD), HELD), HELD, FIRST),
            (panel([0, 0, 9, 9, 9, 9, 9, 9], FAR), HELD, FIRST),
        ];
        for (p, b, regs) in known {
            self.known(&canvas(), p, Step::Command(1, b), 0, panel(regs, b));
        }
        let wide = State::fresh(2048, 1, 4096);
        self.known(&wide, Panel::FRESH, Step::Command(1, [0, 0, 2048, 1]), 0, panel([0, 1, 0, 0, 0, 0, 0, 8], [0, 0, 2048, 1]));
        self.known(&wide, Panel::FRESH, Step::Command(1, [2047, 0, 2048, 1]), 0, panel([0, 1, 255, 7, 0, 0, 1, 0], [2047, 0, 2048, 1]));
        let high = State::fresh(1, 2048, 2);
        self.known(&high, Panel::FRESH, Step::Command(1, [0, 2047, 1, 2048]), 0, panel([0, 1, 0, 0, 255, 7, 1, 0], [0, 2047, 1, 2048]));
    }

    /// Takes within a row, at a row's end, and the last; then where a byte runs over into the next.
    fn takes(&mut self) {
        let known = [(FIRST, 106, SECOND), (SECOND, 107, THIRD), (THIRD, 111, FOURTH), (FOURTH, 112, FINISHED)];
        for (regs, value, after) in known {
            self.known(&canvas(), panel(regs, HELD), Step::Take, value, panel(after, HELD));
            let kept = if after == FINISHED { FINISHED } else { flagged(0x81, after) };
            self.known(&canvas(), panel(flagged(0x81, regs), HELD), Step::Take, value, panel(kept, HELD));
        }
        let (last, row) = ([3, 2, 4, 3], [0, 0, 4, 1]);
        self.known(&canvas(), panel([0, 1, 3, 0, 2, 0, 1, 0], last), Step::Take, 113, panel(FINISHED, last));
        self.known(&canvas(), panel([0, 1, 3, 0, 0, 0, 1, 0], row), Step::Take, 103, panel(FINISHED, row));
        let (wide, b) = (State::fresh(600, 2, 601), [255, 0, 600, 2]);
        self.known(&wide, panel([0, 1, 255, 0, 0, 0, 0x59, 1], b), Step::Take, 355, panel([0, 1, 0, 1, 0, 0, 0x58, 1], b));
        self.known(&wide, panel([0, 1, 0x57, 2, 0, 0, 1, 0], b), Step::Take, 699, panel([0, 1, 255, 0, 1, 0, 0x59, 1], b));
        let b = [87, 0, 599, 2];
        self.known(&wide, panel([0, 1, 0x57, 1, 0, 0, 0, 1], b), Step::Take, 443, panel([0, 1, 0x58, 1, 0, 0, 255, 0], b));
        let (high, b) = (State::fresh(2, 300, 3), [1, 255, 2, 257]);
        self.known(&high, panel([0, 1, 1, 0, 255, 0, 1, 0], b), Step::Take, 866, panel([0, 1, 1, 0, 0, 1, 1, 0], b));
        self.known(&high, panel([0, 1, 1, 0, 0, 1, 1, 0], b), Step::Take, 869, panel(FINISHED, b));
    }

    /// 128 written to the flags clears bit 7 and nothing else.
    fn flags(&mut self) {
        let any = [0, 0x80, 9, 8, 7, 6, 5, 4];
        for (regs, after) in [(FINISHED, [0; 8]), (flagged(0x81, SECOND), SECOND), (SECOND, SECOND), ([0; 8], [0; 8]), (any, flagged(0, any))] {
            self.known(&canvas(), panel(regs, HELD), Step::Flags(128), 0, panel(after, HELD));
        }
    }

    /// States with clips of their own, which do not matter.
    fn clips(&mut self) {
        let mut saved = State { depth: 16, ..canvas() };
        saved.saved[0] = [0, 0, 4, 3];
        saved.saved[15] = FAR;
        for s in [State { clip: [0, 0, 1, 1], ..canvas() }, State { clip: FAR, ..canvas() }, saved] {
            self.known(&s, Panel::FRESH, Step::Command(1, HELD), 0, panel(FIRST, HELD));
            self.known(&s, panel(FOURTH, HELD), Step::Take, 112, panel(FINISHED, HELD));
            self.known(&s, panel(FINISHED, HELD), Step::Flags(128), 0, panel([0; 8], HELD));
        }
    }

    /// 20, 21 and 22.
    fn own(&mut self) {
        let (s, busy) = (canvas(), panel(SECOND, HELD));
        for value in [0, 2, 128, 129, 255] {
            self.refused(&s, 15, Panel::FRESH, Step::Command(value, HELD), 20);
            self.refused(&s, 15, busy, Step::Command(value, FAR), 20);
        }
        for b in [[0, 0, 5, 3], [0, 0, 4, 4], [-1, 0, 4, 3], [0, -1, 4, 3], [4, 0, 5, 3], [0, 3, 4, 4], [i32::MIN, i32::MIN, i32::MAX, i32::MAX]] {
            self.refused(&s, 15, busy, Step::Command(1, b), 20);
        }
        for value in [0, 1, 2, 127, 129, 255] {
            self.refused(&s, 15, busy, Step::Flags(value), 21);
            self.refused(&s, 15, panel(FINISHED, HELD), Step::Flags(value), 21);
        }
        for p in [Panel::FRESH, panel(FINISHED, HELD), panel(flagged(0, SECOND), HELD), panel(flagged(0x80, SECOND), HELD)] {
            self.refused(&s, 15, p, Step::Take, 22);
        }
    }

    /// 12 for registers, each reason of the request: the command, a flag, an empty held box, one outside, the place, the pixels left.
    fn disordered(&mut self) {
        let outside = [(FIRST, [1, 1, 5, 3]), (FIRST, [1, 1, 3, 4]), (FIRST, [-1, 1, 3, 3]), (FIRST, [1, -1, 3, 3])];
        let held = [([0, 1, 0, 0, 0, 0, 0, 0], [0; 4]), (FIRST, [3, 1, 3, 3]), (FIRST, [1, 3, 3, 1])];
        let wrong = [
            [1, 1, 1, 0, 1, 0, 2, 0],
            [1, 0, 0, 0, 0, 0, 0, 0],
            [0, 2, 0, 0, 0, 0, 0, 0],
            [0, 0x40, 0, 0, 0, 0, 0, 0],
            [0, 3, 1, 0, 1, 0, 2, 0],
            [0, 255, 1, 0, 1, 0, 2, 0],
            [0, 1, 0, 0, 1, 0, 3, 0],
            [0, 1, 3, 0, 1, 0, 0, 0],
            [0, 1, 1, 0, 0, 0, 2, 0],
            [0, 1, 1, 0, 3, 0, 2, 0],
            [0, 1, 1, 1, 1, 0, 2, 0],
            [0, 1, 1, 0, 1, 1, 2, 0],
            [0, 1, 1, 0, 1, 0, 1, 0],
            [0, 1, 1, 0, 1, 0, 3, 0],
            [0, 1, 1, 0, 1, 0, 0, 0],
            [0, 1, 1, 0, 1, 0, 2, 1],
            [0, 0x81, 2, 0, 1, 0, 2, 0],
        ];
        for (regs, b) in outside.into_iter().chain(held).chain(wrong.map(|regs| (regs, HELD))) {
            for step in ACCEPTED {
                self.refused(&canvas(), 15, panel(regs, b), step, 12);
            }
        }
    }

    /// 12 for states, each reason of document 01.
    fn states(&mut self) {
        let sides = [0, 2049].map(|side| [State { w: side, ..canvas() }, State { h: side, ..canvas() }]);
        let clips = [[0, 0, 9, 9], [-1, 0, 4, 3], [0, 0, 4, 4]].map(|clip| State { clip, ..canvas() });
        let mut others = [State { depth: 17, ..canvas() }, State { depth: 16, ..canvas() }, canvas(), State { depth: 15, ..canvas() }];
        others[1].saved[15] = [0, 0, 5, 3];
        others[2].saved[0] = [0, 0, 4, 3];
        others[3].saved[15] = [0, 0, 0, 1];
        for s in sides.into_iter().flatten().chain(clips).chain(others) {
            for step in ACCEPTED {
                self.refused(&s, 15, panel(FIRST, HELD), step, 12);
            }
        }
    }

    /// 15 and 8 by their ends, and the order 12, 15, 8, then the step's own: what comes later is wrong too.
    fn order(&mut self) {
        let (ready, none) = (panel(FIRST, HELD), Panel::FRESH);
        let wrong = State { clip: [0, 0, 9, 9], pitch: 3, ..canvas() };
        let at = |pitch: usize| State { pitch, ..canvas() };
        for i in 0..STEPS {
            let p = if i == 2 { none } else { ready };
            self.refused(&wrong, 0, p, REFUSED[i], 12);
            self.refused(&at(3), 0, panel([1, 0, 0, 0, 0, 0, 0, 0], HELD), REFUSED[i], 12);
            self.refused(&at(3), 0, p, REFUSED[i], 15);
            self.refused(&at(3), 9, ready, ACCEPTED[i], 15);
            self.refused(&at(4097), 15, ready, ACCEPTED[i], 15);
            self.refused(&canvas(), 0, p, REFUSED[i], 8);
            for n in [14, 16, 12, 0] {
                self.refused(&canvas(), n, ready, ACCEPTED[i], 8);
            }
        }
        self.known(&at(4), ready, Step::Take, 105, panel(SECOND, HELD));
        self.known(&State::fresh(4, 1, 4096), panel([0, 1, 3, 0, 0, 0, 1, 0], [0, 0, 4, 1]), Step::Take, 103, panel(FINISHED, [0, 0, 4, 1]));
    }

    /// Steps at random, in lists from fresh, some of them with something wrong.
    fn list(&mut self, random: &mut Random) {
        let (w, h) = (1 + random.below(6) as usize, 1 + random.below(6) as usize);
        let frame = Frame::within(w, h, WORDS, random);
        let (right, mut p, loads) = (state(&frame, random), Panel::FRESH, random.of(&[4, 8]));
        for _ in 0..30 {
            let (mut s, mut n, mut given, step) = (right, frame.words() as u32, p, step(&right, &p, loads, random));
            let beside = random.below(4) == 0;
            match random.below(5) {
                0 if beside => spoil(&mut s, random),
                1 if beside => s.pitch = frame.bad_pitch(random),
                2 if beside => n = random.of(&[n - 1, (n + 1).min(WORDS as u32), 0, n / 2]),
                _ if beside => damage(&mut given, random),
                _ => (),
            }
            let answer = self.add(&s, [n, random.word(), random.word() | 1], &given, step);
            p = if beside { p } else { answer.panel };
        }
    }

    /// Ends where something never came.
    fn check(&self) {
        assert!(self.returned.never().is_empty(), "never returned: {:?}", self.returned.never());
        for (f, name) in NAMES[..STEPS].iter().enumerate() {
            let faults = STATE_FAULTS.iter().zip(self.faults[f]).chain(REGISTER_FAULTS.iter().zip(self.disorders[f]));
            faults.for_each(|(fault, times)| assert!(times > 0, "{name} was never refused for {fault}"));
        }
    }
}

pub fn stored() -> Stored {
    let mut all = Cases::default();
    all.loads();
    all.takes();
    all.flags();
    all.clips();
    all.own();
    all.disordered();
    all.states();
    all.order();
    let mut random = Random(SEED + 15);
    while all.cases.len() < CASES {
        all.list(&mut random);
    }
    all.check();
    let mut cases = all.cases;
    let mut fresh = vec![0; WIDTH];
    fresh[0] = NAMES.len() as u32;
    cases.push(fresh);
    Stored { functions: 1..=NAMES.len() as u32, width: WIDTH, cases }
}
