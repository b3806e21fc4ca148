//! What a run has seen of the ceiling on patch work, change request 2026-06: by the box and the counts that the library itself returned.
use sheets::{
    ceiling::{meeting, meeting_under, meets},
    Answer, Ceiling, Sheet,
};
use std::fmt;

/// What the greatest share of the steps in their ceiling must reach, and that with M of 2 or more.
const LEAST: f64 = 0.9;

/// Ceilings that are too low: each must be seen to fail.
const TOO_LOW: [&str; 3] = ["a chain counted once", "columns in place of the area", "the old sheet's shapes counted"];

/// A share as its two numbers; 0 of 0 before there is one.
#[derive(Default)]
struct Share {
    part: u64,
    whole: u64,
}

impl Share {
    fn of_1(&self) -> f64 {
        self.part as f64 / self.whole.max(1) as f64
    }

    /// Keeps the greater share, of equal ones that of the greater whole. There is none of 0.
    fn raise(&mut self, part: u64, whole: u64) {
        let times = |a: u64, b: u64| a as u128 * b as u128;
        if whole > 0 && (times(part, self.whole), whole) > (times(self.part, whole), self.whole) {
            *self = Share { part, whole };
        }
    }
}

impl fmt::Display for Share {
    fn fmt(&self, f: &mut fmt::Formatter) -> fmt::Result {
        write!(f, "{:.4}, {} of {}", self.of_1(), self.part, self.whole)
    }
}

#[derive(Default)]
pub struct Ceilings {
    held: u64,
    /// The greatest steps / (M × area), the greatest where M is 2 or more, and the greatest grounded / area.
    steps: Share,
    several: Share,
    grounded: Share,
    /// Patches whose steps are above each of `TOO_LOW`.
    above: [u64; TOO_LOW.len()],
    /// Patches whose M is less than that of the reaches before any clip.
    cut: u64,
}

/// The ceilings of `TOO_LOW`.
fn too_low([old, new]: &[Sheet; 2], answer: &Answer, ceiling: &Ceiling) -> [u64; TOO_LOW.len()] {
    let reported = answer.reported();
    let shapes = new.items.iter().zip(new.clips()).filter(|((item, _), clip)| meets(item.reach().intersect(clip), reported)).count() as u64;
    [shapes * ceiling.area, ceiling.meeting * reported.w() as u64, meeting(old, reported) * ceiling.area]
}

impl Ceilings {
    /// An accepted patch from an old sheet to a new one, with its ceiling.
    pub fn add(&mut self, sheets: &[Sheet; 2], answer: &Answer, ceiling: &Ceiling) {
        self.held += 1;
        self.steps.raise(answer.steps, ceiling.steps());
        if ceiling.meeting > 1 {
            self.several.raise(answer.steps, ceiling.steps());
        }
        self.grounded.raise(answer.grounded, ceiling.area);
        self.cut += (ceiling.meeting < meeting_under(&sheets[1], &sheets[1].unclipped(), answer.reported())) as u64;
        for (above, low) in self.above.iter_mut().zip(too_low(sheets, answer, ceiling)) {
            *above += (answer.steps > low) as u64;
        }
    }

    /// Prints the shares and how often each low ceiling failed where `told`, and what they lack; answers whether they lack anything.
    pub fn lack(&self, told: bool) -> bool {
        let shares = [("steps / (M × area)", &self.steps), ("steps / (M × area) with M of 2 or more", &self.several)];
        if told {
            println!("ceilings: {} accepted patches held to theirs", self.held);
            for (name, share) in shares.into_iter().chain([("grounded / area", &self.grounded)]) {
                println!("ceilings: greatest {name:38} {share}");
            }
            for (name, times) in TOO_LOW.iter().zip(self.above) {
                println!("ceilings: above that with {name:32} {times:>9}");
            }
            println!("ceilings: {} patches whose M a clip makes less", self.cut);
        }
        let low = shares.into_iter().filter(|(_, share)| share.of_1() < LEAST);
        let low = low.inspect(|(name, share)| println!("the greatest {name} is {share}, less than {LEAST}")).count();
        let never = TOO_LOW.iter().zip(self.above).filter(|(_, times)| *times == 0);
        let never = never.inspect(|(name, _)| println!("no patch was above the ceiling with {name}")).count();
        if self.cut == 0 {
            println!("no patch has an M that a clip makes less");
        }
        low + never > 0 || self.cut == 0
    }
}
