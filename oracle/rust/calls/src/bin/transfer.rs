//! Speed of the panel's steps beside the model's, on the same state, px and registers: a take within a row, a load, a write to the flags, and a box
//! of 132 × 132 pixels loaded and taken to its end. The model is never inlined. It is called as the library is, panel and state by value, so that
//! both copy the state; and, in a column of its own, with references. The smallest time of 200 rounds, the three in turn; every answer is the same.
use answers::{
    panel::{pixels, Answer, Panel, Step},
    random::{Random, SEED},
    state::{Sides, State},
};
use calls::panels;
use std::{fmt::Debug, hint::black_box, time::Instant};

const ROUNDS: usize = 200;
/// How often a single step is made in a round.
const TIMES: usize = 1000;
const HELD: Sides = [20, 30, 152, 162];

/// A way to make a step.
trait By {
    fn step(s: &State, px: &[u32], p: &Panel, step: Step) -> Answer;

    /// One step, often.
    fn often(s: &State, px: &[u32], p: &Panel, step: Step) -> Answer {
        (0..TIMES).map(|_| Self::step(black_box(s), black_box(px), black_box(p), step)).last().expect("a step")
    }

    /// A box loaded and taken to its end: the pixels in one number, and the panel left.
    fn whole(s: &State, px: &[u32]) -> (u32, Panel) {
        let mut p = Self::step(s, px, &Panel::FRESH, Step::Command(1, HELD)).panel;
        let mut sum = 0u32;
        while p.ready() {
            let answer = Self::step(black_box(s), px, &p, Step::Take);
            sum = sum.wrapping_mul(31).wrapping_add(answer.value);
            p = answer.panel;
        }
        (sum, p)
    }
}

struct Library;
struct Model;
struct ByReference;

impl By for Library {
    #[inline(always)]
    fn step(s: &State, px: &[u32], p: &Panel, step: Step) -> Answer {
        panels::call(s, px.as_ptr(), px.len(), p, step)
    }
}

#[inline(never)]
fn by_value(s: State, px: &[u32], p: Panel, step: Step) -> Answer {
    p.step(&s, px, step)
}

impl By for Model {
    #[inline(always)]
    fn step(s: &State, px: &[u32], p: &Panel, step: Step) -> Answer {
        by_value(*s, px, *p, step)
    }
}

impl By for ByReference {
    #[inline(never)]
    fn step(s: &State, px: &[u32], p: &Panel, step: Step) -> Answer {
        p.step(s, px, step)
    }
}

/// The smallest times of three pieces of work in nanoseconds.
fn least<T: PartialEq + Debug>(works: [&dyn Fn() -> T; 3]) -> [f64; 3] {
    let mut least = [f64::MAX; 3];
    let answer = works[0]();
    for i in (0..3 * ROUNDS).map(|round| round % 3) {
        let began = Instant::now();
        let again = works[i]();
        least[i] = least[i].min(began.elapsed().as_nanos() as f64);
        assert_eq!(again, answer);
    }
    least
}

fn row(name: &str, limit: &str, [ours, model, lent]: [f64; 3], steps: usize) {
    let [each, by_model, by_reference] = [ours, model, lent].map(|ns| ns / steps as f64);
    println!("| {name} | {each:.1} | {by_model:.1} | {:.2} | {limit} | {by_reference:.1} |", ours / model);
}

fn main() {
    let (s, mut random) = (State::fresh(640, 400, 640), Random(SEED + 18));
    let px: Vec<u32> = (0..640 * 400).map(|_| random.word()).collect();
    let p = Panel::FRESH.step(&s, &px, Step::Command(1, HELD)).panel;
    println!("| panel, a box of 132 × 132 on 640 × 400 | Rattle ns | model ns | ratio | limit | model, state by reference ns |");
    println!("|---|---|---|---|---|---|");
    for (name, limit, step) in [("take", "3", Step::Take), ("load", "", Step::Command(1, HELD)), ("flag write", "", Step::Flags(128))] {
        let works: [&dyn Fn() -> Answer; 3] =
            [&|| Library::often(&s, &px, &p, step), &|| Model::often(&s, &px, &p, step), &|| ByReference::often(&s, &px, &p, step)];
        row(name, limit, least(works), TIMES);
    }
    let works: [&dyn Fn() -> (u32, Panel); 3] = [&|| Library::whole(&s, &px), &|| Model::whole(&s, &px), &|| ByReference::whole(&s, &px)];
    let whole = least(works);
    row(&format!("the box loaded and taken, {:.0} µs, for each of its 17,424 takes", whole[0] / 1e3), "", whole, pixels(HELD) as usize);
}
