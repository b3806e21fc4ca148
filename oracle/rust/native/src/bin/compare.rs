//! The proved leaf functions against the unchanged Rust: `whole` takes every f32 where a function has one input, else random cases by
//! the ten million; `short` takes some hundred thousand; `shapes` takes the shapes alone. Exit status 1 where any answer differs.
use answers::{
    branches::{self, Taken},
    canvas::{Returned, Walk, WIDTH},
    color,
    frame::{self, Frames},
    geom,
    lent::{bytes, Lent},
    mathf, paint, pattern,
    random::{Random, SEED},
    shape::{self, Call, Given, Scene},
};
use kash::gfx::Canvas;
use native::Drawn;
use std::{env, process::exit, time::Instant};

const BLOCK: usize = 4096;

struct Run {
    whole: bool,
    cases: u64,
    steps: u64,
    frames: String,
    differ: u64,
}

impl Run {
    fn report(&mut self, name: &str, cases: u64, differ: u64, began: Instant) {
        if self.whole || differ > 0 {
            println!("{name:16} {cases:>11} cases, {differ} differ, {:.1} s", began.elapsed().as_secs_f64());
        }
        self.cases += cases;
        self.differ += differ;
    }

    /// Blocks of all patterns, or of every 65,537th.
    fn blocks(&self) -> impl Iterator<Item = Vec<f32>> {
        let step = if self.whole { 1 } else { 65_537 };
        (0..1u64 << 32).step_by(BLOCK * step).map(move |first| {
            let patterns = (first..1 << 32).step_by(step).take(BLOCK);
            patterns.map(|b| f32::from_bits(b as u32)).collect()
        })
    }

    /// A function of one float: `ours` on a block, `rust` on each, compared by their words.
    fn each<T: Default + Copy>(&mut self, name: &str, ours: impl Fn(&[f32], &mut [T]), rust: impl Fn(f32) -> T, word: impl Fn(T) -> u64) {
        let (began, mut cases, mut differ) = (Instant::now(), 0, 0);
        let mut out = vec![T::default(); BLOCK];
        for block in self.blocks() {
            let out = &mut out[..block.len()];
            ours(&block, out);
            for (x, r) in block.iter().zip(out) {
                if word(*r) != word(rust(*x)) {
                    differ += 1;
                    if differ <= 3 {
                        println!("{name} of {:#010x} differs", x.to_bits());
                    }
                }
            }
            cases += block.len() as u64;
        }
        self.report(name, cases, differ, began);
    }

    /// Random cases in the form in which they are stored, checked by the code that replays them.
    fn stored(&mut self, name: &str, area: u32, width: usize, mut case: impl FnMut() -> Vec<u32>) {
        let (began, mut differ) = (Instant::now(), 0);
        let blocks = if self.whole { 2500 } else { 4 };
        for _ in 0..blocks {
            let words: Vec<u32> = (0..BLOCK).flat_map(|_| case()).collect();
            let wrong = native::differing(area, width, &words) as u64;
            if wrong > 0 && differ == 0 {
                for one in words.chunks(width).filter(|one| native::differing(area, width, one) > 0).take(3) {
                    println!("{name} differs: {one:08x?}");
                }
            }
            differ += wrong;
        }
        self.report(name, (blocks * BLOCK) as u64, differ, began);
    }
}

fn copied(f: impl Fn(&mut [f32])) -> impl Fn(&[f32], &mut [f32]) {
    move |xs, out| {
        out.copy_from_slice(xs);
        f(out)
    }
}

fn one_float(run: &mut Run) {
    let float = |x: f32| pattern(x) as u64;
    run.each("sqrt", copied(native::sqrt), kash::mathf::sqrt, float);
    run.each("floor", copied(native::floor), kash::mathf::floor, float);
    run.each("ceil", copied(native::ceil), kash::mathf::ceil, float);
    run.each("to_u8", native::to_u8, |x| x as u8, |n| n as u64);
    run.each("to_u32", native::to_u32, |x| x as u32, |n| n as u64);
    run.each("to_usize", native::to_usize, |x| x as usize, |n| n as u64);
    run.each("to_i32", native::to_i32, |x| x as i32, |n| n as u64);
}

/// Every ink over every old channel at every alpha, through whole slices.
fn blends(run: &mut Run) {
    let (began, mut cases, mut differ) = (Instant::now(), 0, 0);
    let old: Vec<u32> = (0..256).map(|v| v * 0x0101_0101).collect();
    let step = if run.whole { 1 } else { 51 };
    for a in 0..=255u8 {
        for r in (0..=255u8).step_by(step) {
            let (g, b) = (r.wrapping_add(85), r.wrapping_add(170));
            let mut px = old.clone();
            native::blend(&mut px, [r, g, b, a]);
            let rust = |o: u32| kash::color::blend(o, r as u32, g as u32, b as u32, a as u32);
            differ += px.iter().zip(&old).filter(|(p, o)| **p != rust(**o)).count() as u64;
            cases += old.len() as u64;
        }
    }
    run.report("blend, slices", cases, differ, began);
}

/// Three floats for a function of mathf: any patterns, or numbers of a canvas's size.
fn floats(random: &mut Random) -> [f32; 3] {
    match random.below(3) {
        0 => core::array::from_fn(|_| random.bits()),
        1 => [random.within(-8192.0, 8192.0), random.within(-8192.0, 8192.0), random.within(-0.5, 1.5)],
        _ => {
            let edge = random.within(-300.0, 300.0);
            [edge, edge + random.within(0.0, 300.0), random.within(-600.0, 600.0)]
        }
    }
}

fn mathf_cases(run: &mut Run, random: &mut Random) {
    for f in 8..=mathf::NAMES.len() as u32 {
        run.stored(mathf::NAMES[f as usize - 1], 0, 6, || {
            let [a, b, c] = floats(random);
            let r = mathf::answer(f, a, b, c);
            vec![f, a.to_bits(), b.to_bits(), c.to_bits(), r as u32, (r >> 32) as u32]
        });
    }
}

/// Five words for a function of color: a pixel or colour, then any words, fractions or small numbers.
fn parts(random: &mut Random) -> [u32; 5] {
    core::array::from_fn(|i| match random.below(4) {
        _ if i == 0 => random.word(),
        0 => random.word(),
        1 => random.within(-0.1, 1.1).to_bits(),
        _ => random.below(258),
    })
}

fn color_cases(run: &mut Run, random: &mut Random) {
    for f in 1..color::BLACK {
        run.stored(color::NAMES[f as usize - 1], 1, 8, || {
            let w = parts(random);
            let r = color::answer(f, w);
            vec![f, w[0], w[1], w[2], w[3], w[4], r as u32, (r >> 32) as u32]
        });
    }
}

/// A float for a function of rectangles, and an integer of any size for one of boxes.
fn side(random: &mut Random, f: u32) -> u32 {
    match random.below(4) {
        _ if f >= geom::BOXES => (random.word() as i32 >> random.below(32)) as u32,
        0 => random.word(),
        1 => random.within(-40.0, 40.0).floor().to_bits(),
        _ => random.within(-8192.0, 8192.0).to_bits(),
    }
}

fn geom_cases(run: &mut Run, random: &mut Random) {
    for f in 1..geom::ZERO {
        run.stored(geom::NAMES[f as usize - 1], 2, 13, || {
            let words = core::array::from_fn(|_| side(random, f));
            let mut case = vec![f];
            case.extend(words);
            case.extend(geom::answer(f, &words));
            case
        });
    }
}

/// A walk from state to state, in which each call returns each number that it can.
fn canvas_cases(run: &mut Run, random: &mut Random) {
    let mut walk = Walk::new(Random(random.next()), 4, 4, 4);
    let mut returned = Returned::default();
    run.stored("canvas calls", 3, WIDTH, || {
        let case = walk.step();
        returned.add(&case);
        case
    });
    returned.check();
    for number in [0, 2, 6, 7, 8, 12, 15].into_iter().filter(|_| run.whole) {
        println!("canvas calls: number {number:>2} {:>9} times", returned.of(number));
    }
}

/// A float of a paint or a distance: any pattern, or a place on a canvas.
fn place(random: &mut Random) -> u32 {
    match random.below(8) {
        0 => random.word(),
        _ => random.within(-100.0, 300.0).to_bits(),
    }
}

fn paint_cases(run: &mut Run, random: &mut Random) {
    for f in 1..=paint::NAMES.len() as u32 {
        run.stored(paint::NAMES[f as usize - 1], 4, 10, || {
            let mut words: [u32; 8] = core::array::from_fn(|_| place(random));
            match f {
                1 => words[0] = random.within(-0.6, 0.6).to_bits(),
                2 => (),
                _ => (words[4], words[5]) = (random.word(), random.word()),
            }
            let mut case = vec![f];
            case.extend(words);
            case.push(paint::answer(f, words));
            case
        });
    }
}

/// Draws a call on px and dirty scratch; whether px, number, steps and every scratch word are as they must be.
fn same_shape(words: &[u32], need: usize, px: &mut [u32], after: &[u32], steps: u64, random: &mut Random) -> bool {
    let mut scratch = vec![f32::NAN; need + random.below(5) as usize];
    let drawn = native::shape(&native::bytes(words), px, &mut scratch);
    let (used, rest) = scratch.split_at(need);
    let swept = used.iter().all(|x| x.to_bits() == 0) && rest.iter().all(|x| x.to_bits() == f32::NAN.to_bits());
    drawn == Drawn { number: 0, steps } && swept && px == after
}

/// A call with one thing wrong, or two: whether it is refused by its number and alters nothing. None where it is not refused.
fn same_refusal(mut call: Call, scene: &Scene, px: &mut Lent, random: &mut Random) -> Option<(u32, bool)> {
    let (canvas, frame) = (&scene.canvas, scene.frame);
    let (sides, clip) = ([canvas.w, canvas.h], canvas.clip());
    let mut given = Given { sides, pitch: frame.pitch, clip, px: frame.words(), scratch: call.need() };
    (0..1 + random.below(2)).for_each(|_| call.spoil(&mut given, random));
    let number = call.number(&given);
    if number == 0 {
        return None;
    }
    let (before, mut scratch) = (frame::steps(given.px, random.word(), random.word()), vec![f32::NAN; given.scratch]);
    px.lend(bytes(&before), random.below(4) == 0);
    let words = call.words_on(given.sides, given.pitch, given.clip);
    let said = native::shape(&native::bytes(&words), px.words(), &mut scratch);
    let kept = scratch.iter().all(|x| x.to_bits() == f32::NAN.to_bits()) && px.back() == (bytes(&before), true);
    Some((number, said == Drawn { number, steps: 0 } && kept))
}

/// Px of a scene: lent to the proved functions, and as they must be; and room for those of a call that is refused.
struct Px {
    lent: Lent,
    whole: Vec<u32>,
    refused: Lent,
}

impl Px {
    fn new() -> Px {
        let [lent, refused] = [(); 2].map(|_| Lent::new(4 * frame::SELDOM));
        Px { lent, whole: vec![], refused }
    }

    /// The canvas of a scene in its frame, ending at a page that cannot be touched, or, one time in four, beginning at one.
    fn begin(&mut self, scene: &Scene, random: &mut Random) {
        self.whole = scene.frame.laid(&scene.canvas.px, random);
        self.lent.lend(bytes(&self.whole), random.below(4) == 0);
    }
}

/// What a run has seen of shapes: by the shape, calls and those that differ; by the number, refusals, and those that differ; branches taken;
/// frames; the steps that altered a pixel's value, and the chains that altered one at two steps or more.
#[derive(Default)]
struct Seen {
    ran: [u64; shape::NAMES.len()],
    differ: [u64; shape::NAMES.len()],
    refused: [u64; 16],
    wrong: u64,
    taken: Taken,
    frames: Frames,
    steps: u64,
    twice: u64,
}

impl Seen {
    /// One call on the canvas of a scene and on px in which its rows stand; at times refused ones before it.
    fn call(&mut self, scene: &mut Scene, px: &mut Px, random: &mut Random) {
        let call = scene.next(random);
        let (words, f) = (call.words(&scene.canvas, scene.frame.pitch), call.f as usize - 1);
        if random.below(8) == 0 {
            if let Some((number, same)) = same_refusal(call.clone(), scene, &mut px.refused, random) {
                self.refused[number as usize] += 1;
                self.wrong += !same as u64;
            }
        }
        self.taken.count(&call, scene.canvas.clip());
        let altered = call.counted(&mut scene.canvas);
        self.steps += altered.steps;
        self.twice += altered.twice() as u64;
        self.ran[f] += 1;
        self.frames.add(&scene.frame);
        scene.frame.lay(&scene.canvas.px, &mut px.whole);
        let same = same_shape(&words, call.need(), px.lent.words(), &px.whole, altered.steps, random);
        if !same || !px.lent.back().1 {
            self.differ[f] += 1;
            if self.differ[f] <= 3 {
                println!("{} differs: {words:08x?}", shape::NAMES[f]);
            }
            px.lent.lend(bytes(&px.whole), false);
        }
    }

    /// Adds to a run what was seen, and holds it to have seen every number, every branch, every sort of pitch, and a chain that was counted
    /// twice at a pixel.
    fn report(&self, run: &mut Run, began: Instant) {
        for (f, name) in shape::NAMES.iter().enumerate() {
            run.report(name, self.ran[f], self.differ[f], began);
        }
        for number in [6, 8, 9, 12, 13, 15] {
            assert!(self.refused[number] > 0, "no call was refused by {number}");
            if run.whole {
                println!("refused by {number:<17} {:>11} times", self.refused[number]);
            }
        }
        run.report("refused shapes", self.refused.iter().sum(), self.wrong, began);
        for (name, times) in branches::NAMES.map(|name| (name, self.taken.of(name))).into_iter().chain([("polyline: a pixel twice", self.twice)]) {
            if run.whole {
                println!("{name:28} {times:>11} times");
            }
            assert!(times > 0, "no call took the branch {name}");
        }
        assert!(!self.frames.lack(run.whole), "too few sorts of frames");
        run.steps += self.steps;
        run.frames = self.frames.told();
    }
}

/// Sequences of shapes on one canvas, every word of px compared after each call, and its steps.
fn shapes(run: &mut Run, random: &mut Random, calls: u64) {
    let (began, mut seen) = (Instant::now(), Seen::default());
    let mut px = Px::new();
    while seen.ran.iter().sum::<u64>() < calls {
        let mut scene = Scene::new(random);
        px.begin(&scene, random);
        while scene.left > 0 {
            seen.call(&mut scene, &mut px, random);
        }
    }
    seen.report(run, began);
}

/// A shadow whose alpha falls by one level from column to column.
fn falling(alpha: u8) -> Call {
    let white = u32::from_le_bytes([255, 255, 255, alpha]);
    Call { f: shape::SHADOW, kind: 0, paint: [0.0; 4], colours: [white; 2], r: 0.0, width: 48.0, coords: vec![-151.5, -100.0, 200.0, 201.0] }
}

/// A shadow of each alpha, each level that is read a pixel: white at a level over black is that level in each channel.
fn levels(run: &mut Run, random: &mut Random) {
    let (began, mut differ) = (Instant::now(), 0);
    for alpha in 0..=255u8 {
        let (call, mut canvas) = (falling(alpha), Canvas::new(98, 1));
        let mut px = canvas.px.clone();
        let steps = call.counted(&mut canvas).steps;
        for (i, p) in canvas.px.iter().enumerate() {
            let level = if i < 96 { (kash::fraction(i) * alpha as f32 + 0.5) as u32 } else { 0 };
            assert_eq!(*p, level * 0x01_0101, "level {i} of alpha {alpha}");
        }
        let words = call.words(&canvas, canvas.w as usize);
        differ += !same_shape(&words, 0, &mut px, &canvas.px, steps, random) as u64;
    }
    run.report("shadow's levels", 256, differ, began);
}

fn main() {
    let (whole, leaves, calls) = match env::args().nth(1).as_deref() {
        Some("whole") => (true, true, 3_000_000),
        Some("shapes") => (true, false, 3_000_000),
        Some("short") => (false, true, 60_000),
        _ => panic!("usage: compare whole|shapes|short"),
    };
    let mut run = Run { whole, cases: 0, steps: 0, frames: String::new(), differ: 0 };
    let mut random = Random(SEED + 3);
    if leaves {
        one_float(&mut run);
        blends(&mut run);
        mathf_cases(&mut run, &mut random);
        color_cases(&mut run, &mut random);
        geom_cases(&mut run, &mut random);
        paint_cases(&mut run, &mut random);
        canvas_cases(&mut run, &mut random);
    }
    shapes(&mut run, &mut random, calls);
    levels(&mut run, &mut random);
    let shapes = format!("{} steps of shapes, {}", run.steps, run.frames);
    println!("comparison with the Rust: {} cases, {shapes}, {} differences", run.cases, run.differ);
    if run.differ > 0 {
        exit(1);
    }
}
