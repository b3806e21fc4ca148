//! Speed of the proved functions beside the Rust: the smallest time over interleaved rounds, each over a slice of 4,096 or of shapes.
use answers::{
    random::{Random, SEED},
    shape::Call,
};
use kash::gfx::Canvas;
use std::{hint::black_box, time::Instant};

const N: usize = 4096;
const ROUNDS: usize = 2000;

/// The smallest time of a round, in nanoseconds.
#[derive(Clone, Copy)]
struct Best(f64);

impl Best {
    fn round(&mut self, work: impl FnOnce()) {
        let began = Instant::now();
        work();
        self.0 = self.0.min(began.elapsed().as_nanos() as f64);
    }
}

/// Times two functions over the same data, in turn, and prints a row.
fn row<D>(name: &str, target: &str, data: &mut D, reset: impl Fn(&mut D), rattle: impl Fn(&mut D), rust: impl Fn(&mut D)) {
    let (mut ours, mut theirs) = (Best(f64::MAX), Best(f64::MAX));
    for _ in 0..ROUNDS {
        reset(data);
        ours.round(|| rattle(black_box(data)));
        reset(data);
        theirs.round(|| rust(black_box(data)));
    }
    let n = N as f64;
    println!("| {name} | {:.2} | {:.2} | {:.2} | {target} |", ours.0 / n, theirs.0 / n, ours.0 / theirs.0);
}

fn in_place(name: &str, target: &str, xs: &[f32], rattle: fn(&mut [f32]), rust: fn(&mut [f32])) {
    let mut work = xs.to_vec();
    row(name, target, &mut work, |w| w.copy_from_slice(xs), |w| rattle(w), |w| rust(w));
}

fn converted<T: Default + Clone>(name: &str, target: &str, xs: &[f32], rattle: fn(&[f32], &mut [T]), rust: fn(&[f32], &mut [T])) {
    let mut out = vec![T::default(); N];
    row(name, target, &mut out, |_| (), |out| rattle(black_box(xs), out), |out| rust(black_box(xs), out));
}

/// Times calls that follow each other on a canvas of 640 × 400, and prints a row.
fn drawn(name: &str, target: &str, calls: &[Call]) {
    let mut canvas = Canvas::new(640, 400);
    let mut px = canvas.px.clone();
    let words: Vec<Vec<u8>> = calls.iter().map(|call| native::bytes(&call.words(&canvas, canvas.w as usize))).collect();
    let mut scratch = vec![0.0; calls.iter().map(Call::need).max().unwrap_or(0)];
    let (mut ours, mut theirs) = (Best(f64::MAX), Best(f64::MAX));
    for _ in 0..ROUNDS / 5 {
        ours.round(|| words.iter().for_each(|call| assert_eq!(native::shape(black_box(call), &mut px, &mut scratch).number, 0)));
        theirs.round(|| calls.iter().for_each(|call| black_box(call).draw(&mut canvas)));
    }
    assert!(px == canvas.px);
    println!("| {name} | {:.2} | {:.2} | {:.2} | {target} |", ours.0 / 1e3, theirs.0 / 1e3, ours.0 / theirs.0);
}

/// A call at a place: numbers of shape f, of 200 × 100 where it has sides.
fn at(f: u32, kind: u32, x: f32, y: f32, alpha: u32) -> Call {
    let star = |i: u32| {
        let (far, turn) = (if i % 2 == 0 { 80.0 } else { 40.0 }, i as f32 * core::f32::consts::PI / 12.0);
        [x + 80.0 + far * turn.cos(), y + 80.0 + far * turn.sin()]
    };
    let coords = match f {
        1 => vec![x, y, x + 200.0, y + 100.0],
        8 => (0..24).flat_map(star).collect(),
        _ => vec![x, y, 200.0, 100.0],
    };
    let (r, width) = match f {
        6 => (0.0, 0.0),
        9 => (12.0, 16.0),
        _ => (12.0, 3.0),
    };
    Call { f, kind, paint: [y, y + 100.0, 0.0, 0.0], colours: [alpha << 24 | 0x30_60_c0, alpha << 24 | 0xf0_80_20], r, width, coords }
}

fn shapes() {
    println!("\n| shape, on 640 × 400 | Rattle µs | Rust µs | ratio | target |\n|---|---|---|---|---|");
    drawn("fill of no size: the call alone", "", &[Call { coords: vec![0.0; 4], ..at(6, 0, 0.0, 0.0, 255) }]);
    drawn("fill, opaque, 200 × 100", "1.0", &[at(6, 0, 20.0, 30.0, 255)]);
    drawn("fill, alpha 128, 200 × 100", "1.0", &[at(6, 0, 20.0, 30.0, 128)]);
    drawn("fill, rounded, gradient down", "1.0", &[at(5, 1, 20.5, 30.5, 255)]);
    drawn("stroke, rounded", "2", &[at(3, 0, 20.5, 30.5, 200)]);
    drawn("line, width 3", "3", &[at(1, 0, 20.5, 30.5, 200)]);
    drawn("polygon, 24 points", "1.2", &[at(8, 0, 20.5, 30.5, 200)]);
    drawn("shadow, blur 16", "1.3", &[at(9, 0, 40.5, 30.5, 120)]);
    let small = Call { r: 2.0, width: 2.0, coords: vec![40.5, 30.5, 12.0, 12.0], ..at(9, 0, 0.0, 0.0, 120) };
    drawn("shadow, blur 2, 12 × 12", "", &[small]);
    let ticket: Vec<Call> = (0..60).map(|i| at([9, 5, 6, 3, 1, 8][i % 6], [1, 1, 0, 0, 0, 2][i % 6], 10.5 + (i * 7) as f32, 5.5 + (i * 4) as f32, 200)).collect();
    drawn("ticket of 60 shapes", "", &ticket);
}

fn main() {
    let mut random = Random(SEED + 4);
    let px: Vec<u32> = (0..N).map(|_| random.word() & 0x00ff_ffff).collect();
    let plane: Vec<f32> = (0..N).map(|_| random.within(-8192.0, 8192.0)).collect();
    let squares: Vec<f32> = (0..N).map(|_| random.within(0.25, 8192.0)).collect();
    let levels: Vec<f32> = (0..N).map(|_| random.within(0.0, 255.5)).collect();
    let ink = black_box([200, 3, 90, 128]);
    println!("| function, a slice of {N} | Rattle ns | Rust ns | ratio | target |\n|---|---|---|---|---|");
    let mut work = px.clone();
    row("blend, alpha 128", "0.8", &mut work, |w| w.copy_from_slice(&px), |w| native::blend(w, ink), |w| plain::blend(w, ink));
    in_place("floor", "1.0", &plane, native::floor, plain::floor);
    in_place("ceil", "", &plane, native::ceil, plain::ceil);
    converted("to_u32, 0 to 255.5", "1.3", &levels, native::to_u32, plain::to_u32);
    converted("to_u8, 0 to 255.5", "1.3", &levels, native::to_u8, plain::to_u8);
    converted("to_i32, either way", "", &plane, native::to_i32, plain::to_i32);
    converted("to_usize, 0 to 255.5", "", &levels, native::to_usize, plain::to_usize);
    in_place("sqrt", "15 ns or 6.0", &squares, native::sqrt, plain::sqrt);
    shapes();
}
