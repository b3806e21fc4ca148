//! Speed of painting and patching a ticket beside the unchanged Rust: `ticket SHEET OTHER FOLDER`, two files of sheets that differ in one
//! shape, and a folder of four sheets, each with one shape other than in the one before. The smallest time of 200 rounds, the two in turn.
//! The Rust draws items that were read before, on a canvas that is there. How many steps of the ticket's shapes altered a pixel is told with it,
//! each answer being held to what the Rust gives. Then what a patch costs by the area of its box and by the number
//! of items, and under a clip of few columns, beside the box that it would have before any clip; what one patch of three shapes costs beside three
//! patches of one, and what checking a sheet of about 60,000 bytes costs
//! beside painting it, and measuring it beside checking it; and what a weight trace costs as one chain beside the same lines as items.
//! All of this is on a canvas alone; then what painting, patching and clearing cost within a wider frame beside that.
//! Beside each patch stand the steps that it returned, which must be those of the Rust, and their ceiling, M × area.
use answers::frame::Frame;
use calls::raw::{maldjupp_clear, maldjupp_measure, maldjupp_paint, maldjupp_patch, Done, Ink, State};
use kash::{color::Color, gfx::Canvas};
use sheets::{
    boxes, called,
    fixed::{self, width},
    fixed_chains::chain,
    make, measure, paint, patch, Answer, Ceiling, Made, Sheet,
};
use std::{env, fs, hint::black_box, time::Instant};

const ROUNDS: usize = 200;

fn micros<T>(least: &mut f64, work: impl FnOnce() -> T) -> T {
    let began = Instant::now();
    let given = work();
    *least = least.min(began.elapsed().as_nanos() as f64 / 1e3);
    given
}

/// The steps that a patch to a sheet returned, and their ceiling.
fn of_ceiling(new: &[u8], answer: &Answer) -> String {
    let ceiling = Ceiling::of(&Sheet::read(new).expect("a sound sheet"), answer.reported());
    assert_eq!((answer.number, ceiling.fault(answer)), (0, None), "{answer:?} with {ceiling:?}");
    format!("{} of {}", answer.steps, ceiling.steps())
}

#[inline(never)]
fn by_rust(sheet: &Sheet, canvas: &mut Canvas) {
    canvas.clear(sheet.ground());
    sheet.items.iter().for_each(|(item, _)| item.draw(canvas));
}

/// A sheet 640 × 400 of n fills: 12 × 12 each, and then some that are given, each x, y, w, h and colour.
fn sheet_of(n: usize, last: &[([f32; 4], [u8; 3])]) -> Vec<u8> {
    let mut out: Vec<u8> = [640u16, 400].iter().flat_map(|v| v.to_le_bytes()).collect();
    out.extend([240, 240, 240, 0]);
    out.extend((n as u16).to_le_bytes());
    out.extend([0, 0]);
    for k in 0..n {
        out.extend(((12 + 4 * n + 52 * k) as u16).to_le_bytes());
        out.extend(52u16.to_le_bytes());
    }
    let plain = (0..n - last.len()).map(|k| ([(k * 37 % 620) as f32 + 0.5, (k * 53 % 380) as f32 + 0.25, 12.0, 12.0], [200, (k % 256) as u8, 60]));
    for ([x, y, w, h], [r, g, b]) in plain.chain(last.iter().copied()) {
        out.extend([3, 0, 0, 0]);
        out.extend([x, y, w, h, 3.0f32].iter().flat_map(|v| v.to_le_bytes()));
        out.extend([0, 0, 0, 0, r, g, b, 255]);
        out.extend([0; 20]);
    }
    out
}

/// A sheet of n fills, the last of which is a square of a side.
fn fills(n: usize, side: f32) -> Vec<u8> {
    sheet_of(n, &[([20.0, 20.0, side, side], [200, ((n - 1) % 256) as u8, 60])])
}

/// Four sheets of n fills, of which the last three, in a corner of a terminal, are gross bar, tare bar and grade: each sheet has one of
/// them other than in the one before.
fn weighing(n: usize) -> [Vec<u8>; 4] {
    [0, 1, 2, 3].map(|settled| {
        let bar = |place: usize, y: f32| ([20.0, y, if place < settled { 44.0 } else { 30.0 }, 4.0], [32, 122, 78]);
        let grade = if settled == 3 { [184, 115, 51] } else { [236, 235, 230] };
        sheet_of(n, &[bar(0, 40.0), bar(1, 46.0), ([20.0, 20.0, 44.0, 16.0], grade)])
    })
}

/// Two sheets 640 × 400 of 60 items: a push of so many columns, a panel of 600 × 360, which has another colour in the second, and 58 small fills.
fn clipped(columns: f32) -> [Vec<u8>; 2] {
    [0, 60].map(|blue| {
        let panel = fixed::fill(20.0, 20.0, 600.0, 360.0, [244, 246, blue, 255]);
        let small = |k: usize| fixed::fill((k * 37 % 620) as f32, (k * 53 % 380) as f32, 12.0, 12.0, [200, k as u8, 60, 255]);
        let items = [fixed::push(320.0 - (columns / 2.0).floor(), 0.0, columns, 400.0), panel].into_iter().chain((0..58).map(small)).collect();
        Made { w: 640, h: 400, ground: [240; 3], items }.bytes()
    })
}

/// The smallest times of painting a sheet and of patching it to another; and what the patch returns.
fn costs(sheet: &[u8], other: &[u8]) -> ([f64; 2], Answer) {
    let mut px = vec![0u32; 640 * 400];
    let mut least = [f64::MAX; 2];
    let patched = patch(sheet, other, 640, px.len(), 0).on(&Sheet::read(sheet).expect("a sound sheet").fresh()).answer;
    for _ in 0..ROUNDS {
        let (p, m) = (px.as_mut_ptr(), px.len());
        let none = std::ptr::NonNull::<f32>::dangling().as_ptr();
        micros(&mut least[0], || assert_eq!(black_box(unsafe { maldjupp_paint(sheet.as_ptr(), sheet.len(), 640, p, m, none, 0) }).number, 0));
        let answer = micros(&mut least[1], || {
            black_box(unsafe { maldjupp_patch(sheet.as_ptr(), sheet.len(), other.as_ptr(), other.len(), 640, p, m, none, 0) })
        });
        assert_eq!(answer, patched);
    }
    (least, patched)
}

/// The smallest times of having a sheet refused by 8 after its checks, no pixels being lent, and of measuring it; the two in turn.
fn checks(sheet: &[u8]) -> [f64; 2] {
    let (room, pitch) = (measure(sheet), width(sheet));
    let (px, scratch) = (std::ptr::NonNull::<u32>::dangling().as_ptr(), std::ptr::NonNull::<f32>::dangling().as_ptr());
    let mut least = [f64::MAX; 2];
    for _ in 0..ROUNDS {
        micros(&mut least[0], || assert_eq!(black_box(unsafe { maldjupp_paint(sheet.as_ptr(), sheet.len(), pitch, px, 0, scratch, 0) }).number, 8));
        micros(&mut least[1], || assert_eq!(black_box(unsafe { maldjupp_measure(sheet.as_ptr(), sheet.len()) }), room));
    }
    least
}

/// The smallest times of the three patches from each of four sheets to the next, and of one patch from the first to the last; its answer.
fn sets(sheets: &[Vec<u8>; 4]) -> ([f64; 4], Answer) {
    let read = sheets.each_ref().map(|s| Sheet::read(s).expect("a sound sheet"));
    let fresh = read.each_ref().map(Sheet::fresh);
    let mut px = fresh[0].clone();
    let mut scratch = vec![0f32; read.iter().map(Sheet::need).max().unwrap_or(0)];
    let mut least = [f64::MAX; 4];
    let pairs = [(0, 1), (1, 2), (2, 3), (0, 3)];
    let pitch = read[0].w;
    let answers = pairs.map(|(from, to)| patch(&sheets[from], &sheets[to], pitch, px.len(), scratch.len()).on(&fresh[from]).answer);
    for _ in 0..ROUNDS {
        for (i, (from, to)) in pairs.into_iter().enumerate() {
            px.copy_from_slice(&fresh[from]);
            let (old, new) = (&sheets[from], &sheets[to]);
            let answer = micros(&mut least[i], || {
                let (p, m, s, k) = (px.as_mut_ptr(), px.len(), scratch.as_mut_ptr(), scratch.len());
                black_box(unsafe { maldjupp_patch(old.as_ptr(), old.len(), new.as_ptr(), new.len(), pitch, p, m, s, k) })
            });
            assert_eq!(answer, answers[i]);
            assert!(answer.number == 0 && px == fresh[to]);
        }
    }
    (least, answers[3])
}

fn sets_by_items(ticket: &[Vec<u8>; 4]) {
    println!("\n| gross bar, tare bar and grade, box | three patches µs | one patch µs | ratio | target | its steps of ceiling |");
    println!("|---|---|---|---|---|---|");
    let row = |name: &str, sheets: &[Vec<u8>; 4]| {
        let ([gross, tare, grade, at_once], area) = sets(sheets);
        let (three, w, h) = (gross + tare + grade, area.x1 - area.x0, area.y1 - area.y0);
        let (sum, steps) = (format!("{gross:.1} + {tare:.1} + {grade:.1} = {three:.1}"), of_ceiling(&sheets[3], &area));
        println!("| {name}, {w} × {h} | {sum} | {at_once:.1} | {:.2} | 0.45 | {steps} |", at_once / three);
    };
    for n in [20, 60, 200, 1000] {
        row(&format!("{n} items"), &weighing(n));
    }
    let items = Sheet::read(&ticket[0]).expect("a sound sheet").items.len();
    row(&format!("the ticket of {items} items"), ticket);
}

fn sizes() {
    println!("\n| patch, 60 items, box | painted µs | patched µs | ratio | steps of ceiling |\n|---|---|---|---|---|");
    let row = |name: &str, sheet: &[u8], other: &[u8]| {
        let ([painted, patched], answer) = costs(sheet, other);
        println!("| {name} | {painted:.1} | {patched:.1} | {:.3} | {} |", patched / painted, of_ceiling(other, &answer));
    };
    for side in [8, 32, 64, 128, 256] {
        row(&format!("{side} × {side}"), &fills(60, side as f32), &fills(60, side as f32 - 1.0));
    }
    println!("\n| patch, box 32 × 32, items | painted µs | patched µs | ratio | steps of ceiling |\n|---|---|---|---|---|");
    for n in [10, 60, 200, 500, 1000] {
        row(&n.to_string(), &fills(n, 32.0), &fills(n, 31.0));
    }
    let sheet = fills(1000, 32.0);
    let ([_, patched], answer) = costs(&sheet, &sheet);
    println!("\n| patch between equal sheets, items | patched µs | steps of ceiling |");
    println!("|---|---|---|\n| 1000 | {patched:.1} | {} |", of_ceiling(&sheet, &answer));
}

/// What a patch costs where a clip leaves so many columns of the panel that differs: its box is theirs, and not that of the whole reach.
fn columns() {
    println!("\n| patch, 60 items under a clip of columns | box before any clip | box | painted µs | patched µs | ratio | steps of ceiling |");
    println!("|---|---|---|---|---|---|---|");
    for columns in [640, 128, 32, 8, 1] {
        let pair = clipped(columns as f32);
        let ([painted, patched], answer) = costs(&pair[0], &pair[1]);
        let before = boxes::unclipped(&pair.each_ref().map(|bytes| Sheet::read(bytes).expect("a sound sheet")));
        let [before, area] = [before, answer.reported()].map(|area| format!("{} × {}", area.w(), area.h()));
        let steps = of_ceiling(&pair[1], &answer);
        println!("| {columns} | {before} | {area} | {painted:.1} | {patched:.1} | {:.3} | {steps} |", patched / painted);
    }
}

fn largest() {
    let sheet = fills(1024, 32.0);
    let (([painted, _], _), [checked, measured]) = (costs(&sheet, &sheet), checks(&sheet));
    println!("\n| sheet of {} bytes | µs |\n|---|---|\n| painted | {painted:.1} |", sheet.len());
    println!("| read and checked | {checked:.1}, {:.1} % |", 100.0 * checked / painted);
    println!("| measured | {measured:.1}, measuring / checking {:.2}, limit 1.5 |", measured / checked);
}

/// A settling weight: 64 points over 372 × 160 pixels.
fn points() -> Vec<f32> {
    let at = |i: usize| {
        let t = i as f32 / 63.0;
        [6.0 + 372.0 * t, 168.0 - 120.0 * (1.0 - (-6.0 * t).exp() * (16.0 * t).cos())]
    };
    (0..64).flat_map(at).collect()
}

/// Two sheets 384 × 176 of the same pixels: a panel, a small square and a trace of m points, once as a chain and once as 63 lines, of which
/// those past the last point have alpha 0.
fn traced(m: usize, panel: u8, square: u8) -> [Vec<u8>; 2] {
    let (points, ink) = (points(), |alpha| [36, 66, 104, alpha]);
    let line = |i: usize| {
        let ends = [&points[2 * i..2 * i + 4], &[3.0]].concat();
        [make::bytes([5, 0, 0, 0], &ends), ink(if i + 1 < m { 255 } else { 0 }).to_vec()].concat()
    };
    let under = [fixed::fill(0.0, 0.0, 384.0, 176.0, [244, 246, panel, 255]), fixed::fill(40.0, 30.0, 32.0, 32.0, [232, 233, square, 255])];
    let traces = [vec![chain(&points[..2 * m], 3.0, ink(255))], (0..63).map(line).collect()];
    traces.map(|trace| Made { w: 384, h: 176, ground: [222, 219, 210], items: [&under[..], &trace].concat() }.bytes())
}

/// The smallest times of a call with the sheets as chain and as lines, in turn, each on the pixels of the old sheet; and what they return.
fn beside(old: [Vec<u8>; 2], new: &[Vec<u8>; 2], patched: bool) -> ([f64; 2], [Answer; 2]) {
    let fresh = |sheet: &[u8]| Sheet::read(sheet).expect("a sound sheet").fresh();
    let (before, after) = (fresh(&old[0]), fresh(&new[0]));
    assert!(before == fresh(&old[1]) && after == fresh(&new[1]), "chain and lines have the same pixels");
    let (mut px, m, none, mut least) = (before.clone(), before.len(), std::ptr::NonNull::<f32>::dangling().as_ptr(), [f64::MAX; 2]);
    let pitch = width(&old[0]);
    let answers = [0, 1].map(|i| called(patched.then_some(&old[i]), &new[i], pitch, m, 0).on(&before).answer);
    for i in (0..2 * ROUNDS).map(|round| round % 2) {
        px.copy_from_slice(&before);
        let (old, new, p) = (&old[i], &new[i], px.as_mut_ptr());
        micros(&mut least[i], || {
            let answer = if patched {
                unsafe { maldjupp_patch(old.as_ptr(), old.len(), new.as_ptr(), new.len(), pitch, p, m, none, 0) }
            } else {
                unsafe { maldjupp_paint(new.as_ptr(), new.len(), pitch, p, m, none, 0) }
            };
            assert_eq!(black_box(answer), answers[i]);
        });
        assert!(px == after);
    }
    (least, answers)
}

fn traces() {
    println!("\n| chain of 64 points beside 63 line items | chain µs | lines µs | ratio | target | steps of ceiling |");
    println!("|---|---|---|---|---|---|");
    let each = |[one, other]: [String; 2]| if one == other { one } else { format!("{one} beside {other}") };
    let row = |name: &str, old, new: [Vec<u8>; 2], patched, target: &str| {
        let ([chain, lines], answers) = beside(old, &new, patched);
        let area = each(answers.map(|a| format!("{} × {}", a.x1 - a.x0, a.y1 - a.y0)));
        let steps = if patched { each([0, 1].map(|i| of_ceiling(&new[i], &answers[i]))) } else { String::new() };
        println!("| {name} {area} | {chain:.1} | {lines:.1} | {:.2} | {target} | {steps} |", chain / lines);
    };
    let whole = || traced(64, 248, 230);
    row("painted,", whole(), whole(), false, "1.0");
    row("patched, the panel beneath alters, box", whole(), traced(64, 240, 230), true, "1.0");
    row("patched, a square beneath a part alters, box", whole(), traced(64, 248, 180), true, "1.0");
    row("patched, the last point is added, box", traced(63, 248, 230), whole(), true, "");
}

/// How many steps of the ticket's shapes altered a pixel, painted and patched, beside the pixels in their reach and clip.
fn busy(painting: &Answer, patching: &Answer, pixels: u64) {
    let [painted, patched] = [painting, patching].map(|answer| (answer.steps, 100.0 * answer.steps as f64 / pixels as f64));
    let reached = format!("of the {pixels} pixels in their reach and clip");
    print!("\nPainted, the ticket's shapes altered a pixel at {} steps, {:.1} % {reached}; ", painted.0, painted.1);
    println!("patched, at {} steps, {:.1} %.", patched.0, patched.1);
}

/// Times a ticket beside the Rust: painted on its own pixels and then patched to the other, the two in turn.
fn ticket(bytes: &[Vec<u8>; 2]) {
    let sheets = bytes.each_ref().map(|b| Sheet::read(b).expect("a sound sheet"));
    let fresh = sheets.each_ref().map(Sheet::fresh);
    let (mut canvas, mut px) = (Canvas::new(sheets[0].w as i32, sheets[0].h as i32), fresh[0].clone());
    let mut scratch = vec![0f32; sheets[0].need().max(sheets[1].need())];
    let (pitch, m, k) = (sheets[0].w, px.len(), scratch.len());
    let painting = [0, 1].map(|i| paint(&bytes[i], pitch, m, k).on(&fresh[i]).answer);
    let patching = [0, 1].map(|i| patch(&bytes[i], &bytes[1 - i], pitch, m, k).on(&fresh[i]).answer);
    assert_eq!(patching[0].number, 0, "the sheets differ in more than shapes");
    let (mut painted, mut patched, mut rust) = (f64::MAX, f64::MAX, f64::MAX);
    for i in (0..ROUNDS).map(|round| round % 2) {
        let (old, new, p, s) = (&bytes[i], &bytes[1 - i], px.as_mut_ptr(), scratch.as_mut_ptr());
        micros(&mut painted, || assert_eq!(black_box(unsafe { maldjupp_paint(old.as_ptr(), old.len(), pitch, p, m, s, k) }), painting[i]));
        micros(&mut patched, || {
            let answer = unsafe { maldjupp_patch(old.as_ptr(), old.len(), new.as_ptr(), new.len(), pitch, p, m, s, k) };
            assert_eq!(black_box(answer), patching[i]);
        });
        micros(&mut rust, || by_rust(black_box(&sheets[1 - i]), &mut canvas));
        assert!(px == canvas.px);
    }
    let (n, area) = (sheets[0].items.len(), patching[0]);
    println!("| ticket, {} × {}, {n} items | Rattle µs | Rust µs | ratio | steps of ceiling |", canvas.w, canvas.h);
    println!("|---|---|---|---|---|");
    println!("| painted | {painted:.0} | {rust:.0} | {:.2} |  |", painted / rust);
    let (w, h, steps) = (area.x1 - area.x0, area.y1 - area.y0, of_ceiling(&bytes[1], &area));
    println!("| patched, box {w} × {h}; the Rust paints it anew | {patched:.0} | {rust:.0} | {:.2} | {steps} |", patched / rust);
    let [checked, measured] = checks(&bytes[0]);
    println!("| measured; read and checked alone {checked:.1} | {measured:.1} |  |  |  |");
    busy(&painting[0], &patching[0], measure(&bytes[0]).pixels);
}

/// The pitches at which a canvas of w columns is timed: its own, and those whose rows lie as far from each other as they can, just so that
/// they fall on the same sets of a cache, and not.
fn pitches(w: usize) -> [usize; 3] {
    [w, 4080, 4096]
}

/// The smallest times at each pitch, in turn, of a call on px in a frame, before which the canvas has the first pixels and after which it must
/// have the second, the words past it as they were.
fn in_frames(w: usize, h: usize, [before, after]: [&[u32]; 2], mut call: impl FnMut(usize, &mut [u32])) -> [f64; 3] {
    let frames = pitches(w).map(|pitch| Frame { w, h, pitch });
    let lent = frames.map(|frame| vec![0x5a5a_5a5a; frame.words()]);
    let [mut px, mut whole] = [lent.clone(), lent];
    let mut least = [f64::MAX; 3];
    for i in 0..3 {
        frames[i].lay(after, &mut whole[i]);
    }
    for i in (0..3 * ROUNDS).map(|round| round % 3) {
        frames[i].lay(before, &mut px[i]);
        micros(&mut least[i], || call(frames[i].pitch, black_box(&mut px[i])));
        assert!(px[i] == whole[i]);
    }
    least
}

/// Prints what a call costs in frames.
fn row_in_frames(name: &str, [alone, apart, far]: [f64; 3], limit: &str) {
    println!("| {name} | {alone:.1} | {apart:.1} | {:.2} | {far:.1} | {:.2} | {limit} |", apart / alone, far / alone);
}

/// What a ticket, a sheet of many small fills and `clear` cost in frames.
fn in_wider_frames(bytes: &[Vec<u8>; 2]) {
    println!("\n| within a frame, 640 × 400 | pitch 640 µs | pitch 4,080 µs | ratio | pitch 4,096 µs | ratio | limit |");
    println!("|---|---|---|---|---|---|---|");
    let sheets = bytes.each_ref().map(|b| Sheet::read(b).expect("a sound sheet"));
    let [old, new] = sheets.each_ref().map(Sheet::fresh);
    let (w, h, need) = (sheets[0].w, sheets[0].h, sheets[0].need().max(sheets[1].need()));
    let (mut scratch, mut room) = (vec![0f32; need], vec![0f32; need]);
    let mut painted = |sheet: &[u8], pitch, px: &mut [u32]| {
        let (p, m, s) = (px.as_mut_ptr(), px.len(), scratch.as_mut_ptr());
        assert_eq!(black_box(unsafe { maldjupp_paint(sheet.as_ptr(), sheet.len(), pitch, p, m, s, need) }).number, 0);
    };
    let patched = |pitch, px: &mut [u32]| {
        let [old, new] = bytes;
        let (p, m, s) = (px.as_mut_ptr(), px.len(), room.as_mut_ptr());
        let answer = unsafe { maldjupp_patch(old.as_ptr(), old.len(), new.as_ptr(), new.len(), pitch, p, m, s, need) };
        assert_eq!(black_box(answer).number, 0);
    };
    row_in_frames("ticket, painted", in_frames(w, h, [&new, &old], |pitch, px| painted(&bytes[0], pitch, px)), "1.3 at 4,096");
    row_in_frames("ticket, patched", in_frames(w, h, [&old, &new], patched), "");
    let many = fills(1024, 32.0);
    let fresh = Sheet::read(&many).expect("a sound sheet").fresh();
    let on_black = vec![0; fresh.len()];
    row_in_frames("1024 small fills, painted", in_frames(640, 400, [&on_black, &fresh], |pitch, px| painted(&many, pitch, px)), "");
    row_in_frames("clear", in_frames(640, 400, [&on_black, &vec![0x0020_40f0; fresh.len()]], cleared), "");
}

/// Clears a canvas of 640 × 400 within a frame.
fn cleared(pitch: usize, px: &mut [u32]) {
    let canvas = State { w: 640, h: 400, pitch, clip: [0, 0, 640, 400], saved: [[0; 4]; 16], depth: 0 };
    let done = unsafe { maldjupp_clear(canvas, px.as_mut_ptr(), px.len(), Ink { rgba: [0x20, 0x40, 0xf0, 0xff] }) };
    assert_eq!(black_box(done), Done { number: 0, state: canvas });
}

/// `clear` of a canvas alone beside the Rust's.
fn clearing() {
    let (mut canvas, mut px) = (Canvas::new(640, 400), vec![0; 640 * 400]);
    let (mut ours, mut rust) = (f64::MAX, f64::MAX);
    for _ in 0..ROUNDS {
        px.fill(7);
        micros(&mut ours, || cleared(640, black_box(&mut px)));
        canvas.px.fill(7);
        micros(&mut rust, || black_box(&mut canvas).clear(Color::rgb(0x20, 0x40, 0xf0)));
        assert!(px == canvas.px);
    }
    println!("\n| canvas call, 640 × 400 | Rattle µs | Rust µs | ratio |\n|---|---|---|---|");
    println!("| clear | {ours:.1} | {rust:.1} | {:.2} |", ours / rust);
}

fn main() {
    let word = |i: usize| env::args().nth(i).expect("usage: ticket SHEET OTHER FOLDER");
    let file = |i: usize| fs::read(word(i)).expect("a file");
    let settled = ["0-before", "1-gross", "2-tare", "3-grade"].map(|name| fs::read(format!("{}/{name}.sheet", word(3))).expect("a file"));
    ticket(&[file(1), file(2)]);
    sizes();
    columns();
    largest();
    sets_by_items(&settled);
    traces();
    clearing();
    in_wider_frames(&[file(1), file(2)]);
}
