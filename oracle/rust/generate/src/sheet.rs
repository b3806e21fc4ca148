//! The cases of sheets and patches: calls on canvases of up to 64 pixels, alone or in a wider frame, each with all that the call returns and
//! leaves.
use crate::{framed, left, Stored, WORDS};
use answers::{
    frame::{pitch_ok, steps, Frame},
    random::{Random, SEED},
};
use kash::geom::IRect;
use sheets::{
    boxes, called,
    chains::unseen,
    change::{self, APART, DAMAGED_NEW, DAMAGED_OLD, ONE_SHAPE, PITCH, PX, SCRATCH},
    columns::with_columns,
    damage::damaged,
    fixed,
    item::EMPTY,
    make, After, Chains, Expected, Item, Made, Sheet,
};
use std::ops::Range;

/// Words of a case, and the most that it has of pixels, scratch, and words of its sheets.
const WIDTH: usize = 254;
const PIXELS: usize = 64;
const SCRATCH_WORDS: usize = 4096;
const SHEETS: usize = 171;

const PAINT: u32 = 1;
const PATCH: u32 = 2;
const AFTER: u32 = 3;

const CASES: usize = 400;
const SIDES: [[u16; 2]; 8] = [[1, 1], [8, 8], [16, 4], [4, 16], [10, 6], [7, 9], [64, 1], [1, 64]];

/// The places of a case's number, box and counts, of the scratch words left +0, and of the pitch of what is left in px.
const NUMBER: usize = 8;
const BOX: usize = 10;
const COUNTS: usize = 14;
const SWEPT: usize = 16;
const LEFT: usize = 17;

/// A call that a case can hold: its pitch, and that of the painting before it or else its own.
struct Given {
    f: u32,
    old: Vec<u8>,
    new: Vec<u8>,
    pitch: usize,
    painted: usize,
    px: usize,
    scratch: usize,
}

fn words(bytes: &[u8]) -> Vec<u32> {
    let mut all = bytes.to_vec();
    all.resize(bytes.len().div_ceil(4) * 4, 0);
    all.chunks(4).map(|b| u32::from_le_bytes([b[0], b[1], b[2], b[3]])).collect()
}

impl Given {
    fn fits(&self) -> bool {
        let need = |bytes: &[u8]| Sheet::read(bytes).map_or(0, |sheet| sheet.need());
        let most = need(&self.old).max(need(&self.new));
        let long = self.old.len().div_ceil(4) + self.new.len().div_ceil(4);
        let words = u32::try_from(self.pitch).is_ok() && self.px <= WORDS && self.frame().is_none_or(|frame| frame.w * frame.h <= PIXELS);
        long <= SHEETS && words && self.scratch.max(if self.f == AFTER { most } else { 0 }) <= SCRATCH_WORDS
    }

    fn expected(&self) -> Expected {
        called((self.f != PAINT).then_some(&self.old), &self.new, self.pitch, self.px, self.scratch)
    }

    /// The frame that the old sheet is painted in before the call.
    fn before(&self) -> Option<Frame> {
        let old = Sheet::read(&self.old).ok().filter(|_| self.f == AFTER)?;
        Some(Frame { w: old.w, h: old.h, pitch: self.painted })
    }

    /// The frame in which pixels stand after the call, other than those that run in equal steps.
    fn frame(&self) -> Option<Frame> {
        self.before().or(self.expected().frame())
    }

    /// Px before the call, where they run in equal steps before a painting.
    fn given_px(&self, base: u32, step: u32) -> Vec<u32> {
        let mut px = steps(self.px, base, step);
        if let Some(frame) = self.before() {
            frame.lay(&Sheet::read(&self.old).expect("a sound old sheet").fresh(), &mut px);
        }
        px
    }

    fn case(&self, random: &mut Random) -> Vec<u32> {
        self.case_on(random.word(), random.word() | 1)
    }

    /// The case where px run from a base in equal steps.
    fn case_on(&self, base: u32, step: u32) -> Vec<u32> {
        assert!(self.fits());
        let expected = self.expected();
        let counted = expected.counted();
        let After { answer: a, px, swept, .. } = expected.after(&self.given_px(base, step), counted.as_ref());
        let rows = self.frame().map(|frame| (frame, frame.rows(&px)));
        if let (AFTER, Some(fresh), Some((_, rows))) = (self.f, &counted, &rows) {
            assert!(fresh.px == *rows);
        }
        assert!(self.frame().is_none_or(|frame| frame.same_past(&px, &steps(self.px, base, step))));
        let mut case = vec![self.f, self.old.len() as u32, self.new.len() as u32, self.px as u32, base, step];
        case.extend([self.scratch as u32, self.pitch as u32]);
        case.extend([a.number, a.item, a.x0 as u32, a.y0 as u32, a.x1 as u32, a.y1 as u32]);
        case.extend([a.steps, a.grounded, swept as u64].map(|n| u32::try_from(n).expect("a small number")));
        case.extend(left(rows.as_ref().map(|(frame, rows)| (*frame, &rows[..]))));
        case.resize(WIDTH - SHEETS, 0);
        case.extend(words(&self.old));
        case.extend(words(&self.new));
        case.resize(WIDTH, 0);
        case
    }
}

fn sound(random: &mut Random) -> Made {
    let (sides, n) = (random.of(&SIDES), random.below(7) as usize);
    make::on(random, sides, n, 8)
}

/// The pitch of a call in a frame, and how many words of px and scratch are lent: sometimes not as they must be.
fn lent(sheet: &[u8], frame: &Frame, random: &mut Random) -> [usize; 3] {
    let (words, need) = (frame.words(), Sheet::read(sheet).map_or(random.below(40) as usize, |s| s.need()));
    let px = if random.below(12) == 0 { random.of(&[words - 1, words + 1, 0, words - (frame.pitch - frame.w)]) } else { words };
    let scratch = if random.below(6) == 0 { random.of(&[need.saturating_sub(1), 0]) } else { need + random.of(&[0, 0, 1, 9]) };
    [if random.below(24) == 0 { frame.bad_pitch(random) } else { frame.pitch }, px, scratch]
}

/// A frame for the sheet that some bytes hold, or for another where they hold none.
fn frame_of(sheet: &[u8], made: &Made, random: &mut Random) -> Frame {
    let (w, h) = Sheet::read(sheet).map_or((made.w as usize, made.h as usize), |s| (s.w, s.h));
    framed(w, h, random)
}

/// A sheet whose one item is a polygon or a chain of 63 to 66 points, or whose items are 15 to 18 pushes.
fn many(made: &Made, random: &mut Random) -> Made {
    let (sides, more) = (made.sides(), random.below(4) as usize);
    let items = match random.below(3) {
        0 => vec![make::polygon(random, sides, 63 + more)],
        1 => vec![make::chain(random, sides, 63 + more)],
        _ => (0..15 + more).map(|_| make::push(random, sides)).collect(),
    };
    Made { items, ..made.clone() }
}

fn painting(random: &mut Random) -> Given {
    let made = sound(random);
    let new = match random.below(25) {
        0 => many(&made, random).bytes(),
        1..=10 => damaged(made.clone(), random),
        _ => made.bytes(),
    };
    let [pitch, px, scratch] = lent(&new, &frame_of(&new, &made, random), random);
    Given { f: PAINT, old: vec![], new, pitch, painted: pitch, px, scratch }
}

/// A patch of the sheet that is kept in a frame.
fn patching(kept: &Made, frame: &Frame, random: &mut Random) -> Given {
    let way = match random.below(8) {
        0 | 1 => random.of(&[DAMAGED_NEW, DAMAGED_NEW, DAMAGED_OLD, PITCH]),
        2..=4 => change::way(random),
        _ => random.below(ONE_SHAPE as u32) as usize,
    };
    let (mut old, mut new) = change::patch(kept, random, way);
    if random.below(16) == 0 {
        (old, new) = (Made { items: vec![], ..kept.clone() }.bytes(), many(kept, random).bytes());
    }
    let [mut pitch, mut px, mut scratch] = lent(&new, frame, random);
    match way {
        PX => px = random.of(&[frame.words() - 1, 0]),
        SCRATCH => scratch = 0,
        PITCH if random.below(2) == 0 => pitch = frame.other_pitch(random),
        PITCH => pitch = frame.bad_pitch(random),
        _ => (),
    }
    let f = if way < APART && px == frame.words() && random.below(3) > 0 { AFTER } else { PATCH };
    Given { f, old, new, pitch, painted: frame.pitch, px, scratch }
}

/// Each number of a list stands in so many cases.
fn all_stand(cases: &[Vec<u32>], numbers: &[u32], least: usize) {
    for number in numbers {
        let times = cases.iter().filter(|case| case[NUMBER] == *number).count();
        assert!(times >= least, "number {number} stands {times} times");
    }
}

/// A sheet of few items, of which most stand under narrow clips.
fn in_columns(random: &mut Random) -> Made {
    let (sides, n) = (random.of(&SIDES[1..7]), 1 + random.below(3) as usize);
    with_columns(make::on(random, sides, n, 4), random)
}

/// A sheet and the frame that it is kept in.
fn in_frame(random: &mut Random) -> (Made, Frame) {
    let made = if random.below(4) > 0 { in_columns(random) } else { sound(random) };
    let frame = framed(made.w as usize, made.h as usize, random);
    (made, frame)
}

/// Holds about half of the accepted cases to stand in wider frames.
fn wider(cases: &[Given]) {
    let frames: Vec<Frame> = cases.iter().filter_map(|given| given.expected().frame()).collect();
    let wider = frames.iter().filter(|frame| frame.is_wider()).count();
    println!("{wider} of {} accepted calls in a wider frame", frames.len());
    assert!(5 * wider > 2 * frames.len() && frames.iter().any(|frame| frame.pitch == 4096));
}

/// Holds the accepted patches to have shown boxes that a clip makes smaller, and ones that it makes empty.
fn all_boxes(cases: &[Given]) {
    let [mut same, mut smaller, mut empty] = [0; 3];
    for given in cases {
        if let (Ok(old), Expected { area, sheet: Some(new), .. }) = (Sheet::read(&given.old), given.expected()) {
            match boxes::unclipped(&[old, new]) {
                before if before == area => same += 1,
                _ if area == EMPTY => empty += 1,
                _ => smaller += 1,
            }
        }
    }
    println!("{smaller} boxes that a clip makes smaller, {empty} that it makes empty, {same} others");
    assert!(smaller >= 40 && empty >= 20 && same >= 40);
}

/// Holds the cases to have shown every sort of chain.
fn all_chains(cases: &[Given]) {
    let mut chains = Chains::default();
    for given in cases {
        let expected = given.expected();
        match (&expected.sheet, expected.counted()) {
            (Some(sheet), Some(counted)) => {
                chains.painted(sheet, &counted);
                if let Ok(old) = Sheet::read(&given.old) {
                    chains.patched(&old, sheet);
                }
            }
            _ if given.f == PAINT => chains.refused(&given.new, &expected),
            _ => (),
        }
    }
    let counts = if cases[0].f == PAINT { chains.paintings() } else { chains.patches() };
    let never = unseen(&counts, true);
    assert!(never.is_empty(), "chains never seen: {never:?}");
    println!("{}", chains.share());
}

/// What was found of patches that were stored before: all, those accepted, those of them with a push, and those whose box is smaller now.
#[derive(Default)]
struct Earlier {
    cases: usize,
    accepted: usize,
    pushed: usize,
    smaller: usize,
}

/// The call of a stored case.
fn stored_call(case: &[u32]) -> Given {
    let bytes: Vec<u8> = case[WIDTH - SHEETS..].iter().flat_map(|word| word.to_le_bytes()).collect();
    let [o, n, px] = [1, 2, 3].map(|at| case[at] as usize);
    let from = o.div_ceil(4) * 4;
    let [scratch, pitch, left] = [6, 7, LEFT].map(|at| case[at] as usize);
    let painted = if case[0] == AFTER && left > 0 { left } else { pitch };
    Given { f: case[0], old: bytes[..o].to_vec(), new: bytes[from..from + n].to_vec(), pitch, painted, px, scratch }
}

/// Holds a stored patch to what the call gives now: all is the same, but that a box may have become smaller where there is a push, and with it
/// the counts, and the pixels on px in equal steps.
fn hold_earlier(i: usize, case: &[u32], found: &mut Earlier) {
    let given = stored_call(case);
    let now = given.case_on(case[4], case[5]);
    found.cases += 1;
    found.accepted += (case[NUMBER] == 0) as usize;
    let pushed = Sheet::read(&given.new).is_ok_and(|new| new.items.iter().any(|(item, _)| matches!(item, Item::Push(_))));
    found.pushed += (case[NUMBER] == 0 && pushed) as usize;
    if now == case {
        return;
    }
    found.smaller += 1;
    let sheets = [&given.old, &given.new].map(|bytes| Sheet::read(bytes).expect("a sound sheet"));
    let [before, area] = [case, &now[..]].map(|case| {
        let [x0, y0, x1, y1] = [0, 1, 2, 3].map(|at| case[BOX + at] as i32);
        IRect::new(x0, y0, x1, y1)
    });
    assert!(pushed && case[NUMBER] == 0 && area != before, "case {i} differs, and not by a clip");
    assert_eq!((boxes::unclipped(&sheets), boxes::fault(&sheets, area)), (before, None), "case {i}");
    let same = |places: Range<usize>| now[places.clone()] == case[places];
    assert!(same(0..BOX) && same(SWEPT..LEFT + 2) && same(WIDTH - SHEETS..WIDTH), "case {i}");
    assert!(now[COUNTS] <= case[COUNTS] && now[COUNTS + 1] <= case[COUNTS + 1], "case {i} counts more");
    assert!(case[0] == PATCH || same(LEFT + 2..WIDTH - SHEETS), "case {i} leaves other pixels in a list");
}

/// Holds the patches of a file that was stored before change request 2026-09 to what they give now.
pub fn earlier(bytes: &[u8]) {
    let words: Vec<u32> = bytes.chunks_exact(4).map(|b| u32::from_le_bytes([b[0], b[1], b[2], b[3]])).collect();
    assert_eq!(words.len(), 1 + words[0] as usize * WIDTH, "a file of patches");
    let mut found = Earlier::default();
    words[1..].chunks_exact(WIDTH).enumerate().for_each(|(i, case)| hold_earlier(i, case, &mut found));
    let Earlier { cases, accepted, pushed, smaller } = found;
    let found = format!("{cases} stored patches, {accepted} accepted, {pushed} of them with a push");
    println!("{found}, {smaller} with a smaller box now; all others are as they were");
}

/// Document 01's examples that fit, then random sheets, two in five of them damaged.
pub fn paintings() -> Stored {
    fixed::check();
    let mut random = Random(SEED + 10);
    let example = |p: fixed::Painting| Given { f: PAINT, old: vec![], new: p.sheet, pitch: p.pitch, painted: p.pitch, px: p.px, scratch: p.scratch };
    let examples = fixed::paintings().into_iter().map(example);
    let mut all: Vec<Given> = examples.filter(Given::fits).collect();
    while all.len() < CASES {
        all.extend(Some(painting(&mut random)).filter(Given::fits));
    }
    all_chains(&all);
    let cases: Vec<Vec<u32>> = all.iter().map(|given| given.case(&mut random)).collect();
    all_stand(&cases, &[1, 2, 3, 4, 5, 6, 7, 8, 9, 13, 15], 4);
    wider(&all);
    Stored { functions: PAINT..=PAINT, width: WIDTH, cases }
}

/// Document 01's examples that fit, then lists of patches, each on the sheet that the one before left.
pub fn patches() -> Stored {
    let mut random = Random(SEED + 11);
    let examples = fixed::patches().into_iter().map(|p| {
        let sound = Sheet::read(&p.old).is_ok_and(|old| pitch_ok(old.w, p.pitch) && p.pitch * old.h == p.px);
        let f = if sound { AFTER } else { PATCH };
        Given { f, old: p.old, new: p.new, pitch: p.pitch, painted: p.pitch, px: p.px, scratch: p.scratch }
    });
    let mut all: Vec<Given> = examples.filter(Given::fits).collect();
    let (mut kept, mut frame) = in_frame(&mut random);
    while all.len() < CASES {
        if random.below(6) == 0 {
            (kept, frame) = in_frame(&mut random);
        }
        let given = patching(&kept, &frame, &mut random);
        if !given.fits() {
            continue;
        }
        if let (AFTER, Some(sheet)) = (given.f, given.expected().sheet) {
            kept = Made::of(&sheet);
        }
        all.push(given);
    }
    all_chains(&all);
    all_boxes(&all);
    let cases: Vec<Vec<u32>> = all.iter().map(|given| given.case(&mut random)).collect();
    all_stand(&cases, &[1, 2, 3, 4, 5, 6, 7, 8, 9, 10, 13, 15], 2);
    wider(&all);
    for number in [8, 15] {
        let other = |given: &&Given| given.f == AFTER && given.pitch != given.painted && given.expected().number == number;
        assert!(all.iter().filter(other).count() > 1, "no patch in a list has another pitch that {number} refuses");
    }
    Stored { functions: PAINT..=AFTER, width: WIDTH, cases }
}
