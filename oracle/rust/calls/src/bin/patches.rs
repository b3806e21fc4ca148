//! Lists of patches after an accepted painting, beside the unchanged Rust: `patches CALLS`, or `patches list N` for one list of them.
//! After each call every pixel must be that of the sheet accepted last, painted afresh, every word past the canvas as it was before the
//! painting, an accepted patch's counts at most their ceiling, and its box within that of the reaches before any clip. Exit status 1 where
//! anything differs, or where a number of documents 01 and 02, a way of altering a sheet, a number of differing shapes, a pair with a chain, a patch
//! that alters nothing, a shape under narrow clips, a box that a clip makes smaller or empty, a wider frame or another pitch in a list comes
//! too seldom, or no count comes near its ceiling.
use answers::{
    frame::{pitch_ok, Frame},
    random::{Random, SEED},
};
use calls::{bad_pitch, boxes::Boxes, ceilings::Ceilings, dirty, enough, Compared, Memory, Numbers, TOLD};
use sheets::{
    boxes, called,
    chains::unseen,
    change::{self, APART, PITCH, PX, SCRATCH, WAYS},
    columns::with_columns,
    fixed, fixed_counts, make, paint, patch, Answer, Ceiling, Chains, Counted, Expected, Made, Sheet,
};
use std::{env, process::exit, time::Instant};

/// How many shapes may differ in a patch: from a number on.
const SETS: [(usize, &str); 7] = [(0, "none"), (1, "one"), (2, "2 to 15"), (16, "16 to 31"), (32, "32"), (33, "33"), (34, "34 to 40")];

/// Old and new sheet of a patch, where both are sound.
fn read(old: &[u8], new: &[u8]) -> Option<[Sheet; 2]> {
    Some([Sheet::read(old).ok()?, Sheet::read(new).ok()?])
}

#[derive(Default)]
struct Run {
    memory: Memory,
    numbers: Numbers,
    accepted: [u64; WAYS.len()],
    refused: [u64; WAYS.len()],
    empty: u64,
    /// Accepted patches whose box is not empty, and in which nothing was altered.
    still: u64,
    /// Accepted patches, and patches refused by 14, by how many shapes differ, in the order of `SETS`.
    sets: [u64; SETS.len()],
    /// Patches of a list with another pitch than its painting, on px of the painting: refused by 15, by 8, and by a number before them.
    pitches: [u64; 3],
    chains: Chains,
    ceilings: Ceilings,
    boxes: Boxes,
    compared: Compared,
    paintings: u64,
    calls: u64,
    differ: u64,
}

/// What stands on the canvas: the kept sheet, the frame of its painting, px as the last call left them, and as they must be: the words of
/// the canvas those of a fresh painting, the others as they were before the list.
struct Ticket {
    kept: Made,
    frame: Frame,
    px: Vec<u32>,
    whole: Vec<u32>,
}

/// What a patch is given beside its sheets.
struct Given {
    pitch: usize,
    px: Vec<u32>,
    scratch: Vec<u32>,
}

/// The pitch of a patch in a way: mostly that of the painting; else another, in one of two in range.
fn pitch(frame: &Frame, way: usize, random: &mut Random) -> usize {
    if way != PITCH && random.below(24) > 0 {
        return frame.pitch;
    }
    if random.below(2) == 0 { frame.other_pitch(random) } else { bad_pitch(frame, random) }
}

/// What a patch in a way is given, after what stands on the canvas: sometimes not as it must be.
fn given(ticket: &Ticket, new: &[u8], way: usize, random: &mut Random) -> Given {
    let (pitch, mut px) = (pitch(&ticket.frame, way, random), ticket.px.clone());
    if way >= APART {
        px.iter_mut().for_each(|p| *p = random.word());
    }
    let seldom = |random: &mut Random| random.below(12) == 0;
    if way == PX || seldom(random) {
        px.resize(random.of(&[px.len() - 1, px.len() + 1, 0, 2 * px.len()]), 0);
    }
    let need = Sheet::read(new).map_or(random.below(40) as usize, |sheet| sheet.need());
    let short = way == SCRATCH || seldom(random);
    let words = if short { random.of(&[need.saturating_sub(1), need / 2, 0]) } else { enough(need, random) };
    Given { pitch, px, scratch: dirty(words, random) }
}

/// Px of an example: its old sheet painted in its frame, where that fits.
fn standing(p: &fixed::Patch) -> Vec<u32> {
    let mut px = vec![7; p.px];
    if let Ok(old) = Sheet::read(&p.old) {
        let frame = Frame { w: old.w, h: old.h, pitch: p.pitch };
        if pitch_ok(old.w, p.pitch) && frame.words() == p.px {
            frame.lay(&old.fresh(), &mut px);
        }
    }
    px
}

impl Run {
    fn differs(&mut self, name: &str, what: &str, more: String) {
        self.differ += 1;
        if self.differ <= 3 {
            println!("{name} differs in {what}: {more}");
        }
    }

    fn painted(&mut self, name: &str, random: &mut Random) -> Ticket {
        let most = if random.below(3) == 0 { 70 } else { 14 };
        let made = make::sheet(random, 32, most);
        let kept = if random.below(4) > 0 { with_columns(made, random) } else { made };
        let bytes = kept.bytes();
        let sheet = Sheet::read(&bytes).expect("a sound sheet");
        let frame = Frame::around(sheet.w, sheet.h, random);
        let px = frame.laid(&vec![random.word(); kept.area()], random);
        let scratch = dirty(enough(sheet.need(), random), random);
        let after = paint(&bytes, frame.pitch, px.len(), scratch.len()).on(&px);
        let left = self.memory.call(None, &bytes, frame.pitch, &px, &scratch, random);
        self.paintings += 1;
        if let Some(what) = self.compared.fault(&left, &after, &scratch) {
            self.differs(name, what, format!("the painting of {bytes:02x?}"));
        }
        Ticket { kept, frame, px: after.px.clone(), whole: after.px }
    }

    /// One patch. Where it is accepted, its new sheet is the kept one.
    fn patched(&mut self, name: &str, ticket: &mut Ticket, random: &mut Random) {
        let way = change::way(random);
        let (old, new) = change::patch(&ticket.kept, random, way);
        let Given { pitch, px, scratch } = given(ticket, &new, way, random);
        let expected = patch(&old, &new, pitch, px.len(), scratch.len());
        let counted = expected.counted();
        let after = expected.after(&px, counted.as_ref());
        let left = self.memory.call(Some(&old), &new, pitch, &px, &scratch, random);
        self.count(way, &after.answer);
        if let Some(what) = self.compared.fault(&left, &after, &scratch) {
            let lent = format!("pitch {pitch} px {} scratch {}", px.len(), scratch.len());
            self.differs(name, what, format!("{:?} instead of {:?}, {lent}\n  old {old:02x?}\n  new {new:02x?}", left.answer, after.answer));
        }
        if let Some(sheets) = read(&old, &new) {
            self.count_pairs(&sheets, &expected, counted.as_ref());
            if let Some(ceiling) = self.hold(name, &sheets, &left.answer) {
                self.ceilings.add(&sheets, &left.answer, &ceiling);
                self.boxes.add(&sheets, left.answer.reported());
            }
        }
        // A list keeps its lent px: a call on px of another length, which may be accepted with a pitch that fits it, is none of the list's.
        if way >= APART || px.len() != ticket.px.len() {
            return;
        }
        if pitch != ticket.frame.pitch {
            self.count_pitch(name, after.answer.number);
        }
        if let (Some(sheet), Some(counted)) = (&expected.sheet, counted) {
            ticket.kept = Made::of(sheet);
            ticket.frame.lay(&counted.px, &mut ticket.whole);
        }
        ticket.px = left.px;
        if ticket.px != ticket.whole {
            let past = !ticket.frame.same_past(&ticket.px, &ticket.whole);
            let what = if past { "the words past the canvas before the list" } else { "the fresh painting" };
            self.differs(name, what, format!("box {:?}\n  old {old:02x?}\n  new {new:02x?}", after.answer));
            ticket.px.copy_from_slice(&ticket.whole);
        }
    }

    /// A patch of a list with another pitch than its painting, which is never accepted.
    fn count_pitch(&mut self, name: &str, number: u32) {
        if number == 0 {
            self.differs(name, "a pitch that is accepted", String::new());
        }
        self.pitches[match number {
            15 => 0,
            8 => 1,
            _ => 2,
        }] += 1;
    }

    /// Holds a patch that the library accepted to its ceiling, by the new sheet and the box that it reported, and that box to the one before any
    /// clip; answers the ceiling.
    fn hold(&mut self, name: &str, sheets: &[Sheet; 2], answer: &Answer) -> Option<Ceiling> {
        if answer.number > 0 {
            return None;
        }
        let ceiling = Ceiling::of(&sheets[1], answer.reported());
        if let Some(what) = ceiling.fault(answer).or(boxes::fault(sheets, answer.reported())) {
            let [old, new] = sheets.each_ref().map(|sheet| Made::of(sheet).bytes());
            self.differs(name, what, format!("{answer:?} with {ceiling:?}\n  old {old:02x?}\n  new {new:02x?}"));
        }
        Some(ceiling)
    }

    fn count(&mut self, way: usize, answer: &Answer) {
        self.calls += 1;
        self.numbers.add(answer.number);
        if answer.number > 0 {
            self.refused[way] += 1;
            return;
        }
        self.accepted[way] += 1;
        self.empty += (answer.x1 == 0) as u64;
        self.still += (answer.x1 > 0 && (answer.steps, answer.grounded) == (0, 0)) as u64;
    }

    /// Which items differ, in a patch that was accepted or refused by 14.
    fn count_pairs(&mut self, sheets: &[Sheet; 2], expected: &Expected, counted: Option<&Counted>) {
        if [0, 14].contains(&expected.number) {
            let n = boxes::differing(sheets).len();
            self.sets[SETS.iter().rposition(|(from, _)| *from <= n).expect("0 is the first")] += 1;
            if let Some(counted) = counted {
                self.chains.painted(&sheets[1], counted);
                self.chains.patched(&sheets[0], &sheets[1]);
            }
        }
    }

    /// Prints the counts of a long run, and what came too seldom; answers whether anything did.
    fn lacks(&self, calls: u64) -> bool {
        let told = calls >= TOLD;
        for (way, name) in WAYS.iter().enumerate().filter(|_| told) {
            println!("{name:18} {:>9} accepted, {:>9} refused", self.accepted[way], self.refused[way]);
        }
        for ((_, name), times) in SETS.iter().zip(self.sets).filter(|_| told) {
            println!("{name:>8} shapes differ {times:>9} times");
        }
        let mut seldom = self.numbers.report(&[1, 2, 3, 4, 5, 6, 7, 8, 9, 10, 13, 15], calls / 2000, told);
        seldom.extend(self.numbers.report(&[14], calls / 1000, false));
        if told {
            println!("accepted with an empty box {} times", self.empty);
            println!("accepted with a box in which nothing was altered {} times", self.still);
        }
        let [by_15, by_8, before] = self.pitches;
        let pitches = by_15.min(by_8) < calls / 1000;
        if told || pitches {
            println!("another pitch in a list: refused by 15 {by_15} times, by 8 {by_8} times, by a number before them {before} times");
        }
        if !seldom.is_empty() {
            println!("too seldom: numbers {seldom:?}");
        }
        let never = unseen(&self.chains.patches(), told);
        if !never.is_empty() {
            println!("chains never seen: {never:?}");
        }
        let nothing = self.empty == 0 || self.still == 0;
        if nothing {
            println!("accepted with steps 0 and grounded 0: {} times with an empty box, {} times with another", self.empty, self.still);
        }
        let unbounded = self.ceilings.lack(told) | self.boxes.lack(calls, told) | self.compared.frames.lack(told) | pitches;
        let unseen = (0..WAYS.len()).any(|way| self.accepted[way] + self.refused[way] == 0) || self.sets.contains(&0) || nothing;
        !seldom.is_empty() || !never.is_empty() || unseen || unbounded
    }

    fn list(&mut self, n: u64, most: u64) {
        let mut random = Random(SEED ^ (n + 1) << 20 ^ 1);
        let name = format!("list {n}");
        let mut ticket = self.painted(&name, &mut random);
        for i in 0..(1 + random.below(50) as u64).min(most) {
            self.patched(&format!("{name} call {}", i + 1), &mut ticket, &mut random);
        }
    }

    /// A patch on px, or a painting where there is no old sheet.
    fn example(&mut self, name: &str, old: Option<&[u8]>, new: &[u8], pitch: usize, px: &[u32], scratch: usize, random: &mut Random) {
        let (scratch, after) = (dirty(scratch, random), called(old, new, pitch, px.len(), scratch).on(px));
        let left = self.memory.call(old, new, pitch, px, &scratch, random);
        self.calls += 1;
        self.numbers.add(after.answer.number);
        if let Some(what) = self.compared.fault(&left, &after, &scratch) {
            self.differs(&format!("example {name}"), what, format!("{:?} instead of {:?}", left.answer, after.answer));
        }
        if let Some(sheets) = old.and_then(|old| read(old, new)) {
            self.hold(&format!("example {name}"), &sheets, &left.answer);
        }
    }

    /// Document 01's examples, each on pixels of its old sheet, and the calls whose counts and ceilings are known.
    fn examples(&mut self) {
        let mut random = Random(SEED + 9);
        for (i, p) in fixed::patches().iter().enumerate() {
            self.example(&i.to_string(), Some(&p.old), &p.new, p.pitch, &standing(p), p.scratch, &mut random);
        }
        for c in fixed_counts::counts() {
            self.example(c.name, c.old.as_deref(), &c.new, c.pitch, &c.before, 0, &mut random);
        }
    }
}

fn main() {
    let words: Vec<String> = env::args().skip(1).collect();
    let number = |i: usize| words.get(i).and_then(|w| w.parse::<u64>().ok()).expect("usage: patches CALLS | patches list N");
    fixed::check();
    let mut run = Run::default();
    if words.first().is_some_and(|w| w == "list") {
        run.list(number(1), 50);
        println!("patches: {} calls, {} differences", run.calls, run.differ);
        exit((run.differ > 0) as i32);
    }
    let (calls, began) = (number(0), Instant::now());
    run.examples();
    let (mut lists, mut hundreds) = (0, 0);
    while run.calls < calls {
        run.list(lists, calls - run.calls);
        lists += 1;
        if run.calls / 100_000 > hundreds {
            hundreds = run.calls / 100_000;
            println!("{:>9} calls in {lists} lists, {} differences, {:.1} s", run.calls, run.differ, began.elapsed().as_secs_f64());
        }
    }
    let lacks = run.lacks(calls);
    let (share, counts) = (run.chains.share(), run.compared.told());
    println!("patches: {} calls in {lists} lists, each after a painting, {share}, {counts}, {} differences", run.calls, run.differ);
    if run.differ > 0 || lacks {
        exit(1);
    }
}
