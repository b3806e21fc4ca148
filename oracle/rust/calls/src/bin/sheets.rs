//! Painting, counting and measuring random sheets, sound and damaged ones, beside the unchanged Rust: `sheets CASES`, or `sheets case N`
//! for one case of it. Exit status 1 where anything differs, where a number of documents 01 and 02, a sort of room or a wider frame comes too
//! seldom, or a sort of chain or of pitch never.
use answers::{
    frame::Frame,
    random::{Random, SEED},
};
use calls::{bad_pitch, dirty, enough, rooms::Rooms, Compared, Memory, Numbers, TOLD, USUAL};
use sheets::{
    chains::unseen,
    damage::damaged,
    fixed,
    fixed_counts::{busiest, BUSIEST},
    fixed_rooms, make, measure, paint, Answer, Chains, Counted, Room, Sheet, MOST_SIDE,
};
use std::{env, mem::take, process::exit, time::Instant};

/// What a painting is given.
struct Given {
    sheet: Vec<u8>,
    pitch: usize,
    px: usize,
    scratch: usize,
}

fn examples() -> Vec<Given> {
    fixed::paintings().into_iter().map(|p| Given { sheet: p.sheet, pitch: p.pitch, px: p.px, scratch: p.scratch }).collect()
}

/// What a case is given: one in two is damaged, one in sixteen is lent a wrong count of words, one in sixteen too little scratch, and one in
/// sixteen has a pitch that is out of range.
fn given(random: &mut Random) -> Given {
    let made = make::sheet(random, 40, 24);
    let ([w, h], bytes) = (made.sides(), if random.below(2) == 0 { damaged(made, random) } else { made.bytes() });
    let (w, h, need) = match Sheet::read(&bytes) {
        Ok(sheet) => (sheet.w, sheet.h, sheet.need()),
        Err(_) => (w as usize, h as usize, random.below(40) as usize),
    };
    let frame = Frame::around(w, h, random);
    let words = frame.words();
    let px = match random.below(64) {
        0 => words + 1,
        1 => words - 1,
        2 => random.below(2 * words as u32 + 2) as usize,
        3 => 0,
        4 => words - (frame.pitch - w),
        _ => words,
    };
    let pitch = if random.below(16) == 0 { bad_pitch(&frame, random) } else { frame.pitch };
    let scratch = match random.below(16) {
        0 if need > 0 => random.of(&[need - 1, need / 2, 0]),
        _ => enough(need, random),
    };
    Given { sheet: bytes, pitch, px, scratch }
}

/// Words as px may come.
fn any_words(n: usize, random: &mut Random) -> Vec<u32> {
    (0..n).map(|_| random.word()).collect()
}

#[derive(Default)]
struct Run {
    memory: Memory,
    numbers: Numbers,
    chains: Chains,
    rooms: Rooms,
    compared: Compared,
    differ: u64,
    words: u64,
}

impl Run {
    fn differs(&mut self, text: String, sheet: &[u8]) {
        self.differ += 1;
        if self.differ <= 3 {
            println!("{text}\n  sheet {:02x?}", &sheet[..sheet.len().min(600)]);
        }
    }

    /// One painting, and what measuring its sheet tells. Answers what the painting must return.
    fn case(&mut self, name: &str, given: &Given, random: &mut Random) -> Answer {
        let px = any_words(given.px, random);
        let scratch = dirty(given.scratch, random);
        let expected = paint(&given.sheet, given.pitch, given.px, given.scratch);
        let counted = expected.counted();
        let after = expected.after(&px, counted.as_ref());
        let left = self.memory.call(None, &given.sheet, given.pitch, &px, &scratch, random);
        self.numbers.add(expected.number);
        match (&expected.sheet, &counted) {
            (Some(sheet), Some(counted)) => self.chains.painted(sheet, counted),
            _ => self.chains.refused(&given.sheet, &expected),
        }
        self.words += after.px.len() as u64;
        if let Some(what) = self.compared.fault(&left, &after, &scratch) {
            let lent = format!("pitch {} px {} scratch {}", given.pitch, given.px, given.scratch);
            self.differs(format!("{name} differs in {what}: {:?} instead of {:?}, {lent}", left.answer, after.answer), &given.sheet);
        }
        self.measured(name, &given.sheet, measure(&given.sheet), counted, random);
        after.answer
    }

    /// Measures a sheet, and paints an accepted one with just the scratch words that the library tells, and with one fewer; `counted` is the
    /// fresh painting where it is known.
    fn measured(&mut self, name: &str, sheet: &[u8], room: Room, counted: Option<Counted>, random: &mut Random) {
        let (told, inside) = self.memory.measure(sheet, random.below(4) == 0);
        let read = Sheet::read(sheet);
        self.rooms.measured(read.as_ref().ok(), &room);
        if told != room || !inside {
            let beside = if inside { "" } else { ", and in memory that was lent for reading" };
            return self.differs(format!("{name} differs in its room{beside}: {told:?} instead of {room:?}"), sheet);
        }
        let Ok(read) = read else { return };
        let counted = counted.unwrap_or_else(|| read.counted(read.canvas()));
        let scratch = dirty(told.words, random);
        let frame = Frame::around(read.w, read.h, random);
        self.rooms.enough += self.lent(name, sheet, frame, &counted, &scratch, 0, random) as u64;
        if let Some((_, fewer)) = scratch.split_last() {
            self.rooms.fewer += self.lent(name, sheet, frame, &counted, fewer, 9, random) as u64;
        }
    }

    /// Paints in a frame, on px and scratch that end at a page that cannot be touched, which must return a number; the pixels come at random,
    /// or as this sheet was painted. Answers whether all is as it must be.
    fn lent(&mut self, name: &str, sheet: &[u8], frame: Frame, counted: &Counted, scratch: &[u32], number: u32, random: &mut Random) -> bool {
        let rows = if random.below(2) == 0 { counted.px.clone() } else { any_words(counted.px.len(), random) };
        let px = frame.laid(&rows, random);
        let after = paint(sheet, frame.pitch, px.len(), scratch.len()).after(&px, Some(counted));
        let left = self.memory.call_at(None, sheet, frame.pitch, &px, scratch, [false; 4]);
        let other = (left.answer.number, left.answer.item) != (number, 0);
        let wrong = self.compared.fault(&left, &after, scratch).or(other.then_some("number"));
        if let Some(what) = wrong {
            let lent = format!("with {} scratch words, to return {number}", scratch.len());
            self.differs(format!("{name} {lent}, differs in {what}: {:?} instead of {:?}", left.answer, after.answer), sheet);
        }
        wrong.is_none()
    }

    /// Document 01's examples, the sheets whose room is known and, where `large`, the busiest one. Answers how many of them are cases.
    fn fixed(&mut self, large: bool) -> u64 {
        let (examples, rooms) = (examples(), fixed_rooms::rooms());
        fixed_rooms::check(&rooms);
        for (i, given) in examples.iter().enumerate() {
            self.case(&format!("example {i}"), given, &mut Random(SEED + 8));
        }
        for m in rooms {
            self.measured(m.name, &m.sheet, m.room, None, &mut Random(SEED + 13));
        }
        if large {
            self.busiest();
        }
        examples.len() as u64 + large as u64
    }

    /// The sheet whose steps are more than 32 bits count.
    fn busiest(&mut self) {
        let given = Given { sheet: busiest(), pitch: MOST_SIDE, px: MOST_SIDE * MOST_SIDE, scratch: 0 };
        let steps = self.case("the busiest sheet", &given, &mut Random(SEED + 14)).steps;
        assert_eq!(steps, BUSIEST);
    }

    /// Prints what a run of so many cases has seen; answers whether something came too seldom.
    fn lacks(&self, cases: u64) -> bool {
        let (least, told) = (cases / 300, cases >= TOLD);
        let seldom = self.numbers.report(&[1, 2, 3, 4, 5, 6, 7, 8, 9, 13, 15], least, told);
        let never = unseen(&self.chains.paintings(), told);
        if !seldom.is_empty() {
            println!("less than {least} times: numbers {seldom:?}");
        }
        let chains = cases >= USUAL && !never.is_empty();
        if chains {
            println!("chains never seen: {never:?}");
        }
        let frames = self.compared.frames.lack(told) && cases >= USUAL;
        self.rooms.lack(cases, told) || !seldom.is_empty() || chains || frames
    }
}

fn main() {
    let words: Vec<String> = env::args().skip(1).collect();
    let number = |i: usize| words.get(i).and_then(|w| w.parse::<u64>().ok()).expect("usage: sheets CASES | sheets case N");
    let (from, to) = if words.first().is_some_and(|w| w == "case") { (number(1), number(1) + 1) } else { (0, number(0)) };
    fixed::check();
    let mut run = Run::default();
    let began = Instant::now();
    let examples = run.fixed(to - from >= TOLD);
    let fixed = take(&mut run.rooms);
    for n in from..to {
        let mut random = Random(SEED ^ (n + 1) << 20);
        let given = given(&mut random);
        run.case(&format!("case {n}"), &given, &mut random);
        if (n + 1) % 50_000 == 0 {
            println!("{:>9} sheets, {} differences, {:.1} s", n + 1, run.differ, began.elapsed().as_secs_f64());
        }
    }
    let lacks = run.lacks(to - from);
    println!("rooms: {}", run.rooms.beside(&fixed));
    let (cases, compared) = (to - from + examples, format!("{} words of px, {}", run.words, run.compared.told()));
    println!("sheets: {cases} cases, {compared}, {}, {} differences", run.chains.share(), run.differ);
    if run.differ > 0 || lacks {
        exit(1);
    }
}
