//! Every small clip order as the library writes it, beside the list of rust/sheets, in every room from none to two bytes more than it
//! needs; numbers past the last; and each sheet painted by the library and by the unchanged Rust. Exit status 1 where anything differs.
use answers::{
    frame::Frame,
    random::{Random, SEED},
};
use calls::{Compared, Memory};
use sheets::{
    fixed,
    orders::{self, is_whole, COUNT, LONGEST, SIDE},
    paint, SHORTEST,
};
use std::{collections::BTreeSet, process::exit};

/// A room of more than a page.
const WIDE: usize = 5_000;

/// The rooms in which a number past the last is asked for.
const ROOMS: [usize; 6] = [0, SHORTEST - 1, SHORTEST, LONGEST - 1, LONGEST, 400];

struct Run {
    memory: Memory,
    random: Random,
    compared: Compared,
    all: Vec<Vec<u8>>,
    calls: u64,
    differ: u64,
}

impl Run {
    fn differs(&mut self, text: String) {
        self.differ += 1;
        if self.differ <= 3 {
            println!("{text}");
        }
    }

    /// One call on a buffer of random bytes, which begins at a page that cannot be touched or ends at one. Answers the buffer after it.
    fn ask(&mut self, number: usize, room: usize, at_start: bool) -> Vec<u8> {
        let before: Vec<u8> = (0..room).map(|_| self.random.word() as u8).collect();
        let (expected, after) = orders::expected(&self.all, number, &before);
        let (written, left, inside) = self.memory.clip_order(number, &before, at_start);
        self.calls += 1;
        let what = match (written == expected, left == after, inside) {
            (false, ..) => "answer",
            (_, false, _) => "buffer",
            (.., false) => "memory that was not lent",
            _ => return left,
        };
        self.differs(format!("order {number} in a room of {room} differs in {what}: {written:?} instead of {expected:?}"));
        left
    }

    /// A number in every room, the buffer at either end. Answers its sheet as it was written where it just fits.
    fn order(&mut self, number: usize) -> Vec<u8> {
        let need = self.all[number].len();
        for at_start in [false, true] {
            for room in (0..=need + 2).chain([WIDE]) {
                self.ask(number, room, at_start);
            }
        }
        self.ask(number, need, false)
    }

    /// Paints a sheet without scratch, in a frame that begins at a page that cannot be touched or ends at one.
    fn painted(&mut self, number: usize, sheet: &[u8], at_start: bool) {
        let frame = Frame::around(SIDE as usize, SIDE as usize, &mut self.random);
        let expected = paint(sheet, frame.pitch, frame.words(), 0);
        let px: Vec<u32> = (0..frame.words()).map(|_| self.random.word()).collect();
        let left = self.memory.call_at(None, sheet, frame.pitch, &px, &[], [at_start; 4]);
        self.calls += 1;
        let after = expected.on(&px);
        let wrong = self.compared.fault(&left, &after, &[]);
        if let Some(what) = wrong.or((!is_whole(&expected)).then_some("acceptance")) {
            self.differs(format!("order {number} painted differs in {what}: {:?} beside {:?} of the Rust", left.answer, after.answer));
        }
    }

    /// Numbers of 1,093 and more, of every length in bits.
    fn past(&mut self) -> Vec<usize> {
        let mut past: Vec<usize> = (COUNT..=2_200).chain(65_536..65_600).chain([65_536 + COUNT - 1]).collect();
        past.extend((0..=8).chain([COUNT - 1]).map(|low| (1 << 32) + low));
        past.extend([1 << 31, (1 << 63) - 1, 1 << 63, (1 << 63) + 5, usize::MAX - 1, usize::MAX]);
        past.extend((0..53).flat_map(|bits| [0; 4].map(|_| (self.random.next() >> bits) as usize)).filter(|number| *number >= COUNT));
        past
    }
}

fn main() {
    fixed::check();
    let (memory, random, compared) = (Memory::default(), Random(SEED + 12), Compared::default());
    let mut run = Run { memory, random, compared, all: orders::all(), calls: 0, differ: 0 };
    let written: Vec<Vec<u8>> = (0..COUNT).map(|number| run.order(number)).collect();
    for (number, sheet) in written.iter().enumerate() {
        run.painted(number, sheet, false);
        run.painted(number, sheet, true);
    }
    let past = run.past();
    for number in &past {
        for room in ROOMS {
            run.ask(*number, room, false);
            run.ask(*number, room, true);
        }
    }
    let sheets = written.iter().collect::<BTreeSet<_>>().len();
    let (calls, counts) = (run.calls, run.compared.told());
    println!("orders: {calls} calls, {sheets} different sheets, {counts}, {} numbers past the last, {} differences", past.len(), run.differ);
    if run.compared.frames.lack(false) || run.differ > 0 || sheets != COUNT {
        exit(1);
    }
}
