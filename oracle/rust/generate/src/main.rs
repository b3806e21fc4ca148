//! Writes what the program `replay_stored` reads and must print, below its folder data and in its file stdout, and the sheets of oracle/stored:
//! `generate CRATES STORED`. Before it writes, it holds the table of a shadow's fractions to the Rust. `generate earlier FILE` holds patches that
//! were stored before change request 2026-09 to what they give now, and writes nothing.
use answers::{frame::Frame, random::Random};
use std::{
    env, fs, iter,
    ops::RangeInclusive,
    path::{Path, PathBuf},
};

mod canvas;
mod color;
mod falloff;
mod geom;
mod mathf;
mod orders;
mod paint;
mod paintsheet;
mod panel;
mod shape;
mod sheet;

/// The most words of px that a case lends.
const WORDS: usize = 4096;

/// A canvas in a wider frame in three cases of five, else alone: most of the known examples are canvases alone.
fn framed(w: usize, h: usize, random: &mut Random) -> Frame {
    let wider = random.below(5) < 3;
    loop {
        let frame = Frame::within(w, h, WORDS, random);
        if frame.is_wider() == wider {
            return frame;
        }
    }
}

/// What a call leaves in px, as it is stored: the pitch of the rows, how many words of each are stored, and those. The other words are
/// as they came; all of them where nothing is given.
fn left(rows: Option<(Frame, &[u32])>) -> Vec<u32> {
    let Some((frame, px)) = rows else { return vec![0; 2] };
    [&[frame.pitch as u32, frame.w as u32], px].concat()
}

/// Cases of one area: each is a function's number, its inputs and the Rust's answer.
struct Stored {
    functions: RangeInclusive<u32>,
    width: usize,
    cases: Vec<Vec<u32>>,
}

impl Stored {
    fn bytes(&self) -> Vec<u8> {
        assert!(self.cases.iter().all(|case| case.len() == self.width));
        let words = iter::once(self.cases.len() as u32).chain(self.cases.iter().flatten().copied());
        words.flat_map(u32::to_le_bytes).collect()
    }

    /// How many cases there are of each function.
    fn counts(&self) -> Vec<(u32, usize)> {
        let of = |f: u32| self.cases.iter().filter(|case| case[0] == f).count();
        self.functions.clone().map(|f| (f, of(f))).collect()
    }
}

/// What the program prints.
#[derive(Default)]
struct Printed(String);

impl Printed {
    /// Writes the file of an area, and adds its lines: one for each function, and one for all cases.
    fn area(&mut self, folder: &Path, name: &str, bytes: &[u8], counts: &[(u32, usize)], all: usize) {
        for (f, ran) in counts {
            self.0 += &format!("{name} {f} {ran} cases, 0 differ\n");
        }
        self.0 += &format!("{name} {all} cases, 0 differ\n");
        fs::write(folder.join("data").join(name), bytes).unwrap();
        println!("{name}: {all} cases, {} bytes", bytes.len());
    }

    fn stored(&mut self, folder: &Path, name: &str, stored: Stored) {
        self.area(folder, name, &stored.bytes(), &stored.counts(), stored.cases.len());
    }
}

fn main() {
    let given = |i: usize| PathBuf::from(env::args().nth(i).expect("the folder crates of the repository, and that of the stored sheets"));
    if env::args().nth(1).is_some_and(|word| word == "earlier") {
        return sheet::earlier(&fs::read(given(2)).expect("a file of stored patches"));
    }
    falloff::hold(&given(1).join("falloff/src/lib.rt"));
    let folder = given(1).join("replay_stored");
    let mut printed = Printed::default();
    printed.stored(&folder, "mathf", mathf::stored());
    printed.stored(&folder, "color", color::stored());
    printed.stored(&folder, "geom", geom::stored());
    printed.stored(&folder, "canvas", canvas::stored());
    printed.stored(&folder, "paint", paint::stored());
    printed.stored(&folder, "shapes", shape::stored());
    printed.stored(&folder, "sheets", sheet::paintings());
    printed.stored(&folder, "patches", sheet::patches());
    printed.area(&folder, "orders", &orders::bytes(), &orders::COUNTS, orders::SHEETS);
    printed.stored(&folder, "panels", panel::stored());
    fs::write(folder.join("stdout"), printed.0).unwrap();
    paintsheet::write(&given(2).join("paintsheet"), &given(1).join("paintsheet"));
}
