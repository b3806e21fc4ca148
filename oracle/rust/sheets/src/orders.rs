//! Every small clip order of change request 2026-14, made from its words apart from the proved crates: all sequences, then sorted.
use crate::{
    fixed::{fill, made, push},
    make::pop,
    Expected,
};
use kash::geom::IRect;
use std::collections::BTreeSet;

/// The most items of such a sheet, how many sheets there are, and the bytes of the longest.
pub const MOST: usize = 6;
pub const COUNT: usize = 1_093;
pub const LONGEST: usize = 348;

/// The sides of its canvas, and the pixels.
pub const SIDE: u16 = 4;
pub const PIXELS: usize = 16;

/// Whether a painting is what that of such a sheet must be: accepted, and the whole canvas.
pub fn is_whole(painting: &Expected) -> bool {
    let canvas = IRect::new(0, 0, SIDE as i32, SIDE as i32);
    (painting.number, painting.item, painting.area) == (0, 0, canvas)
}

/// What the call returns, as the library returns it.
#[repr(C)]
#[derive(Clone, Copy, Debug, PartialEq)]
pub struct Written {
    pub number: u32,
    pub item: u32,
    pub len: usize,
}

/// An item, each kind before the ones that it stands before.
#[derive(Clone, Copy, Debug, PartialEq, Eq, PartialOrd, Ord)]
pub enum Step {
    Push,
    Pop,
    Fill,
}

impl Step {
    const ALL: [Step; 3] = [Step::Push, Step::Pop, Step::Fill];

    fn bytes(self) -> Vec<u8> {
        match self {
            Step::Push => push(1.0, 1.0, 2.0, 2.0),
            Step::Pop => pop(),
            Step::Fill => fill(0.0, 0.0, 3.0, 3.0, [255; 4]),
        }
    }
}

/// Every sequence of up to six items: those of fewer first, among equals by the first item that differs.
pub fn sequences() -> Vec<Vec<Step>> {
    let mut found = BTreeSet::from([vec![]]);
    for _ in 0..MOST {
        let longer: Vec<Vec<Step>> = found.iter().flat_map(|order| Step::ALL.map(|step| [&order[..], &[step]].concat())).collect();
        found.extend(longer);
    }
    let mut all: Vec<Vec<Step>> = found.into_iter().collect();
    all.sort_by_key(|order| (order.len(), order.clone()));
    all
}

/// The sheet of a sequence.
pub fn sheet(order: &[Step]) -> Vec<u8> {
    made(SIDE, SIDE, order.iter().map(|step| step.bytes()).collect()).bytes()
}

/// The bytes of every sheet, by its number.
pub fn all() -> Vec<Vec<u8>> {
    let all: Vec<Vec<u8>> = sequences().iter().map(|order| sheet(order)).collect();
    assert_eq!(all.len(), COUNT);
    assert_eq!(all.iter().collect::<BTreeSet<_>>().len(), COUNT, "different sheets");
    let lengths = || all.iter().map(Vec::len);
    assert_eq!((lengths().min(), lengths().max()), (Some(crate::SHORTEST), Some(LONGEST)));
    all
}

/// The number of a sequence.
pub fn number(order: &[Step]) -> usize {
    sequences().iter().position(|other| other == order).expect("at most six items")
}

/// What the call for a number must return, and the buffer after it: 23 before 19, and after either the buffer as it came.
pub fn expected(all: &[Vec<u8>], number: usize, before: &[u8]) -> (Written, Vec<u8>) {
    let refused = |number| (Written { number, item: 0, len: 0 }, before.to_vec());
    let Some(sheet) = all.get(number) else { return refused(23) };
    if before.len() < sheet.len() {
        return refused(19);
    }
    (Written { number: 0, item: 0, len: sheet.len() }, [&sheet[..], &before[sheet.len()..]].concat())
}
