//! The small clip orders: each sheet with its length and the pixels that the Rust paints.
use sheets::{
    orders::{self, is_whole, PIXELS, SIDE},
    paint,
};

pub const SHEETS: usize = orders::COUNT;

/// Written into a whole buffer, into one of just its length, into one of a byte less, painted, and four numbers past the last.
pub const COUNTS: [(u32, usize); 5] = [(1, SHEETS), (2, SHEETS), (3, SHEETS), (4, SHEETS), (5, 4)];

/// A sheet's length, its pixels and its bytes, which are whole words.
fn case(sheet: &[u8]) -> Vec<u8> {
    let expected = paint(sheet, SIDE as usize, PIXELS, 0);
    assert!(is_whole(&expected));
    let px = expected.sheet.expect("an accepted sheet").fresh();
    assert_eq!((px.len(), sheet.len() % 4), (PIXELS, 0));
    let words = [vec![sheet.len() as u32], px].concat();
    [words.into_iter().flat_map(u32::to_le_bytes).collect(), sheet.to_vec()].concat()
}

/// The count of the sheets, then the sheets.
pub fn bytes() -> Vec<u8> {
    let sheets = orders::all();
    assert_eq!(sheets.len(), SHEETS);
    let mut bytes = (SHEETS as u32).to_le_bytes().to_vec();
    bytes.extend(sheets.iter().flat_map(|sheet| case(sheet)));
    bytes
}
