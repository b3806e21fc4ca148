//! What the program `paintsheet` prints for the bytes that it reads, by document 01.
use crate::{fixed::width, half, paint};

/// The words of px, and of scratch, that it has at hand.
pub const AT_HAND: usize = 16_384;

/// Rows of pixels as 8 upper-case hexadecimal digits, or the number and item of a refusal. `room` is the most pixels and scratch words.
pub fn text(bytes: &[u8], room: usize) -> String {
    let area = if bytes.len() < 12 { 0 } else { half(bytes, 0) * half(bytes, 2) };
    let expected = paint(bytes, width(bytes), area.min(room), room);
    let Some(sheet) = &expected.sheet else {
        return format!("refused {} at {}\n", expected.number, expected.item);
    };
    assert_eq!(expected.number, 0);
    let rows = sheet.fresh();
    let row = |row: &[u32]| row.iter().map(|p| format!("{p:08X}")).collect::<Vec<_>>().join(" ") + "\n";
    rows.chunks(sheet.w).map(row).collect()
}
