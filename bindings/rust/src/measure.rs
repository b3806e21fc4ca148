//! Measuring a sheet: what painting it takes.
use crate::{raw, Refused};

/// What painting a sheet takes, as [`room`] and [`SheetBuilder::room`](crate::SheetBuilder::room) tell it.
#[derive(Clone, Copy, Debug, PartialEq, Eq)]
pub struct Room {
    /// Scratch words: the least with which painting is not refused by [`Refusal::Scratch`](crate::Refusal::Scratch). It is the greatest
    /// need among the sheet's polygons. Patching to this sheet needs the same.
    pub words: usize,
    /// The most clips that are saved at once, 0 to 16.
    pub saved: usize,
    /// A figure for the work of painting: the pixels of the canvas that lie in a shape's reach and in the clip in force at it, summed over
    /// the shapes. A pixel in two of them counts twice, and one that a shape reaches but leaves as it was counts too. At most 2^32.
    pub pixels: u64,
}

/// What painting a sheet takes, without pixels or scratch. The bytes may be any: a sheet that painting would refuse for itself is refused
/// in the same way, and [`Refusal::Pitch`](crate::Refusal::Pitch), [`Refusal::Pixels`](crate::Refusal::Pixels) and
/// [`Refusal::Scratch`](crate::Refusal::Scratch) never come.
///
/// ```
/// use maldjupp::{room, Color, Rect, Refusal, Room, SheetBuilder};
/// let mut b = SheetBuilder::new(24, 16, Color::WHITE)?;
/// b.fill_rect(Rect::new(2.0, 2.0, 10.0, 10.0), Color::BLACK)?;
/// b.push_clip(Rect::new(0.0, 0.0, 24.0, 8.0))?;
/// b.fill_rect(Rect::new(2.0, 2.0, 10.0, 10.0), Color::BLACK)?;
/// let sheet = b.bytes();
/// assert_eq!(room(&sheet)?, Room { words: 0, saved: 1, pixels: 100 + 60 });
///
/// assert_eq!(room(&sheet[..11]).unwrap_err().refusal, Refusal::SheetLength);
/// # Ok::<(), Box<dyn std::error::Error>>(())
/// ```
pub fn room(sheet: &[u8]) -> Result<Room, Refused> {
    let raw::Room { number, item, words, saved, pixels } = raw::measure(sheet);
    Refused::of(number, item).map_or(Ok(Room { words, saved, pixels }), Err)
}

#[cfg(test)]
mod tests {
    use super::*;
    use crate::{Color, Pt, Rect, Refusal, SheetBuilder};

    fn blank() -> SheetBuilder {
        SheetBuilder::new(24, 16, Color::BLACK).unwrap()
    }

    /// Each field of the answer comes back: number, item, words, saved, pixels.
    #[test]
    fn the_answer_has_its_fields() {
        let fields = |sheet: &[u8]| {
            let room = raw::measure(sheet);
            (room.number, room.item, room.words, room.saved, room.pixels)
        };
        assert_eq!(fields(&blank().bytes()), (0, 0, 0, 0, 0));
        let mut b = blank();
        b.push_clip(Rect::new(0.0, 0.0, 12.0, 16.0)).unwrap();
        b.push_clip(Rect::new(0.0, 0.0, 12.0, 4.0)).unwrap();
        b.fill_poly(&[Pt::new(8.0, 3.0), Pt::new(12.0, 3.0), Pt::new(8.0, 7.0)], Color::WHITE).unwrap();
        let mut sheet = b.bytes();
        assert_eq!(fields(&sheet), (0, 0, 50, 2, 5 * 2));
        assert_eq!(fields(&[]), (1, 0, 0, 0, 0));
        assert_eq!(fields(&sheet[..sheet.len() - 1]), (3, 0, 0, 0, 0));
        let end = sheet.len() - 4;
        sheet[end..].copy_from_slice(&f32::NAN.to_le_bytes());
        assert_eq!(fields(&sheet), (6, 3, 0, 0, 0));
    }

    /// The words told are enough, and one fewer is refused, whatever else is on the sheet.
    #[test]
    fn the_words_are_the_least() {
        for (x, y) in [(2.0, 2.0), (3.5, 0.25), (40.0, 7.0), (-3.5, 9.0), (1994.0, 1998.0)] {
            let mut b = SheetBuilder::new(4, 4, Color::BLACK).unwrap();
            b.fill_poly(&[Pt::new(0.0, 0.0), Pt::new(x, 0.0), Pt::new(x, y)], Color::WHITE).unwrap();
            b.fill_rect(Rect::new(0.0, 0.0, 1.0, 1.0), Color::WHITE).unwrap();
            b.fill_poly(&[Pt::new(0.0, 0.0), Pt::new(1.0, 0.0), Pt::new(1.0, 0.25)], Color::WHITE).unwrap();
            let (bytes, mut px) = (b.bytes(), vec![0; 16]);
            let words = room(&bytes).unwrap().words;
            assert!(words > 0);
            assert_eq!(raw::paint(&bytes, 4, &mut px, &mut vec![f32::NAN; words]).number, 0);
            assert_eq!(raw::paint(&bytes, 4, &mut px, &mut vec![f32::NAN; words - 1]).number, Refusal::Scratch.number());
            assert_eq!(raw::patch(&bytes, &bytes, 4, &mut px, &mut vec![f32::NAN; words]).number, 0);
            assert_eq!(raw::patch(&bytes, &bytes, 4, &mut px, &mut vec![f32::NAN; words - 1]).number, Refusal::Scratch.number());
        }
    }

    /// None for polylines, whatever stands beside them.
    #[test]
    fn a_polyline_needs_no_scratch() {
        let points = [Pt::new(0.0, 0.0), Pt::new(3.0, 0.0), Pt::new(3.0, 2.0)];
        let (mut b, mut polygon) = (blank(), blank());
        b.polyline(&points, 1.0, Color::WHITE).unwrap();
        assert_eq!(b.room().unwrap().words, 0);
        assert_eq!(raw::paint(&b.bytes(), 24, &mut [0; 24 * 16], &mut []).number, 0);
        b.fill_poly(&points, Color::WHITE).unwrap();
        polygon.fill_poly(&points, Color::WHITE).unwrap();
        assert_eq!(b.room().unwrap().words, polygon.room().unwrap().words);
        assert_eq!(polygon.room().unwrap().words, (5 + 2) * 4 + 2);
    }
}
