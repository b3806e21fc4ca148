//! The small clip orders: sheets to try a viewer on.
use crate::{raw, Refusal};
use std::iter::FusedIterator;

/// The bytes of the longest clip order, so that a buffer of so many is enough for each.
pub const LONGEST_CLIP_ORDER: usize = 348;

/// How many there are, for the size of the iterator alone: where it ends, the library says.
const COUNT: usize = 1_093;

/// Writes the clip order of a number, from 0, into a buffer, and returns its length.
///
/// The clip orders are all sheets of 0 to 6 items on a black canvas of 4 by 4, each item a push of the clip (1, 1, 2, 2), a pop, or an
/// opaque white fill of (0, 0, 3, 3) with r 0. Those of fewer items come first, and among equals a push stands before a pop before a fill,
/// the first item weighing most. There are 1,093, and each is accepted by painting, without scratch.
///
/// Refused: [`Refusal::Order`] for a number of 1,093 or more, then [`Refusal::Buffer`] where the sheet does not fit. Then the buffer is as
/// it was; else its bytes past the length are.
///
/// ```
/// use maldjupp::{clip_order, Refusal, Ticket, LONGEST_CLIP_ORDER};
/// let mut buf = [0; LONGEST_CLIP_ORDER];
/// // Number 6: a push, then a fill, of which the clip leaves four pixels.
/// let len = clip_order(6, &mut buf)?;
/// let ticket = Ticket::from_bytes(buf[..len].to_vec())?;
/// assert_eq!((ticket.builder().items(), ticket.px().iter().filter(|p| **p == 0x00FF_FFFF).count()), (2, 4));
///
/// assert_eq!(clip_order(6, &mut buf[..len - 1]), Err(Refusal::Buffer));
/// assert_eq!(clip_order(1_093, &mut buf), Err(Refusal::Order));
/// # Ok::<(), Box<dyn std::error::Error>>(())
/// ```
pub fn clip_order(number: usize, buf: &mut [u8]) -> Result<usize, Refusal> {
    let written = raw::clip_order(number, buf);
    Refusal::of(written.number).map_or(Ok(written.len), Err)
}

/// All clip orders, from number 0 on, each as the bytes of its sheet.
///
/// ```
/// use maldjupp::{clip_orders, Ticket};
/// assert_eq!(clip_orders().len(), 1_093);
/// for sheet in clip_orders() {
///     let ticket = Ticket::from_bytes(sheet)?;
///     assert_eq!((ticket.width(), ticket.height()), (4, 4));
/// }
/// # Ok::<(), maldjupp::Refused>(())
/// ```
pub fn clip_orders() -> ClipOrders {
    ClipOrders { number: 0 }
}

/// The clip orders that are left, as [`clip_orders`] gives them.
#[derive(Clone, Debug)]
pub struct ClipOrders {
    number: usize,
}

impl Iterator for ClipOrders {
    type Item = Vec<u8>;

    /// Asks the library for the next number, until there is none.
    fn next(&mut self) -> Option<Vec<u8>> {
        let mut buf = vec![0; LONGEST_CLIP_ORDER];
        match clip_order(self.number, &mut buf) {
            Ok(len) => {
                buf.truncate(len);
                self.number += 1;
                Some(buf)
            }
            Err(refusal) => {
                debug_assert_eq!(refusal, Refusal::Order);
                None
            }
        }
    }

    fn size_hint(&self) -> (usize, Option<usize>) {
        let left = COUNT.saturating_sub(self.number);
        (left, Some(left))
    }
}

impl ExactSizeIterator for ClipOrders {}

impl FusedIterator for ClipOrders {}

#[cfg(test)]
mod tests {
    use super::*;

    /// Each field of the answer comes back: number, item, length.
    #[test]
    fn the_answer_has_its_fields() {
        let fields = |number, buf: &mut [u8]| {
            let written = raw::clip_order(number, buf);
            (written.number, written.item, written.len)
        };
        assert_eq!(fields(0, &mut [7; 12]), (0, 0, 12));
        assert_eq!(fields(1_092, &mut [7; 400]), (0, 0, LONGEST_CLIP_ORDER));
        assert_eq!(fields(0, &mut [7; 11]), (19, 0, 0));
        assert_eq!(fields(1_093, &mut []), (23, 0, 0));
    }
}
