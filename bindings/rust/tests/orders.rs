//! The clip orders: all of them, each written where it fits, painted, and refused where it does not.
use maldjupp::{clip_order, clip_orders, Altered, Color, IRect, Rect, Refusal, SheetBuilder, Ticket, LONGEST_CLIP_ORDER};
use std::collections::HashSet;

/// A buffer of bytes that differ from their neighbours.
fn filled(room: usize) -> Vec<u8> {
    (0..room).map(|i| (i * 37 + 11) as u8).collect()
}

#[test]
fn each_is_there_once() {
    let all: Vec<Vec<u8>> = clip_orders().collect();
    assert_eq!(all.len(), 1_093);
    assert_eq!(all.iter().collect::<HashSet<_>>().len(), 1_093);
    let lengths = || all.iter().map(Vec::len);
    assert_eq!((lengths().min(), lengths().max()), (Some(12), Some(LONGEST_CLIP_ORDER)));
}

/// By SheetBuilder: number 0 has no item, 45 is push push pop fill, 1,092 is six fills.
#[test]
fn some_by_hand() {
    let (clip, area) = (Rect::new(1.0, 1.0, 2.0, 2.0), Rect::new(0.0, 0.0, 3.0, 3.0));
    let blank = || SheetBuilder::new(4, 4, Color::BLACK).unwrap();
    let (mut nested, mut fills) = (blank(), blank());
    nested.push_clip(clip).unwrap();
    nested.push_clip(clip).unwrap();
    nested.pop_clip().unwrap();
    nested.fill_rrect(area, 0.0, Color::WHITE).unwrap();
    for _ in 0..6 {
        fills.fill_rrect(area, 0.0, Color::WHITE).unwrap();
    }
    for (number, built) in [(0, blank()), (45, nested), (1_092, fills)] {
        assert_eq!(clip_orders().nth(number), Some(built.bytes()), "{number}");
    }
}

#[test]
fn each_is_painted() {
    let mut seen = [0; 3];
    for sheet in clip_orders() {
        let ticket = Ticket::from_bytes(sheet).expect("an accepted sheet");
        assert_eq!((ticket.width(), ticket.height()), (4, 4));
        let white = ticket.px().iter().filter(|p| **p == 0x00FF_FFFF).count();
        assert_eq!(white + ticket.px().iter().filter(|p| **p == 0).count(), 16);
        // White covers, so that a second fill alters no pixel.
        assert_eq!(ticket.altered(), Altered { area: IRect::new(0, 0, 4, 4), steps: white as u64, grounded: 0 });
        seen[[0, 4, 9].iter().position(|n| *n == white).expect("none, the clipped fill or the whole one")] += 1;
    }
    assert!(seen.iter().all(|times| *times > 0), "{seen:?}");
}

#[test]
fn the_iterator_knows_its_length() {
    let mut left = clip_orders();
    for taken in 0..1_093 {
        assert_eq!(left.len(), 1_093 - taken);
        assert!(left.next().is_some());
    }
    assert_eq!((left.len(), left.next(), left.next()), (0, None, None));
}

#[test]
fn a_buffer_too_short_is_refused() {
    for (number, sheet) in clip_orders().enumerate() {
        let mut buf = filled(sheet.len() - 1);
        assert_eq!(clip_order(number, &mut buf), Err(Refusal::Buffer));
        assert_eq!(buf, filled(sheet.len() - 1));
        let mut buf = filled(sheet.len() + 9);
        assert_eq!(clip_order(number, &mut buf), Ok(sheet.len()));
        assert_eq!(buf, [&sheet[..], &filled(sheet.len() + 9)[sheet.len()..]].concat());
    }
}

/// A number past the last is refused before the buffer is looked at.
#[test]
fn a_number_past_the_last_is_refused() {
    for number in [1_093, 1_094, 65_536, 1 << 32, (1 << 32) + 5, usize::MAX] {
        for room in [0, 11, LONGEST_CLIP_ORDER, 400] {
            let mut buf = filled(room);
            assert_eq!(clip_order(number, &mut buf), Err(Refusal::Order));
            assert_eq!(buf, filled(room));
        }
    }
}
