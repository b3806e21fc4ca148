//! The room that painting a sheet takes: scratch words, saved clips and pixels.
use maldjupp::{room, Altered, Canvas, Color, IRect, Pt, Rect, Room, Shape, SheetBuilder, Ticket};
use random::Random;

mod random;

const W: i32 = 24;
const H: i32 = 20;

fn blank() -> SheetBuilder {
    SheetBuilder::new(W as u32, H as u32, Color::BLACK).unwrap()
}

/// A triangle over the half of a square.
fn corner(side: f32) -> Shape {
    Shape::fill_poly(&[Pt::default(), Pt::new(side, 0.0), Pt::new(0.0, side)], Color::WHITE)
}

/// The pixels of two boxes together.
fn shared(a: IRect, b: IRect) -> u64 {
    let side = |start: i32, end: i32| (end - start).max(0) as u64;
    side(a.x0.max(b.x0), a.x1.min(b.x1)) * side(a.y0.max(b.y0), a.y1.min(b.y1))
}

/// Pushes for +, pops for -.
fn saved(steps: &str) -> usize {
    let mut b = blank();
    for step in steps.chars() {
        if step == '+' { b.push_clip(Rect::default()) } else { b.pop_clip() }.unwrap();
    }
    b.room().unwrap().saved
}

#[test]
fn the_most_clips_at_once() {
    for (steps, most) in [("", 0), ("--", 0), ("+", 1), ("--+", 1), ("+-+-+-", 1), ("++-", 2), ("++--+++-", 3)] {
        assert_eq!(saved(steps), most, "{steps}");
    }
    assert_eq!((saved(&"+".repeat(16)), saved(&("+".repeat(15) + "---++"))), (16, 15));
}

/// A shape's reach is the box of the patch that brings it; its pixels are those of the reach in the clip.
#[test]
fn pixels_in_reach_and_clip() {
    let mut random = Random(7);
    let (mut whole, mut none, mut cut) = (0, 0, 0);
    let mut nothing = blank();
    nothing.polyline(&[], 1.0, Color::WHITE).unwrap();
    for _ in 0..3000 {
        let (x, y) = (random.below(16) as f32, random.below(16) as f32);
        let (clip, shape) = (Rect::new(x - 8.0, y - 8.0, 24.0, 20.0), random.shape());
        let (mut b, mut canvas) = (blank(), Canvas::new(W, H).unwrap());
        if let (Ok(_), Ok(_), Ok(())) = (b.push_clip(clip), b.add(&shape), canvas.push_clip(clip)) {
            let reach = Ticket::paint(&nothing).unwrap().replace(0, shape).unwrap().area;
            let told = b.room().unwrap();
            assert_eq!((told.saved, told.pixels), (1, shared(reach, canvas.clip())));
            match told.pixels {
                0 => none += 1,
                pixels if pixels < shared(reach, canvas.bounds()) => cut += 1,
                _ => whole += 1,
            }
        }
    }
    assert!(whole > 100 && none > 100 && cut > 100, "{whole} {none} {cut}");
}

/// The clip in force at each shape counts, a pixel in two shapes twice, and what a shape of alpha 0 reaches.
#[test]
fn pixels_are_summed() {
    let (square, clear) = (Rect::new(2.0, 2.0, 10.0, 10.0), Color::rgba(9, 9, 9, 0));
    let mut b = blank();
    b.fill_rect(square, Color::WHITE).unwrap();
    assert_eq!(b.room().unwrap().pixels, 100);
    b.push_clip(Rect::new(0.0, 0.0, 24.0, 8.0)).unwrap();
    b.fill_rect(square, Color::WHITE).unwrap();
    assert_eq!(b.room().unwrap().pixels, 100 + 60);
    b.line(Pt::new(3.0, 3.0), Pt::new(9.0, 3.0), 2.0, clear).unwrap();
    assert_eq!(b.room().unwrap().pixels, 160 + 40);
    b.push_clip(Rect::new(0.0, 10.0, 24.0, 8.0)).unwrap();
    b.fill_rect(square, Color::WHITE).unwrap();
    assert_eq!(b.room().unwrap().pixels, 200);
    b.pop_clip().unwrap();
    b.pop_clip().unwrap();
    b.fill_rect(square, Color::WHITE).unwrap();
    assert_eq!(b.room(), Ok(Room { words: 0, saved: 2, pixels: 300 }));
}

/// One more than 32 bits hold.
#[test]
fn the_most_pixels() {
    let mut b = SheetBuilder::new(2048, 2048, Color::BLACK).unwrap();
    for items in 1..=1024 {
        b.fill_rect(Rect::new(0.0, 0.0, 2048.0, 2048.0), Color::WHITE).unwrap();
        if items % 128 == 0 {
            assert_eq!(b.room(), Ok(Room { words: 0, saved: 0, pixels: items << 22 }));
        }
    }
    assert_eq!(b.room().unwrap().pixels, 1 << 32);
}

#[test]
fn a_polygon_of_four_million_cells() {
    let mut b = SheetBuilder::new(2048, 2048, Color::BLACK).unwrap();
    b.add(&corner(1998.0)).unwrap();
    assert_eq!(b.room(), Ok(Room { words: 2002 * 2000 + 2, saved: 0, pixels: 1999 * 1999 }));
    let mut ticket = Ticket::paint(&b).unwrap();
    assert_eq!((ticket.px()[0], ticket.px()[1990 * 2048 + 1990]), (0xFF_FFFF, 0));
    let half = 1998 * 1999 / 2;
    assert_eq!(ticket.altered().steps, half);
    // One that is larger is not painted: no scratch, no reach.
    assert_eq!(ticket.replace(0, corner(1998.5)), Ok(Altered { area: IRect::new(0, 0, 1999, 1999), steps: 0, grounded: half }));
    assert_eq!(room(ticket.sheet()), Ok(Room { words: 0, saved: 0, pixels: 0 }));
    assert!(ticket.px().iter().all(|p| *p == 0));
}
