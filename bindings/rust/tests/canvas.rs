//! Drawing call by call: pixels and steps are those of the sheet with the same calls, and a refused call alters nothing.
use drawn::draw;
use maldjupp::{Canvas, Color, IRect, Rect, Refusal, SheetBuilder, SheetError, Ticket};
use random::Random;

mod drawn;
mod random;

/// A random call on both, with the steps of a shape, and whether their limits are the same: in a sheet, a circle is the square around it.
fn call(random: &mut Random, canvas: &mut Canvas, b: &mut SheetBuilder) -> (Result<u64, Refusal>, Result<usize, SheetError>, bool) {
    let (x, y, r, width, color, paint) = (random.float(), random.float(), random.float(), random.float(), random.color(), random.paint());
    let (rect, points) = (random.rect(), random.points());
    match random.below(12) {
        0 | 1 => (canvas.push_clip(rect).map(|()| 0), b.push_clip(rect), true),
        2 => (canvas.pop_clip().map(|()| 0), b.pop_clip(), true),
        3 => (canvas.fill_rect(rect, paint), b.fill_rect(rect, paint), true),
        4 => (canvas.fill_circle(x, y, r, paint), b.fill_circle(x, y, r, paint), false),
        5 => (canvas.ring(x, y, r, width, color), b.ring(x, y, r, width, color), false),
        6 => (canvas.polyline(&points, width, color), b.polyline(&points, width, color), true),
        _ => {
            let shape = random.shape();
            (draw(canvas, &shape), b.add(&shape), true)
        }
    }
}

#[test]
fn pixels_and_steps_are_those_of_the_sheet() {
    let mut random = Random(4);
    let (mut accepted, mut altered, mut refused) = (0, 0, [0; 14]);
    for _ in 0..600 {
        let (w, h, ground) = (1 + random.below(40) as i32, 1 + random.below(30) as i32, random.color());
        let (mut canvas, mut b) = (Canvas::new(w, h).unwrap(), SheetBuilder::new(w as u32, h as u32, ground).unwrap());
        canvas.clear(ground).unwrap();
        let mut steps = 0;
        for _ in 0..random.below(60) {
            let before = (canvas.clone(), b.clone());
            match call(&mut random, &mut canvas, &mut b) {
                (Ok(own), Ok(_), _) => (accepted, steps) = (accepted + 1, steps + own),
                (Err(refusal), built, alike) => {
                    refused[refusal.number() as usize] += 1;
                    assert_eq!((canvas.px(), canvas.clip()), (before.0.px(), before.0.clip()));
                    assert!(!alike || built.unwrap_err().refusal() == Some(refusal));
                    b = before.1;
                }
                (Ok(_), Err(error), alike) => {
                    assert!(!alike, "{error}");
                    canvas = before.0;
                }
            }
        }
        let ticket = Ticket::paint(&b).unwrap();
        assert_eq!((canvas.px(), steps), (ticket.px(), ticket.altered().steps));
        altered += canvas.px().iter().any(|p| *p != canvas.get(0, 0)) as u32;
    }
    assert!(accepted > 10_000 && altered > 400 && refused[6] > 100 && refused[13] > 100, "{accepted} {altered} {refused:?}");
    assert_eq!(refused.iter().sum::<u32>(), refused[6] + refused[7] + refused[13]);
}

#[test]
fn sizes() {
    let mut canvas = Canvas::new(-7, 2).unwrap();
    assert_eq!((canvas.width(), canvas.height(), canvas.px()), (1, 2, &[0, 0][..]));
    canvas.clear(Color::WHITE).unwrap();
    canvas.push_clip_i(IRect::new(0, 1, 9, 9)).unwrap();
    for (w, h) in [(2049, 1), (1, 2049), (i32::MAX, i32::MAX)] {
        assert_eq!(Canvas::new(w, h).unwrap_err(), Refusal::Header);
        assert_eq!(canvas.resize(w, h), Err(Refusal::Header));
    }
    canvas.resize(1, 2).unwrap();
    assert_eq!((canvas.px(), canvas.clip(), canvas.bounds()), (&[0xFF_FFFF; 2][..], IRect::new(0, 1, 1, 2), IRect::new(0, 0, 1, 2)));
    canvas.resize(2, 0).unwrap();
    assert_eq!((canvas.px(), canvas.clip(), canvas.width()), (&[0; 2][..], IRect::new(0, 0, 2, 1), 2));
    canvas.resize(2048, 2048).unwrap();
    assert_eq!((canvas.px().len(), canvas.bounds()), (2048 * 2048, IRect::new(0, 0, 2048, 2048)));
}

#[test]
fn clips() {
    let mut canvas = Canvas::new(4, 1).unwrap();
    canvas.pop_clip().unwrap();
    for i in 0..16 {
        canvas.push_clip_i(IRect::new(i / 8, -3, i32::MAX, 4 - i)).unwrap();
    }
    let clip = canvas.clip();
    assert!(clip.is_empty());
    assert_eq!((canvas.push_clip(Rect::default()), canvas.push_clip_i(clip)), (Err(Refusal::Clips), Err(Refusal::Clips)));
    assert_eq!(canvas.push_clip(Rect::new(f32::NAN, 0.0, 1.0, 1.0)), Err(Refusal::Float));
    assert_eq!(canvas.clip(), clip);
    for _ in 0..13 {
        canvas.pop_clip().unwrap();
    }
    canvas.fill_rect(Rect::new(-9.0, -9.0, 11.0, 30.0), Color::rgb(1, 2, 3)).unwrap();
    assert_eq!(canvas.px(), [0x01_0203, 0x01_0203, 0, 0]);
    assert_eq!((canvas.get(-5, 7), canvas.get(99, 0)), (0x01_0203, 0));
    assert_eq!(canvas.to_ppm(), b"P6\n4 1\n255\n\x01\x02\x03\x01\x02\x03\0\0\0\0\0\0");
}
