//! The polyline as one item: its bytes and limits, its pixels beside those of the canvas call and of its lines as items, and its patches.
use maldjupp::{Altered, Canvas, Color, IRect, Pt, Rect, Refusal, Refused, Shape, SheetBuilder, SheetError, Ticket};
use random::Random;

mod random;

const W: i32 = 24;
const H: i32 = 20;
const RED: Color = Color::rgba(200, 0, 0, 99);

fn blank() -> SheetBuilder {
    SheetBuilder::new(W as u32, H as u32, Color::BLACK).unwrap()
}

/// So many points, up and down across the canvas.
fn zigzag(count: usize) -> Vec<Pt> {
    (0..count).map(|i| Pt::new(i as f32 / 3.0, if i % 2 == 0 { 2.0 } else { 17.5 })).collect()
}

/// A sheet of one polyline by the format alone, without any limit: header, pair, item.
fn alone(points: &[Pt], width: f32, color: Color) -> Vec<u8> {
    let [low, high] = (points.len() as u16).to_le_bytes();
    let mut item = vec![8, 0, low, high];
    item.extend(width.to_le_bytes());
    item.extend([color.r, color.g, color.b, color.a]);
    item.extend(points.iter().flat_map(|p| [p.x.to_le_bytes(), p.y.to_le_bytes()].concat()));
    let [low, high] = (item.len() as u16).to_le_bytes();
    [&[W as u8, 0, H as u8, 0, 0, 0, 0, 0, 1, 0, 0, 0, 16, 0, low, high][..], &item].concat()
}

#[test]
fn the_bytes_are_those_of_the_layout() {
    let (points, color) = ([Pt::new(1.0, 2.0), Pt::new(-0.5, 8192.0)], Color::rgba(1, 2, 3, 4));
    let mut b = blank();
    assert_eq!(b.polyline(&points, 3.0, color), Ok(0));
    let head = [8, 0, 2, 0, 0, 0, 0x40, 0x40, 1, 2, 3, 4];
    let ends = [0, 0, 0x80, 0x3F, 0, 0, 0, 0x40, 0, 0, 0, 0xBF, 0, 0, 0, 0x46];
    assert_eq!(b.bytes()[12..], [&[16, 0, 28, 0][..], &head, &ends].concat());
    assert_eq!(b.bytes(), alone(&points, 3.0, color));
}

#[test]
fn up_to_64_points() {
    for count in [0, 1, 2, 3, 64] {
        let mut b = blank();
        assert_eq!(b.polyline(&zigzag(count), 1.5, Color::WHITE), Ok(0));
        assert_eq!(b.bytes(), alone(&zigzag(count), 1.5, Color::WHITE));
        let ticket = Ticket::paint(&b).unwrap();
        assert_eq!(ticket.builder(), b);
        assert_eq!(ticket.px().iter().any(|p| *p != 0), count > 1);
    }
}

/// The builder, painting and the canvas call agree, also where there are too many points and one of them is no number.
#[test]
fn more_are_refused() {
    for count in [65, 66, 256, 300, 7_496] {
        let (points, mut b) = (zigzag(count), blank());
        for points in [points.clone(), [&points[1..], &[Pt::new(f32::NAN, 0.0)]].concat()] {
            assert_eq!(b.polyline(&points, 1.5, Color::WHITE), Err(SheetError::Points { count }));
            let refused = Ticket::from_bytes(alone(&points, 1.5, Color::WHITE)).unwrap_err();
            assert_eq!(refused, Refused { refusal: Refusal::Points, item: 1 });
            assert_eq!(Canvas::new(W, H).unwrap().polyline(&points, 1.5, Color::WHITE), Err(Refusal::Points));
        }
        assert_eq!(b, blank());
    }
    let error = blank().polyline(&zigzag(65), 1.5, Color::WHITE).unwrap_err();
    assert_eq!(error.to_string(), "there are 65 points; a polygon or polyline has at most 64");
    for count in [7_497, 65_536 + 2] {
        assert_eq!(blank().polyline(&zigzag(count), 1.5, Color::WHITE), Err(SheetError::Length { bytes: 28 + 8 * count }));
    }
}

/// The floats of a polyline that draws nothing are tested too.
#[test]
fn floats_past_the_limit() {
    let cases = [
        (vec![], -8193.0, "width is -8193; it must be -8,192 to 8,192"),
        (vec![Pt::new(f32::NAN, 9000.0)], 1.0, "a point's x is NaN; it must be finite"),
        (vec![Pt::default(), Pt::new(0.0, 9000.0)], 1.0, "a point's y is 9000; it must be -8,192 to 8,192"),
        (vec![Pt::new(9000.0, 0.0)], f32::INFINITY, "width is inf; it must be finite"),
    ];
    for (points, width, text) in cases {
        let mut b = blank();
        assert_eq!(b.polyline(&points, width, RED).unwrap_err().to_string(), text);
        assert_eq!(b, blank());
        let refused = Ticket::from_bytes(alone(&points, width, RED)).unwrap_err();
        assert_eq!(refused, Refused { refusal: Refusal::Float, item: 1 });
    }
}

/// Black with a white square, then a clip where the library takes it: as a sheet and on a canvas.
fn begun(clip: Rect) -> (SheetBuilder, Canvas) {
    let (mut b, mut canvas) = (blank(), Canvas::new(W, H).unwrap());
    let square = Rect::new(3.0, 3.0, 9.0, 9.0);
    b.fill_rect(square, Color::WHITE).unwrap();
    canvas.fill_rect(square, Color::WHITE).unwrap();
    assert_eq!(b.push_clip(clip).is_ok(), canvas.push_clip(clip).is_ok());
    (b, canvas)
}

fn as_lines(mut b: SheetBuilder, points: &[Pt], width: f32, color: Color) -> SheetBuilder {
    for ends in points.windows(2) {
        b.line(ends[0], ends[1], width, color).unwrap();
    }
    b
}

#[test]
fn pixels_and_steps_are_those_of_the_call_and_of_the_lines() {
    let mut random = Random(5);
    let (mut altered, mut refused) = (0, 0);
    for _ in 0..3000 {
        let (points, width, color) = (random.points(), random.float() / 4.0, random.color());
        let (mut b, mut canvas) = begun(Rect { w: 30.0, h: 30.0, ..random.rect() });
        let (before, items) = (canvas.px().to_vec(), b.items());
        let lines = b.clone();
        match (b.polyline(&points, width, color), canvas.polyline(&points, width, color)) {
            (Ok(index), Ok(steps)) => {
                assert_eq!((index, b.items()), (items, items + 1));
                let without = Ticket::paint(&lines).unwrap().altered().steps;
                for sheet in [b, as_lines(lines, &points, width, color)] {
                    let ticket = Ticket::paint(&sheet).unwrap();
                    assert_eq!((canvas.px(), without + steps), (ticket.px(), ticket.altered().steps));
                }
                altered += (canvas.px() != before) as u32;
            }
            (Err(error), Err(refusal)) => {
                assert_eq!((error.refusal(), canvas.px(), b), (Some(refusal), &before[..], lines));
                refused += 1;
            }
            (built, drawn) => panic!("{built:?} {drawn:?}"),
        }
    }
    assert!(altered > 500 && refused > 100, "{altered} {refused}");
}

/// With an alpha under 255 the joint is darker than the lines: on white, black of alpha 128 gives 127, and twice 63. It counts twice.
#[test]
fn a_joint_is_blended_twice() {
    let mut b = SheetBuilder::new(16, 5, Color::WHITE).unwrap();
    b.polyline(&[2.0, 8.0, 14.0].map(|x| Pt::new(x, 2.5)), 3.0, Color::rgba(0, 0, 0, 128)).unwrap();
    let ticket = Ticket::paint(&b).unwrap();
    let row = &ticket.px()[2 * 16..];
    assert_eq!((row[4], row[7], row[8], row[12]), (0x7F_7F7F, 0x3F_3F3F, 0x3F_3F3F, 0x7F_7F7F));
    // Three rows of each line's 10 columns, of which they share 4.
    assert_eq!((ticket.altered().steps, ticket.px().iter().filter(|p| **p != 0xFF_FFFF).count()), (3 * 20, 3 * 16));
}

/// The smallest box around two, an empty one counting for nothing.
fn join(a: IRect, b: IRect) -> IRect {
    match (a.is_empty(), b.is_empty()) {
        (_, true) => a,
        (true, false) => b,
        _ => IRect::new(a.x0.min(b.x0), a.y0.min(b.y0), a.x1.max(b.x1), a.y1.max(b.y1)),
    }
}

/// The box around a polyline, by kash-ui's padded rectangle of each line, within a clip.
fn reach(points: &[Pt], width: f32, clip: IRect) -> IRect {
    let pad = width * 0.5 + 1.0;
    let line = |ends: &[Pt]| {
        let (x, y) = (ends[0].x.min(ends[1].x) - pad, ends[0].y.min(ends[1].y) - pad);
        let (w, h) = ((ends[0].x - ends[1].x).abs() + 2.0 * pad, (ends[0].y - ends[1].y).abs() + 2.0 * pad);
        IRect::new(x.floor() as i32, y.floor() as i32, (x + w).ceil() as i32, (y + h).ceil() as i32)
    };
    let all = points.windows(2).map(line).fold(IRect::default(), join);
    join(IRect::default(), IRect::new(all.x0.max(clip.x0), all.y0.max(clip.y0), all.x1.min(clip.x1), all.y1.min(clip.y1)))
}

/// As far as the clip in force goes, which cuts the box around all lines of a polyline.
#[test]
fn a_patch_has_the_box_around_old_and_new() {
    let mut random = Random(6);
    let (mut patched, mut empty, mut cut) = (0, 0, 0);
    for _ in 0..100 {
        let (mut b, canvas) = begun(Rect { w: 30.0, h: 30.0, ..random.rect() });
        let (index, mut old) = (b.polyline(&[], 1.0, RED).unwrap(), IRect::default());
        b.pop_clip().unwrap();
        b.add(&random.shape()).ok();
        let mut ticket = Ticket::paint(&b).unwrap();
        for _ in 0..20 {
            let (points, width) = (random.points(), random.float() / 4.0);
            if let Ok(Altered { area, .. }) = ticket.replace(index, Shape::polyline(&points, width, random.color())) {
                let new = reach(&points, width, canvas.clip());
                assert_eq!(area, join(old, new));
                assert_eq!(ticket.px(), Ticket::paint(&ticket.builder()).unwrap().px());
                (patched, empty, old) = (patched + 1, empty + area.is_empty() as u32, new);
                cut += (new != reach(&points, width, canvas.bounds())) as u32;
            }
        }
    }
    assert!(patched > 1000 && empty > 10 && cut > 100, "{patched} {empty} {cut}");
}

/// Longer and longer, by a fill and back, and away.
#[test]
fn patches() {
    let way = [Pt::new(1.0, 2.0), Pt::new(20.0, 5.0), Pt::new(9.0, 17.5), Pt::new(30.0, -4.0)];
    let trace = |count: usize| Shape::polyline(&way[..count], 2.0, RED);
    let fill = Shape::fill_rect(Rect::new(2.0, 12.0, 3.0, 8.0), RED);
    let (mut b, _) = begun(Rect::new(0.0, 0.0, 99.0, 99.0));
    let index = b.add(&trace(1)).unwrap();
    b.ring(12.0, 10.0, 6.0, 2.0, Color::WHITE).unwrap();
    let mut ticket = Ticket::paint(&b).unwrap();
    let mut patch = |shape: &Shape, area: IRect| {
        assert_eq!(ticket.replace(index, shape.clone()).map(|altered| altered.area), Ok(area));
        assert_eq!(ticket.px(), Ticket::paint(&ticket.builder()).unwrap().px());
    };
    patch(&trace(0), IRect::default());
    patch(&trace(2), IRect::new(0, 0, 22, 7));
    patch(&trace(3), IRect::new(0, 0, 22, 20));
    patch(&trace(4), IRect::new(0, 0, 24, 20));
    patch(&fill, IRect::new(0, 0, 24, 20));
    patch(&trace(2), IRect::new(0, 0, 22, 20));
    patch(&trace(1), IRect::new(0, 0, 22, 7));
    patch(&fill, IRect::new(2, 12, 5, 20));
    patch(&fill, IRect::default());
    patch(&trace(1), IRect::new(2, 12, 5, 20));
}
