//! Within a wider frame: answers and pixels are those of a ticket or canvas whose rows are its own, and the words beside them stay.
use drawn::draw;
use maldjupp::{to_ppm, Altered, Canvas, Color, FramedTicket, IRect, Rect, Refusal, Refused, Shape, SheetBuilder, Ticket};
use random::Random;

mod drawn;
mod random;

const LONGEST: usize = 4096;

/// Words of a frame before anything is painted there, each another.
fn laid(words: usize) -> Vec<u32> {
    (0..words as u32).map(|i| i.wrapping_mul(0x9E37_79B1) ^ 0xA500_0000).collect()
}

/// Whether the words past a width are as they were, in rows of a pitch.
fn kept(px: &[u32], before: &[u32], pitch: usize, width: usize) -> bool {
    px.len() == before.len() && px.chunks(pitch).zip(before.chunks(pitch)).all(|(row, was)| row[width..] == was[width..])
}

/// A sheet of random items, as far as a builder takes them.
fn sheet(random: &mut Random) -> SheetBuilder {
    let (w, h) = (1 + random.below(40) as u32, 1 + random.below(30) as u32);
    let mut b = SheetBuilder::new(w, h, random.color()).unwrap();
    for _ in 0..4 + random.below(16) {
        let _ = match random.below(8) {
            0 => b.push_clip(Rect { w: 30.0, h: 30.0, ..random.rect() }),
            1 => b.pop_clip(),
            _ => b.add(&random.shape()),
        };
    }
    b
}

/// Whether two tickets hold the same sheet and show the same pixels.
fn same(framed: &FramedTicket, owned: &Ticket) -> bool {
    framed.sheet() == owned.sheet() && framed.rows().eq(owned.rows())
}

/// Paints a sheet within a frame and patches it at random, beside a ticket that owns its pixels. How many patches altered the pixels, and
/// how many were not carried out.
fn beside(random: &mut Random, b: &SheetBuilder, pitch: usize, patches: u32) -> (u32, u32) {
    let mut owned = Ticket::paint(b).unwrap();
    let (width, before) = (owned.width(), laid(pitch * owned.height()));
    let (mut frame, mut altered, mut not) = (before.clone(), 0, 0);
    let mut framed = Ticket::paint_in(&mut frame, pitch, b).unwrap();
    // The painting's own `grounded` hangs on what the frame held: nothing of it was the ground.
    let grounded = (width * owned.height()) as u64;
    assert_eq!(framed.altered(), Altered { grounded, ..owned.altered() });
    assert!(same(&framed, &owned) && kept(framed.px(), &before, pitch, width));
    for _ in 0..patches {
        let shapes: Vec<_> = (0..1 + random.below(3)).map(|_| (random.below(b.items() as u64 + 1) as usize, random.shape())).collect();
        let edit = |b: &mut SheetBuilder| shapes.iter().try_for_each(|(index, shape)| b.replace(*index, shape));
        let answers = (framed.edit(edit), owned.edit(edit));
        assert_eq!(format!("{:?}", answers.0), format!("{:?}", answers.1));
        assert!(same(&framed, &owned) && kept(framed.px(), &before, pitch, width));
        match answers.0 {
            Ok(patched) => altered += (patched.steps > 0) as u32,
            Err(_) => not += 1,
        }
    }
    assert_eq!((framed.altered().area, framed.to_ppm()), (owned.altered().area, owned.to_ppm()));
    assert_eq!((framed.width(), framed.height(), framed.pitch(), owned.pitch()), (width, owned.height(), pitch, width));
    assert!(kept(&frame, &before, pitch, width));
    (altered, not)
}

#[test]
fn a_ticket_within_a_frame_is_the_ticket() {
    let mut random = Random(11);
    let (mut altered, mut not) = (0, 0);
    for _ in 0..6 {
        let b = sheet(&mut random);
        let w = b.width() as usize;
        for pitch in [w, w + 1, w + 7, LONGEST] {
            let counted = beside(&mut random, &b, pitch, 200);
            (altered, not) = (altered + counted.0, not + counted.1);
        }
    }
    assert!(altered > 500 && not > 100, "{altered} {not}");
}

/// Wherever its first pixel is put, as long as the last row is whole, no other word of the terminal is altered.
#[test]
fn a_ticket_anywhere_in_a_terminal() {
    let mut random = Random(12);
    for _ in 0..200 {
        let b = sheet(&mut random);
        let owned = Ticket::paint(&b).unwrap();
        let (w, h) = (owned.width(), owned.height());
        let (x, y) = (random.below(20) as usize, random.below(9) as usize);
        let (pitch, rows) = (x + w + random.below(20) as usize, y + h + 1 + random.below(5) as usize);
        let before = laid(pitch * rows);
        let mut terminal = before.clone();
        Ticket::paint_in(&mut terminal[y * pitch + x..][..pitch * h], pitch, &b).unwrap();
        let expected = |i: usize| match ((i % pitch).wrapping_sub(x), (i / pitch).wrapping_sub(y)) {
            (column, row) if column < w && row < h => owned.row(row)[column],
            _ => before[i],
        };
        assert!((0..terminal.len()).all(|i| terminal[i] == expected(i)));
        assert_eq!(to_ppm(pitch, &terminal).len(), format!("P6\n{pitch} {rows}\n255\n").len() + 3 * pitch * rows);
    }
}

/// 15 for the pitch after what the sheet is refused for, then 8 for the words lent; the frame is then as it was.
#[test]
fn refused_pitches_and_frames() {
    let (mut b, pitch) = (SheetBuilder::new(5, 3, Color::WHITE).unwrap(), 7);
    b.fill_rect(Rect::new(1.0, 1.0, 2.0, 1.0), Color::BLACK).unwrap();
    let before = laid(pitch * 3);
    let refused = |words: usize, pitch: usize, sheet: Vec<u8>| {
        let mut frame = before[..words].to_vec();
        let refused = Ticket::from_bytes_in(&mut frame, pitch, sheet).unwrap_err();
        assert_eq!((frame, refused.item), (before[..words].to_vec(), 0));
        refused.refusal
    };
    for out in [0, 1, 4, LONGEST + 1, usize::MAX] {
        assert_eq!((refused(21, out, b.bytes()), refused(0, out, b.bytes())), (Refusal::Pitch, Refusal::Pitch));
        assert_eq!(refused(21, out, vec![0; 11]), Refusal::SheetLength);
    }
    for other in [5, 6, 8, LONGEST] {
        assert_eq!(refused(21, other, b.bytes()), Refusal::Pixels);
    }
    for words in [0, 14, 15, 2 * pitch + 5, 20] {
        assert_eq!(refused(words, pitch, b.bytes()), Refusal::Pixels);
    }
    assert!(Ticket::paint_in(&mut before.clone(), pitch, &b).is_ok());
    let sentence = "refused 15 at 0: The pitch is below the width or over 4,096.";
    assert_eq!(Ticket::paint_in(&mut [0; 12], 4, &b).unwrap_err().to_string(), sentence);
}

/// What a frame's ticket refuses leaves sheet, pixels and counts; the words beside are the caller's.
#[test]
fn a_refused_patch_and_the_margin() {
    let at = |x: f32| Shape::fill_rect(Rect::new(x, 0.0, 1.0, 2.0), Color::WHITE);
    let mut b = SheetBuilder::new(3, 2, Color::BLACK).unwrap();
    b.add(&at(0.0)).unwrap();
    let mut frame = [7; 10];
    let mut ticket = Ticket::paint_in(&mut frame, 5, &b).unwrap();
    assert_eq!(ticket.patch(vec![0; 11]), Err(Refused { refusal: Refusal::SheetLength, item: 0 }));
    assert!(ticket.edit(|b| b.add(&at(1.0))).is_err());
    assert_eq!(ticket.altered(), Altered { area: IRect::new(0, 0, 3, 2), steps: 2, grounded: 6 });
    ticket.margin_mut(1).copy_from_slice(&[8, 9]);
    assert_eq!(ticket.replace(0, at(2.0)), Ok(Altered { area: IRect::new(0, 0, 3, 2), steps: 2, grounded: 2 }));
    assert_eq!((ticket.row(0), ticket.row(1)), (&[0, 0, 0xFF_FFFF][..], &[0, 0, 0xFF_FFFF][..]));
    assert_eq!(ticket.px(), [0, 0, 0xFF_FFFF, 7, 7, 0, 0, 0xFF_FFFF, 8, 9]);
    assert_eq!(frame, [0, 0, 0xFF_FFFF, 7, 7, 0, 0, 0xFF_FFFF, 8, 9]);
    assert!(Ticket::paint(&b).unwrap().margin_mut(1).is_empty());
}

#[test]
#[should_panic = "there is no row 2"]
fn a_row_that_is_not_there() {
    let frame = &mut [0; 6];
    Ticket::paint_in(frame, 3, &SheetBuilder::new(2, 2, Color::BLACK).unwrap()).unwrap().row(2);
}

/// Marks every word past a canvas's width.
fn mark(canvas: &mut Canvas) {
    let (marks, pitch, width) = (laid(canvas.px().len()), canvas.pitch(), canvas.width());
    for y in 0..canvas.height() {
        canvas.margin_mut(y).copy_from_slice(&marks[y * pitch + width..][..pitch - width]);
    }
}

/// A random call; the steps of a shape.
fn call(canvas: &mut Canvas, random: &mut Random) -> Result<u64, Refusal> {
    let (shape, rect, color) = (random.shape(), random.rect(), random.color());
    let (x, y, r) = (random.float(), random.float(), random.float());
    match random.below(16) {
        0 => canvas.push_clip(Rect { w: 30.0, h: 30.0, ..rect }).map(|()| 0),
        1 => canvas.push_clip_i(IRect::new(x as i32 / 2, y as i32 / 2, 40, 20)).map(|()| 0),
        2..=4 => canvas.pop_clip().map(|()| 0),
        5 => canvas.clear(color).map(|()| 0),
        6 => canvas.fill_circle(x, y, r, color),
        7 => canvas.ring(x, y, r, 2.0, color),
        8 => canvas.fill_rect(rect, color),
        _ => draw(canvas, &shape),
    }
}

/// The same calls on a canvas of its own rows and on one with a pitch: the same answers, rows, clips and pixels.
#[test]
fn a_canvas_with_a_pitch_is_the_canvas() {
    let mut random = Random(13);
    let (mut altered, mut refused) = (0, 0);
    for round in 0..240 {
        let (w, h) = (1 + random.below(40) as usize, 1 + random.below(30) as usize);
        let pitch = [w, w + 1, w + 7, LONGEST][round % 4];
        let mut own = Canvas::new(w as i32, h as i32).unwrap();
        let mut wide = Canvas::with_pitch(w as i32, h as i32, pitch).unwrap();
        mark(&mut wide);
        let marks = laid(wide.px().len());
        for _ in 0..40 {
            let seed = random.word();
            let answers = (call(&mut own, &mut Random(seed)), call(&mut wide, &mut Random(seed)));
            assert_eq!(answers.0, answers.1);
            assert!(own.rows().eq(wide.rows()) && kept(wide.px(), &marks, pitch, w));
            assert_eq!((own.clip(), own.bounds()), (wide.clip(), wide.bounds()));
            let (x, y) = (random.below(60) as i32 - 9, random.below(50) as i32 - 9);
            assert_eq!(own.get(x, y), wide.get(x, y));
            altered += (answers.0.unwrap_or(0) > 0) as u32;
            refused += answers.0.is_err() as u32;
        }
        assert_eq!((own.to_ppm(), wide.pitch(), wide.px().len()), (wide.to_ppm(), pitch, pitch * h));
    }
    assert!(altered > 1000 && refused > 100, "{altered} {refused}");
}

#[test]
fn pitches_of_a_canvas() {
    for (w, h, pitch, refusal) in [
        (3, 2, 2, Refusal::Pitch),
        (3, 2, 0, Refusal::Pitch),
        (-3, 2, 0, Refusal::Pitch),
        (3, 2, LONGEST + 1, Refusal::Pitch),
        (3, 2, usize::MAX, Refusal::Pitch),
        (2049, 2, 2048, Refusal::Header),
        (2, 2049, usize::MAX, Refusal::Header),
    ] {
        assert_eq!(Canvas::with_pitch(w, h, pitch).unwrap_err(), refusal, "{w} {h} {pitch}");
    }
    let canvas = Canvas::with_pitch(-3, 2, 1).unwrap();
    assert_eq!((canvas.width(), canvas.pitch(), canvas.px()), (1, 1, &[0, 0][..]));
    let canvas = Canvas::with_pitch(2048, 2048, LONGEST).unwrap();
    assert_eq!((canvas.pitch(), canvas.px().len(), canvas.row(2047).len()), (LONGEST, LONGEST * 2048, 2048));
    assert_eq!(Canvas::new(-3, 2).unwrap().pitch(), 1);
}

/// A canvas made by `new` has rows as long as it is wide, also after another size, which drops every clip; the same size alters nothing.
#[test]
fn another_size_with_rows_of_its_own() {
    let mut canvas = Canvas::new(3, 2).unwrap();
    canvas.clear(Color::WHITE).unwrap();
    canvas.push_clip_i(IRect::new(1, 1, 2, 2)).unwrap();
    canvas.resize(3, 2).unwrap();
    assert_eq!((canvas.clip(), canvas.px()), (IRect::new(1, 1, 2, 2), &[0xFF_FFFF; 6][..]));
    for (w, h) in [(5, 2), (2, 9), (9, 2), (-4, 18), (40, 0)] {
        canvas.clear(Color::WHITE).unwrap();
        canvas.push_clip_i(IRect::new(0, 0, 1, 1)).unwrap();
        canvas.resize(w, h).unwrap();
        let (width, height) = (w.max(1), h.max(1));
        let whole = IRect::new(0, 0, width, height);
        assert_eq!((canvas.pitch(), canvas.px()), (width as usize, &vec![0; (width * height) as usize][..]));
        assert_eq!((canvas.clip(), canvas.bounds()), (whole, whole));
        canvas.pop_clip().unwrap();
        assert_eq!(canvas.clip(), whole);
    }
    canvas.push_clip_i(IRect::new(3, 0, 9, 1)).unwrap();
    assert_eq!((canvas.resize(2049, 1), canvas.clip(), canvas.pitch()), (Err(Refusal::Header), IRect::new(3, 0, 9, 1), 40));
}

/// One made by `with_pitch` keeps its pitch; words past the new width stay, and a larger width than the pitch is refused.
#[test]
fn another_size_with_a_pitch() {
    let (mut canvas, white) = (Canvas::with_pitch(3, 2, 5).unwrap(), 0xFF_FFFF);
    canvas.clear(Color::WHITE).unwrap();
    canvas.margin_mut(0).copy_from_slice(&[7, 8]);
    canvas.push_clip_i(IRect::new(1, 1, 2, 2)).unwrap();
    for (w, h, refusal) in [(6, 2, Refusal::Pitch), (6, 9, Refusal::Pitch), (2048, 1, Refusal::Pitch), (6, 2049, Refusal::Header)] {
        assert_eq!(canvas.resize(w, h), Err(refusal));
    }
    canvas.resize(3, 2).unwrap();
    assert_eq!((canvas.px(), canvas.clip()), (&[white, white, white, 7, 8, white, white, white, 0, 0][..], IRect::new(1, 1, 2, 2)));
    canvas.resize(2, 2).unwrap();
    assert_eq!((canvas.px(), canvas.clip()), (&[0, 0, white, 7, 8, 0, 0, white, 0, 0][..], IRect::new(0, 0, 2, 2)));
    canvas.resize(1, 3).unwrap();
    assert_eq!(canvas.px(), [0, 0, white, 7, 8, 0, 0, white, 0, 0, 0, 0, 0, 0, 0]);
    canvas.resize(4, 1).unwrap();
    assert_eq!((canvas.px(), canvas.row(0), canvas.pitch()), (&[0, 0, 0, 0, 8][..], &[0; 4][..], 5));
    canvas.resize(5, 1).unwrap();
    assert_eq!(canvas.px(), [0; 5]);
    assert!(canvas.margin_mut(0).is_empty());
    // Made with a pitch that is its width, it still keeps it.
    let mut canvas = Canvas::with_pitch(3, 1, 3).unwrap();
    assert_eq!((canvas.resize(4, 1), canvas.resize(2, 1), canvas.pitch()), (Err(Refusal::Pitch), Ok(()), 3));
}
