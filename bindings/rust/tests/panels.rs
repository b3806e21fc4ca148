//! Boxes of pixels taken through a panel's registers: the pixels, the registers at each of them, and what is refused.
use maldjupp::{Canvas, Color, IRect, Panel, Picture, Rect, Refusal, SheetBuilder, Ticket};
use random::Random;

mod random;

/// The pixels of a box, row by row, of rows of pixels.
fn box_of<'a>(rows: impl Iterator<Item = &'a [u32]>, area: IRect) -> Vec<u32> {
    let side = |a: i32, b: i32| (b - a).max(0) as usize;
    let (w, h) = (side(area.x0, area.x1), side(area.y0, area.y1));
    rows.skip(area.y0 as usize).take(h).flat_map(|row| row.iter().skip(area.x0 as usize).take(w)).copied().collect()
}

/// A canvas of which each pixel is another, on rows of a pitch.
fn numbered(w: i32, h: i32, pitch: usize) -> Canvas {
    let mut canvas = Canvas::with_pitch(w, h, pitch).unwrap();
    for (x, y) in (0..h).flat_map(|y| (0..w).map(move |x| (x, y))) {
        canvas.fill_rect(Rect::new(x as f32, y as f32, 1.0, 1.0), Color::hex((1 + y * w + x) as u32)).unwrap();
    }
    canvas
}

/// The registers at the k-th pixel of a box, from 0, with these flags; past the last, and of an empty box, those of a finished one.
fn registers(flags: u8, area: IRect, k: i32) -> [u8; 8] {
    let (w, h) = (area.x1 - area.x0, area.y1 - area.y0);
    if area.is_empty() || k >= w * h {
        return [0, 128, 0, 0, 0, 0, 0, 0];
    }
    let [x, y, left] = [area.x0 + k % w, area.y0 + k / w, w - k % w].map(|v| (v as u16).to_le_bytes());
    [0, flags, x[0], x[1], y[0], y[1], left[0], left[1]]
}

/// A sheet of random shapes, as far as a builder takes them.
fn sheet(random: &mut Random) -> SheetBuilder {
    let (w, h) = (1 + random.below(40) as u32, 1 + random.below(30) as u32);
    let mut b = SheetBuilder::new(w, h, random.color()).unwrap();
    while b.items() < 8 {
        let _ = b.add(&random.shape());
    }
    b
}

/// What is sent through a panel alone: of the whole picture at first, then of the box of each patch.
struct Screen {
    panel: Panel,
    width: usize,
    px: Vec<u32>,
}

impl Screen {
    fn of(picture: &impl Picture, width: usize, height: usize) -> Screen {
        let mut screen = Screen { panel: Panel::fresh(), width, px: vec![0xFFFF_FFFF; width * height] };
        screen.show(picture, IRect::new(0, 0, width as i32, height as i32));
        screen
    }

    fn show(&mut self, picture: &impl Picture, area: IRect) {
        let across = (area.x1 - area.x0) as usize;
        for (k, pixel) in self.panel.pixels(picture, area).unwrap().enumerate() {
            let (x, y) = (area.x0 as usize + k % across, area.y0 as usize + k / across);
            self.px[y * self.width + x] = pixel;
        }
        assert_eq!((self.panel.registers(), self.panel.held()), ([0, 128, 0, 0, 0, 0, 0, 0], area));
        self.panel.acknowledge(picture).unwrap();
        assert_eq!(self.panel.registers(), [0; 8]);
    }

    fn shows<'a>(&self, rows: impl Iterator<Item = &'a [u32]>) -> bool {
        self.px.chunks(self.width).eq(rows)
    }
}

/// Of tickets that own their pixels and of tickets within a frame, each box is that of the rows; a screen that is sent the boxes alone shows
/// the ticket after every patch.
#[test]
fn the_boxes_of_patches() {
    let mut random = Random(13);
    let (mut sent, mut whole, mut empty) = (0, 0, 0);
    for round in 0..60 {
        let b = sheet(&mut random);
        let mut owned = Ticket::paint(&b).unwrap();
        let (w, h) = (owned.width(), owned.height());
        let pitch = [w, w + 1, w + 9, 4096][round % 4];
        let mut frame = vec![0xABCD_EF01; pitch * h];
        let mut framed = Ticket::paint_in(&mut frame, pitch, &b).unwrap();
        let mut screens = [Screen::of(&owned, w, h), Screen::of(&framed, w, h)];
        assert!(screens.iter().all(|screen| screen.shows(owned.rows())));
        for _ in 0..20 {
            let (index, shape) = (random.below(8) as usize, random.shape());
            let Ok(altered) = owned.replace(index, shape.clone()) else { continue };
            assert_eq!(framed.replace(index, shape), Ok(altered));
            let expected = box_of(owned.rows(), altered.area);
            let mut panel = Panel::fresh();
            assert_eq!(panel.pixels(&owned, altered.area).unwrap().collect::<Vec<_>>(), expected);
            assert_eq!(panel.pixels(&framed, altered.area).unwrap().collect::<Vec<_>>(), expected);
            screens[0].show(&owned, altered.area);
            screens[1].show(&framed, altered.area);
            assert!(screens.iter().all(|screen| screen.shows(owned.rows())));
            (sent, whole, empty) = (sent + expected.len(), whole + w * h, empty + altered.area.is_empty() as u32);
        }
    }
    // Many boxes, neither all of them the whole ticket nor none of them empty.
    assert!(sent > 50_000 && whole - sent > 50_000 && empty > 20, "{sent} {whole} {empty}");
}

/// Every box inside a small canvas, at several pitches: the pixels, the registers at each, and the end.
#[test]
fn every_box_of_a_canvas() {
    for pitch in [4, 5, 4096] {
        let mut canvas = numbered(4, 3, pitch);
        canvas.push_clip_i(IRect::new(1, 1, 2, 2)).unwrap();
        for (x0, x1) in (0..4).flat_map(|x0| (x0 + 1..=4).map(move |x1| (x0, x1))) {
            for (y0, y1) in (0..3).flat_map(|y0| (y0 + 1..=3).map(move |y1| (y0, y1))) {
                let (area, mut panel) = (IRect::new(x0, y0, x1, y1), Panel::fresh());
                panel.load(&canvas, area).unwrap();
                for (k, pixel) in box_of(canvas.rows(), area).into_iter().enumerate() {
                    assert_eq!((panel.registers(), panel.held()), (registers(1, area, k as i32), area));
                    assert_eq!(panel.take(&canvas), Ok(pixel));
                }
                assert_eq!((panel.registers(), panel.held()), ([0, 128, 0, 0, 0, 0, 0, 0], area));
                assert_eq!(panel.take(&canvas), Err(Refusal::NotReady));
            }
        }
    }
}

/// Columns and rows over 255, up to the corner of the largest canvas: each of the two bytes.
#[test]
fn two_bytes_of_column_row_and_left() {
    let canvas = Canvas::new(2048, 2048).unwrap();
    for area in [IRect::new(250, 250, 260, 260), IRect::new(0, 511, 2048, 513), IRect::new(2047, 2040, 2048, 2048)] {
        let mut panel = Panel::fresh();
        panel.load(&canvas, area).unwrap();
        for k in 0..(area.x1 - area.x0) * (area.y1 - area.y0) {
            let (w, bytes) = (area.x1 - area.x0, panel.registers());
            assert_eq!(bytes, registers(1, area, k));
            let read = [panel.column(), panel.row(), panel.left()].map(i32::from);
            assert_eq!(read, [area.x0 + k % w, area.y0 + k / w, w - k % w]);
            panel.take(&canvas).unwrap();
        }
        assert!(panel.is_finished());
    }
    let mut panel = Panel::fresh();
    panel.load(&canvas, IRect::new(513, 1026, 2048, 1027)).unwrap();
    // 513 is 0x0201, 1026 is 0x0402, and 2048 - 513 is 0x05FF.
    assert_eq!(panel.registers(), [0, 1, 0x01, 0x02, 0x02, 0x04, 0xFF, 0x05]);
}

/// Empty boxes, wherever they lie: held as given, finished at once, also while another box is being taken.
#[test]
fn empty_boxes() {
    let (canvas, far) = (numbered(4, 3, 4), i32::MAX);
    let boxes = [
        IRect::default(),
        IRect::new(2, 1, 2, 3),
        IRect::new(3, 1, 2, 3),
        IRect::new(1, 2, 3, 2),
        IRect::new(0, 3, 4, 0),
        IRect::new(far, far, far, far),
        IRect::new(far, i32::MIN, i32::MIN, far),
        IRect::new(-9, 900, -9, 990),
    ];
    for area in boxes {
        for mut panel in [Panel::fresh(), busy(&canvas)] {
            assert_eq!(panel.pixels(&canvas, area).unwrap().len(), 0);
            assert_eq!((panel.registers(), panel.held()), ([0, 128, 0, 0, 0, 0, 0, 0], area));
            assert_eq!((panel.is_ready(), panel.is_finished(), panel.take(&canvas)), (false, true, Err(Refusal::NotReady)));
            panel.acknowledge(&canvas).unwrap();
            assert_eq!((panel.registers(), panel.held()), ([0; 8], area));
        }
    }
}

const HELD: IRect = IRect::new(1, 0, 4, 2);

/// A panel that holds a box of 3 by 2, of which one pixel was taken.
fn busy(canvas: &Canvas) -> Panel {
    let mut panel = Panel::fresh();
    panel.load(canvas, HELD).unwrap();
    panel.take(canvas).unwrap();
    panel
}

/// A load starts anew, whatever was being taken or is not acknowledged, and clears every flag but the first.
#[test]
fn a_load_while_busy() {
    let canvas = numbered(4, 3, 6);
    let area = IRect::new(2, 1, 4, 3);
    let finished = Panel::from_registers([0, 128, 0, 0, 0, 0, 0, 0], HELD);
    for flags in [0x01, 0x81] {
        let mut both = busy(&canvas).registers();
        both[1] = flags;
        for mut panel in [Panel::from_registers(both, HELD), finished, Panel::fresh()] {
            panel.load(&canvas, area).unwrap();
            assert_eq!((panel.registers(), panel.held()), ([0, 1, 2, 0, 1, 0, 2, 0], area));
            assert_eq!(panel.rest(&canvas).unwrap().collect::<Vec<_>>(), [7, 8, 11, 12]);
        }
    }
}

/// Bit 7 is cleared by 128 alone and leaves bit 0; where it is clear nothing is altered.
#[test]
fn the_interrupt_is_acknowledged() {
    let canvas = numbered(4, 3, 4);
    let mut panel = busy(&canvas);
    let before = panel;
    panel.acknowledge(&canvas).unwrap();
    assert_eq!(panel, before);
    assert_eq!(panel.rest(&canvas).unwrap().count(), 5);
    assert!(panel.is_finished());
    for _ in 0..2 {
        panel.write_flags(&canvas, 128).unwrap();
        assert_eq!((panel.registers(), panel.held()), ([0; 8], HELD));
    }
    let mut fresh = Panel::default();
    fresh.acknowledge(&canvas).unwrap();
    assert_eq!(fresh, Panel::from_registers([0; 8], IRect::default()));
}

/// Flags 0x81 stay through every take but the last, which leaves 128; acknowledged, the ready flag alone is left.
#[test]
fn both_flags() {
    let canvas = numbered(4, 3, 5);
    let expected = box_of(canvas.rows(), HELD);
    let mut panel = Panel::from_registers(registers(0x81, HELD, 0), HELD);
    let mut acknowledged = panel;
    for k in 0..6 {
        assert_eq!(panel.registers(), registers(0x81, HELD, k));
        assert_eq!((panel.is_ready(), panel.is_finished()), (true, true));
        let mut other = panel;
        other.acknowledge(&canvas).unwrap();
        assert_eq!(other.registers(), registers(0x01, HELD, k));
        assert_eq!(panel.take(&canvas), Ok(expected[k as usize]));
    }
    assert_eq!((panel.registers(), panel.held()), ([0, 128, 0, 0, 0, 0, 0, 0], HELD));
    acknowledged.acknowledge(&canvas).unwrap();
    assert_eq!(acknowledged.rest(&canvas).unwrap().collect::<Vec<_>>(), expected);
}

/// Whether a step is refused so, and leaves the panel as it was.
fn refused<T>(panel: Panel, refusal: Refusal, step: impl FnOnce(&mut Panel) -> Result<T, Refusal>) -> bool {
    let mut after = panel;
    step(&mut after).err() == Some(refusal) && after == panel
}

/// 20 for a command other than 1, whatever the box, and for a box that leaves the canvas; 21 for a flag write other than 128; 22 while no pixel
/// is ready.
#[test]
fn what_a_step_is_refused_for() {
    let canvas = numbered(4, 3, 4);
    let outside = [
        IRect::new(-1, 0, 2, 2),
        IRect::new(0, -1, 2, 2),
        IRect::new(0, 0, 5, 2),
        IRect::new(0, 0, 2, 4),
        IRect::new(4, 0, 5, 1),
        IRect::new(i32::MIN, i32::MIN, i32::MAX, i32::MAX),
    ];
    let mut finished = busy(&canvas);
    assert_eq!(finished.rest(&canvas).unwrap().last(), Some(8));
    for panel in [Panel::fresh(), busy(&canvas), finished] {
        for value in (0..=255).filter(|v| *v != 1) {
            for area in [HELD, IRect::default(), outside[0]] {
                assert!(refused(panel, Refusal::Command, |p| p.write_command(&canvas, value, area)), "{value}");
            }
        }
        for area in outside {
            assert!(refused(panel, Refusal::Command, |p| p.load(&canvas, area)));
            assert!(refused(panel, Refusal::Command, |p| p.pixels(&canvas, area).map(|_| ())));
        }
        for value in (0..=255).filter(|v| *v != 128) {
            assert!(refused(panel, Refusal::FlagWrite, |p| p.write_flags(&canvas, value)), "{value}");
        }
        let mut other = panel;
        assert_eq!(other.write_command(&canvas, 1, IRect::new(0, 0, 4, 3)), Ok(()));
    }
    for panel in [Panel::fresh(), finished, Panel::from_registers([0; 8], HELD)] {
        assert!(refused(panel, Refusal::NotReady, |p| p.take(&canvas)));
        assert!(!panel.is_ready());
    }
}

/// Whether registers are refused by 12 at every step, also at one that is refused for itself, and by `rest`.
fn out_of_order(panel: Panel, canvas: &Canvas) -> bool {
    let state = Refusal::State;
    refused(panel, state, |p| p.load(canvas, HELD))
        && refused(panel, state, |p| p.load(canvas, IRect::default()))
        && refused(panel, state, |p| p.load(canvas, IRect::new(0, 0, 5, 1)))
        && refused(panel, state, |p| p.write_command(canvas, 0, HELD))
        && refused(panel, state, |p| p.acknowledge(canvas))
        && refused(panel, state, |p| p.write_flags(canvas, 7))
        && refused(panel, state, |p| p.take(canvas))
        && refused(panel, state, |p| p.pixels(canvas, HELD).map(|_| ()))
        && refused(panel, state, |p| p.rest(canvas).map(|_| ()))
}

/// Each byte of a sound panel, altered to every other value, at each place of its box: refused by 12, but for flags that are allowed.
#[test]
fn a_damaged_byte() {
    let (canvas, held) = (numbered(4, 3, 4), IRect::new(1, 1, 3, 3));
    let mut allowed = 0;
    for k in 0..4 {
        let sound = registers(1, held, k);
        for (at, value) in (0..8).flat_map(|at| (0..=255).map(move |value| (at, value))) {
            let mut damaged = sound;
            damaged[at] = value;
            let panel = Panel::from_registers(damaged, held);
            // With bit 0 clear, flags of 0 and 128 are in order whatever the other bytes are. The other row of the box is in order too.
            let in_order = match at {
                1 => matches!(value, 0 | 1 | 128 | 129),
                4 => matches!(value, 1 | 2),
                _ => value == sound[at],
            };
            assert_eq!(!out_of_order(panel, &canvas), in_order, "{at} {value}");
            allowed += in_order as u32;
        }
    }
    // Of each panel four flags, two rows, and the six other bytes as they are.
    assert_eq!(allowed, 4 * (4 + 2 + 6));
}

/// With bit 0 set, a held box that is empty or leaves the canvas, or that has not the place, is refused by 12; with it clear any box is held.
#[test]
fn a_damaged_box() {
    let (canvas, place) = (numbered(4, 3, 4), [0, 1, 1, 0, 1, 0, 2, 0]);
    assert!(!out_of_order(Panel::from_registers(place, IRect::new(1, 1, 3, 3)), &canvas));
    let bad = [
        IRect::default(),
        IRect::new(1, 1, 1, 3),
        IRect::new(1, 2, 3, 1),
        IRect::new(-1, 1, 3, 3),
        IRect::new(1, -1, 3, 3),
        IRect::new(1, 1, 3, 4),
        IRect::new(2, 1, 3, 3),
        IRect::new(1, 2, 3, 3),
        IRect::new(1, 0, 3, 1),
        IRect::new(0, 0, 1, 2),
        // The row's rest is one pixel more, or fewer.
        IRect::new(1, 1, 4, 3),
        IRect::new(1, 1, 2, 3),
    ];
    for held in bad {
        let mut idle = place;
        idle[1] = 0;
        assert!(out_of_order(Panel::from_registers(place, held), &canvas), "{held:?}");
        assert!(!out_of_order(Panel::from_registers(idle, held), &canvas), "{held:?}");
    }
    // It leaves the canvas on the right, with a place in it and the rest of its row.
    assert!(out_of_order(Panel::from_registers([0, 1, 1, 0, 1, 0, 4, 0], IRect::new(1, 1, 5, 3)), &canvas));
}

/// A panel with no pixel ready goes on from any bytes 2 to 7: an acknowledgement leaves them, a load sets them.
#[test]
fn bytes_that_do_not_matter() {
    let canvas = numbered(4, 3, 4);
    let mut panel = Panel::from_registers([0, 128, 1, 2, 3, 4, 5, 6], IRect::new(9, 9, 99, 99));
    assert_eq!(panel.rest(&canvas).unwrap().len(), 0);
    assert!(refused(panel, Refusal::NotReady, |p| p.take(&canvas)));
    panel.acknowledge(&canvas).unwrap();
    assert_eq!((panel.registers(), panel.held()), ([0, 0, 1, 2, 3, 4, 5, 6], IRect::new(9, 9, 99, 99)));
    assert_eq!(panel.pixels(&canvas, HELD).unwrap().collect::<Vec<_>>(), [2, 3, 4, 6, 7, 8]);
}

/// Stopped at each place, by hand or by an iterator, kept as bytes and restored: what is left follows on what was taken.
#[test]
fn stopping_and_going_on() {
    let canvas = numbered(4, 3, 7);
    let expected = box_of(canvas.rows(), HELD);
    for k in 0..=6 {
        let mut panel = Panel::fresh();
        let mut sent: Vec<u32> = panel.pixels(&canvas, HELD).unwrap().take(k).collect();
        assert_eq!(panel.registers(), registers(1, HELD, k as i32));
        let mut restored = Panel::from_registers(panel.registers(), panel.held());
        sent.extend(panel.take(&canvas).ok());
        sent.extend(panel.rest(&canvas).unwrap());
        assert_eq!(sent, expected);
        assert_eq!(restored.rest(&canvas).unwrap().collect::<Vec<_>>(), expected[k..]);
        assert_eq!(restored, panel);
        assert!(panel.is_finished() && panel.rest(&canvas).unwrap().next().is_none());
    }
}

/// The iterator tells how many are left, at every place, and stays at its end.
#[test]
fn the_iterator_knows_its_length() {
    let (canvas, mut panel) = (numbered(4, 3, 4), Panel::fresh());
    for (area, count) in [(IRect::new(0, 0, 4, 3), 12), (HELD, 6), (IRect::new(3, 2, 4, 3), 1), (IRect::default(), 0)] {
        let mut pixels = panel.pixels(&canvas, area).unwrap();
        for taken in 0..count {
            assert_eq!((pixels.len(), pixels.size_hint()), (count - taken, (count - taken, Some(count - taken))));
            assert!(pixels.next().is_some());
        }
        assert_eq!((pixels.len(), pixels.next(), pixels.next()), (0, None, None));
    }
    let mut pixels = panel.pixels(&canvas, HELD).unwrap();
    assert_eq!((pixels.nth(3), pixels.len()), (Some(6), 2));
    assert_eq!(format!("{pixels:?}"), format!("Pixels {{ panel: {:?}, .. }}", Panel::from_registers(registers(1, HELD, 4), HELD)));
}

/// Each picture may be given to each step: a smaller one, which the held box leaves, is refused; an altered one gives the pixel as it is.
#[test]
fn another_picture() {
    let mut canvas = numbered(4, 3, 4);
    let panel = busy(&canvas);
    assert!(refused(panel, Refusal::State, |p| p.take(&numbered(3, 3, 4))));
    assert!(refused(panel, Refusal::State, |p| p.take(&numbered(4, 1, 4))));
    let next = |picture: &dyn Picture| {
        let mut panel = panel;
        panel.take(picture)
    };
    let white = Ticket::paint(&SheetBuilder::new(9, 9, Color::WHITE).unwrap()).unwrap();
    assert_eq!((next(&white), next(&numbered(4, 3, 8)), next(&canvas)), (Ok(0xFF_FFFF), Ok(3), Ok(3)));
    canvas.clear(Color::rgb(1, 2, 3)).unwrap();
    assert_eq!(next(&canvas), Ok(0x01_0203));
}
