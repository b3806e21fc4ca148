//! Patches under clips: the box is around the reaches of the shapes that differ, each cut by the clip in force at it.
use maldjupp::{Altered, Canvas, Color, Error, IRect, Pt, Rect, Refusal, Refused, Shape, SheetBuilder, Ticket};
use random::Random;

mod random;

const W: i32 = 24;
const H: i32 = 20;
const CANVAS: IRect = IRect::new(0, 0, W, H);
const COPPER: Color = Color::rgb(184, 115, 51);
const BRASS: Color = Color::rgb(201, 174, 93);

fn blank() -> SheetBuilder {
    SheetBuilder::new(W as u32, H as u32, Color::WHITE).unwrap()
}

fn fill(x: f32, y: f32, w: f32, h: f32, color: Color) -> Shape {
    Shape::fill_rect(Rect::new(x, y, w, h), color)
}

/// A fill of some rows that reaches past both sides of the canvas.
fn band(y: f32, h: f32, color: Color) -> Shape {
    fill(-5.0, y, 99.0, h, color)
}

/// A clip of some columns, in every row.
fn column(x: f32, w: f32) -> Rect {
    Rect::new(x, -5.0, w, 99.0)
}

fn pixels(area: IRect) -> u64 {
    ((area.x1 - area.x0) * (area.y1 - area.y0)) as u64
}

/// What a patch alters where so many shapes cover its box, the old one covering it too.
fn covered(area: IRect, shapes: u64) -> Altered {
    Altered { area, steps: shapes * pixels(area), grounded: pixels(area) }
}

/// Whether a ticket shows what a fresh painting of its sheet does.
fn fresh(ticket: &Ticket) -> bool {
    ticket.px() == Ticket::paint(&ticket.builder()).unwrap().px()
}

/// Puts a shape in the place of another; the pixels are then those of a fresh painting.
fn replace(ticket: &mut Ticket, index: usize, shape: Shape) -> Altered {
    let altered = ticket.replace(index, shape).unwrap();
    assert!(fresh(ticket));
    altered
}

#[test]
fn a_band_under_a_column() {
    let mut b = blank();
    b.push_clip(column(10.0, 6.0)).unwrap();
    let index = b.add(&band(4.0, 3.0, COPPER)).unwrap();
    b.pop_clip().unwrap();
    let mut ticket = Ticket::paint(&b).unwrap();
    assert_eq!(replace(&mut ticket, index, band(4.0, 3.0, BRASS)), covered(IRect::new(10, 4, 16, 7), 1));
    // Old and new.
    let moved = Altered { area: IRect::new(10, 4, 16, 11), steps: 6 * 2, grounded: 6 * 3 };
    assert_eq!(replace(&mut ticket, index, band(9.0, 2.0, BRASS)), moved);
    // Where the column holds all of a shape, its whole reach.
    let inside = Altered { area: IRect::new(10, 5, 16, 11), steps: 2 * 4, grounded: 6 * 2 };
    assert_eq!(replace(&mut ticket, index, fill(12.0, 5.0, 2.0, 4.0, BRASS)), inside);
    assert_eq!(replace(&mut ticket, index, fill(12.0, 5.0, 2.0, 4.0, COPPER)), covered(IRect::new(12, 5, 14, 9), 1));
    // Without the push, all columns.
    let mut b = blank();
    let index = b.add(&band(4.0, 3.0, COPPER)).unwrap();
    assert_eq!(replace(&mut Ticket::paint(&b).unwrap(), index, band(4.0, 3.0, BRASS)), covered(IRect::new(0, 4, W, 7), 1));
}

/// Each band has the clip at its place: that of the pushes before it which are not popped.
#[test]
fn nested_pushes_and_pops() {
    let mut b = blank();
    let mut bands = vec![];
    let mut add = |b: &mut SheetBuilder, y: f32, area: IRect| bands.push((b.add(&band(y, 2.0, COPPER)).unwrap(), y, area));
    add(&mut b, 0.0, IRect::new(0, 0, W, 2));
    b.push_clip(Rect::new(4.0, 0.0, 12.0, 17.0)).unwrap();
    add(&mut b, 2.0, IRect::new(4, 2, 16, 4));
    b.push_clip(Rect::new(9.5, 3.0, 20.0, 10.0)).unwrap();
    add(&mut b, 12.0, IRect::new(9, 12, 16, 13));
    b.push_clip(column(0.0, 11.0)).unwrap();
    add(&mut b, 5.0, IRect::new(9, 5, 11, 7));
    b.pop_clip().unwrap();
    add(&mut b, 8.0, IRect::new(9, 8, 16, 10));
    b.pop_clip().unwrap();
    add(&mut b, 16.0, IRect::new(4, 16, 16, 17));
    b.pop_clip().unwrap();
    add(&mut b, 18.0, IRect::new(0, 18, W, 20));
    b.pop_clip().unwrap();
    add(&mut b, 14.0, IRect::new(0, 14, W, 16));
    b.push_clip(column(20.0, 2.0)).unwrap();
    add(&mut b, 10.0, IRect::new(20, 10, 22, 12));

    let mut ticket = Ticket::paint(&b).unwrap();
    for (index, y, area) in &bands {
        assert_eq!(replace(&mut ticket, *index, band(*y, 2.0, BRASS)), covered(*area, 1), "{y}");
    }
    // All at once.
    let all: u64 = bands.iter().map(|(_, _, area)| pixels(*area)).sum();
    let altered = ticket.edit(|b| bands.iter().try_for_each(|(index, y, _)| b.replace(*index, &band(*y, 2.0, COPPER))));
    assert_eq!((altered, fresh(&ticket)), (Ok(Altered { area: CANVAS, steps: all, grounded: all }), true));
    // Two of them: the box around what their clips leave.
    let altered = ticket.edit(|b| b.replace(bands[3].0, &band(5.0, 2.0, BRASS)).and(b.replace(bands[4].0, &band(8.0, 2.0, BRASS))));
    assert_eq!(altered, Ok(Altered { area: IRect::new(9, 5, 16, 10), steps: 4 + 14, grounded: 4 + 14 }));
    assert!(fresh(&ticket));
}

/// Paper; a square beside the column that it is clipped to; a band and a polygon under columns that share no pixel.
struct Hidden {
    ticket: Ticket,
    paper: usize,
    square: usize,
    band: usize,
    corner: usize,
}

fn paper(color: Color) -> Shape {
    fill(1.0, 1.0, 22.0, 18.0, color)
}

fn square(x: f32, color: Color) -> Shape {
    fill(x, 4.0, 6.0, 6.0, color)
}

fn corner(side: f32) -> Shape {
    Shape::fill_poly(&[Pt::default(), Pt::new(side, 0.0), Pt::new(0.0, side)], COPPER)
}

fn hidden() -> Hidden {
    let mut b = blank();
    let paper = b.add(&paper(Color::hex(0xFDFCF8))).unwrap();
    b.push_clip(column(0.0, 6.0)).unwrap();
    let square = b.add(&square(10.0, COPPER)).unwrap();
    b.push_clip(column(12.0, 6.0)).unwrap();
    let (band, corner) = (b.add(&band(4.0, 3.0, COPPER)).unwrap(), b.add(&corner(9.0)).unwrap());
    Hidden { ticket: Ticket::paint(&b).unwrap(), paper, square, band, corner }
}

impl Hidden {
    /// Patches every hidden shape, which alters no pixel but takes the new sheet; the pixels are still those of a fresh painting.
    fn patch(&mut self, square: Shape, band: Shape, corner: Shape) {
        let before = self.ticket.clone();
        let altered = self.ticket.edit(|b| {
            b.replace(self.square, &square)?;
            b.replace(self.band, &band)?;
            b.replace(self.corner, &corner)
        });
        assert_eq!((altered, self.ticket.altered()), (Ok(Altered::default()), Altered::default()));
        assert_eq!(self.ticket.px(), before.px());
        assert!(self.ticket.sheet() != before.sheet() && fresh(&self.ticket));
    }
}

#[test]
fn hidden_shapes_have_an_empty_box() {
    let mut hidden = hidden();
    hidden.patch(square(10.0, BRASS), band(4.0, 3.0, BRASS), corner(10.0));
    hidden.patch(square(6.0, COPPER), band(0.0, 99.0, COPPER), corner(40.0));
    hidden.patch(square(10.0, COPPER), corner(3.0), band(4.0, 3.0, COPPER));
    assert_eq!(replace(&mut hidden.ticket, hidden.paper, paper(BRASS)), covered(IRect::new(1, 1, 23, 19), 1));
}

/// A shape that comes into view, alters there and leaves it has the box of what is seen; one hidden beside it adds nothing.
#[test]
fn in_and_out_of_view() {
    let Hidden { mut ticket, paper: sheet, square: index, band: other, .. } = hidden();
    let seen = IRect::new(4, 4, 6, 10);
    assert_eq!(replace(&mut ticket, index, square(4.0, COPPER)), covered(seen, 2));
    assert_eq!(replace(&mut ticket, index, square(4.0, BRASS)), covered(seen, 2));
    let altered = ticket.edit(|b| b.replace(index, &square(4.0, COPPER)).and(b.replace(other, &band(11.0, 7.0, BRASS))));
    assert_eq!((altered, fresh(&ticket)), (Ok(covered(seen, 2)), true));
    assert_eq!(replace(&mut ticket, index, square(10.0, COPPER)), covered(seen, 1));
    assert_eq!(replace(&mut ticket, index, square(11.0, COPPER)), Altered::default());
    let altered = ticket.edit(|b| b.replace(index, &square(10.0, BRASS)).and(b.replace(sheet, &paper(COPPER))));
    assert_eq!((altered, fresh(&ticket)), (Ok(covered(IRect::new(1, 1, 23, 19), 1)), true));
}

/// A hidden shape counts among those that differ, and its push must be the same.
#[test]
fn refused_although_hidden() {
    let sheet = |clip: Rect, color: Color| {
        let mut b = blank();
        b.push_clip(clip).unwrap();
        for _ in 0..33 {
            b.add(&square(10.0, color)).unwrap();
        }
        b
    };
    let (old, refused) = (sheet(column(0.0, 6.0), COPPER), |refusal| Err(Refused { refusal, item: 0 }));
    let mut ticket = Ticket::paint(&old).unwrap();
    assert_eq!(ticket.patch(sheet(column(0.0, 6.0), BRASS).bytes()), refused(Refusal::Many));
    assert_eq!(ticket.patch(sheet(column(0.0, 5.0), COPPER).bytes()), refused(Refusal::Difference));
    assert_eq!((ticket.sheet(), fresh(&ticket)), (&old.bytes()[..], true));
    assert_eq!(ticket.edit(|b| (1..33).try_for_each(|i| b.replace(i, &square(10.0, BRASS)))), Ok(Altered::default()));
    assert!(matches!(ticket.edit(|b| b.pop_clip()), Err(Error::Refused(Refused { refusal: Refusal::Difference, item: 0 }))));
}

/// The lines reach down the left side and along the foot, the clip shows neither: the box around both is cut, and nothing is drawn in it.
#[test]
fn a_polyline_is_cut_as_one_box() {
    let way = [Pt::new(2.0, 2.0), Pt::new(2.0, 17.0), Pt::new(20.0, 17.0)];
    let (clip, area) = (Rect::new(8.0, 4.0, 6.0, 6.0), IRect::new(8, 4, 14, 10));
    let mut b = blank();
    b.add(&paper(BRASS)).unwrap();
    b.push_clip(clip).unwrap();
    let index = b.polyline(&way, 2.0, COPPER).unwrap();
    let mut ticket = Ticket::paint(&b).unwrap();
    assert_eq!(replace(&mut ticket, index, Shape::polyline(&way, 2.0, Color::BLACK)), covered(area, 1));
    assert_eq!(replace(&mut ticket, index, Shape::polyline(&way[..2], 2.0, Color::BLACK)), covered(area, 1));
    assert_eq!(replace(&mut ticket, index, Shape::polyline(&way[1..], 2.0, Color::BLACK)), Altered::default());

    // As lines, each is hidden.
    let mut b = blank();
    b.add(&paper(BRASS)).unwrap();
    b.push_clip(clip).unwrap();
    let lines = [0, 1].map(|i| b.line(way[i], way[i + 1], 2.0, COPPER).unwrap());
    let mut ticket = Ticket::paint(&b).unwrap();
    let altered = ticket.edit(|b| lines.iter().enumerate().try_for_each(|(i, at)| b.replace(*at, &Shape::line(way[i], way[i + 1], 2.0, BRASS))));
    assert_eq!((altered, fresh(&ticket)), (Ok(Altered::default()), true));
}

/// The shapes and lines of the first column reach into the second one's box but are clipped away from it: they are not in its ceiling, which
/// the others take up whole.
#[test]
fn a_ceiling_without_what_the_clips_hide() {
    let trace = Shape::polyline(&[6.0, 10.0, 14.0, 18.0].map(|x| Pt::new(x, 10.0)), 64.0, Color::rgba(0, 0, 0, 128));
    let mut b = blank();
    b.add(&band(0.0, 20.0, BRASS)).unwrap();
    let mut bands = vec![];
    for x in [2.0, 15.0] {
        b.push_clip(column(x, 4.0)).unwrap();
        b.add(&trace).unwrap();
        bands.push(b.add(&band(3.0, 12.0, COPPER)).unwrap());
        b.pop_clip().unwrap();
    }
    let (mut ticket, (shapes, lines)) = (Ticket::paint(&b).unwrap(), (2, 3));
    assert_eq!(replace(&mut ticket, bands[1], band(3.0, 12.0, BRASS)), covered(IRect::new(15, 3, 19, 15), shapes + lines));
    assert_eq!(replace(&mut ticket, bands[0], band(3.0, 12.0, BRASS)), covered(IRect::new(2, 3, 6, 15), shapes + lines));
}

/// Words of a frame before anything is painted there, each another.
fn laid(words: usize) -> Vec<u32> {
    (0..words as u32).map(|i| i.wrapping_mul(0x9E37_79B1) ^ 0xA500_0000).collect()
}

#[test]
fn a_column_within_a_wider_frame() {
    let mut b = blank();
    b.push_clip(column(10.0, 6.0)).unwrap();
    let index = b.add(&band(4.0, 3.0, COPPER)).unwrap();
    b.push_clip(column(16.0, 6.0)).unwrap();
    let hidden = b.add(&band(4.0, 3.0, COPPER)).unwrap();
    for pitch in [W as usize, 25, 31, 4096] {
        let mut frame = laid(pitch * H as usize);
        let mut ticket = Ticket::paint_in(&mut frame, pitch, &b).unwrap();
        let before = ticket.px().to_vec();
        assert_eq!(ticket.replace(hidden, band(4.0, 3.0, BRASS)), Ok(Altered::default()));
        assert_eq!(ticket.px(), before);
        assert_eq!(ticket.replace(index, band(4.0, 3.0, BRASS)), Ok(covered(IRect::new(10, 4, 16, 7), 1)));
        let expected = |i: usize| match (i % pitch, i / pitch) {
            (10..=15, 4..=6) => 0xC9_AE5D,
            _ => before[i],
        };
        assert!((0..before.len()).all(|i| ticket.px()[i] == expected(i)));
        assert!(ticket.rows().eq(Ticket::paint(&ticket.builder()).unwrap().rows()));
    }
}

fn meet(a: IRect, b: IRect) -> IRect {
    IRect::new(a.x0.max(b.x0), a.y0.max(b.y0), a.x1.min(b.x1), a.y1.min(b.y1))
}

/// The smallest box around two, an empty one counting for nothing.
fn join(a: IRect, b: IRect) -> IRect {
    match (a.is_empty(), b.is_empty()) {
        (_, true) => a,
        (true, false) => b,
        _ => IRect::new(a.x0.min(b.x0), a.y0.min(b.y0), a.x1.max(b.x1), a.y1.max(b.y1)),
    }
}

/// What a shape reaches of the canvas: the box of the patch that brings it where there is no clip.
fn reach(shape: &Shape) -> IRect {
    let mut b = blank();
    b.polyline(&[], 1.0, COPPER).unwrap();
    Ticket::paint(&b).unwrap().replace(0, shape.clone()).unwrap().area
}

/// A shape with its reach, and the reaches of what takes one step at each pixel: itself, or each line of a polyline.
#[derive(Clone)]
struct Drawn {
    shape: Shape,
    reach: IRect,
    parts: Vec<IRect>,
}

impl Drawn {
    /// Of a shape that the library takes.
    fn of(shape: &Shape) -> Drawn {
        let whole = reach(shape);
        let parts = match shape {
            Shape::Polyline { points, width, color } => {
                points.windows(2).map(|ends| reach(&Shape::line(ends[0], ends[1], *width, *color))).collect()
            }
            _ => vec![whole],
        };
        Drawn { shape: shape.clone(), reach: whole, parts }
    }
}

#[derive(Clone)]
enum Item {
    Push(Rect),
    Pop,
    Draw(Drawn),
}

/// A clip of few columns, now and then of none, or beside the canvas.
fn narrow(random: &mut Random) -> Rect {
    let [x, y, w, h] = [28, 8, 14, 24].map(|most| random.below(most) as f32);
    Rect::new(x - 4.0, y - 4.0, w, h)
}

/// Random items, as far as a builder takes them; shapes under none to three pushes and more.
fn sheet(random: &mut Random) -> (SheetBuilder, Vec<Item>) {
    let (mut b, mut items) = (blank(), vec![]);
    for _ in 0..4 + random.below(16) {
        match random.below(6) {
            0 => {
                let clip = narrow(random);
                items.extend(b.push_clip(clip).is_ok().then_some(Item::Push(clip)));
            }
            1 => items.extend(b.pop_clip().is_ok().then_some(Item::Pop)),
            _ => {
                let shape = random.shape();
                items.extend(b.add(&shape).is_ok().then(|| Item::Draw(Drawn::of(&shape))));
            }
        }
    }
    (b, items)
}

/// Mostly the place of a shape; now and then any, or past the last.
fn place(random: &mut Random, items: &[Item]) -> usize {
    let shapes: Vec<_> = (0..items.len()).filter(|i| matches!(items[*i], Item::Draw(_))).collect();
    if shapes.is_empty() || random.below(12) == 0 {
        return random.below(items.len() as u64 + 1) as usize;
    }
    shapes[random.below(shapes.len() as u64) as usize]
}

/// The clip in force at each item, as a canvas tells it on which the pushes and pops before it are done.
fn clips(items: &[Item]) -> Vec<IRect> {
    let mut canvas = Canvas::new(W, H).unwrap();
    let step = |item: &Item| {
        let clip = canvas.clip();
        match item {
            Item::Push(rect) => canvas.push_clip(*rect).unwrap(),
            Item::Pop => canvas.pop_clip().unwrap(),
            Item::Draw(_) => {}
        }
        clip
    };
    items.iter().map(step).collect()
}

/// The smallest box around the shapes that differ, each cut by the clip at its place.
fn around(old: &[Item], new: &[Item], clips: &[IRect]) -> IRect {
    let differing = |((old, new), clip): ((&Item, &Item), &IRect)| match (old, new) {
        (Item::Draw(a), Item::Draw(b)) if a.shape != b.shape => join(meet(*clip, a.reach), meet(*clip, b.reach)),
        _ => IRect::default(),
    };
    old.iter().zip(new).zip(clips).map(differing).fold(IRect::default(), join)
}

/// How many shapes and lines have a pixel in a box, each cut by the clip at its place.
fn meeting(items: &[Item], clips: &[IRect], area: IRect) -> u64 {
    let shown = |(item, clip): (&Item, &IRect)| match item {
        Item::Draw(drawn) => drawn.parts.iter().filter(|part| !meet(area, meet(*clip, **part)).is_empty()).count() as u64,
        _ => 0,
    };
    items.iter().zip(clips).map(shown).sum()
}

/// Random sheets, patched in lists, on pixels of their own and within a wider frame: the box, the ceiling, the pixels after every patch, and
/// none altered outside the box.
#[test]
fn boxes_and_ceilings_by_the_clips_of_a_canvas() {
    let mut random = Random(14);
    let (mut whole, mut cut, mut hidden, mut not) = (0, 0, 0, 0);
    for round in 0..250 {
        let (b, mut items) = sheet(&mut random);
        let (clips, pitch) = (clips(&items), W as usize + round % 9);
        let mut frame = laid(pitch * H as usize);
        let margin = frame.clone();
        let (mut ticket, mut framed) = (Ticket::paint(&b).unwrap(), Ticket::paint_in(&mut frame, pitch, &b).unwrap());
        for _ in 0..15 {
            let places: Vec<_> = (0..1 + random.below(3)).map(|_| (place(&mut random, &items), random.shape())).collect();
            let edit = |b: &mut SheetBuilder| places.iter().try_for_each(|(index, shape)| b.replace(*index, shape));
            let (before, answer) = (ticket.px().to_vec(), ticket.edit(edit));
            assert_eq!(format!("{answer:?}"), format!("{:?}", framed.edit(edit)));
            assert!(fresh(&ticket) && framed.rows().eq(ticket.rows()));
            let Ok(Altered { area, steps, grounded }) = answer else {
                not += 1;
                continue;
            };
            let old = items.clone();
            for (index, shape) in &places {
                items[*index] = Item::Draw(Drawn::of(shape));
            }
            assert_eq!(area, around(&old, &items, &clips));
            assert!(steps <= meeting(&items, &clips, area) * pixels(area) && grounded <= pixels(area));
            let outside = |i: &usize| !area.contains(*i as i32 % W, *i as i32 / W);
            assert!((0..before.len()).filter(outside).all(|i| before[i] == ticket.px()[i]));
            let uncut = around(&old, &items, &vec![CANVAS; clips.len()]);
            match (area == uncut, area.is_empty()) {
                (true, _) => whole += 1,
                (false, false) => cut += 1,
                (false, true) => hidden += 1,
            }
        }
        assert!(framed.px().chunks(pitch).zip(margin.chunks(pitch)).all(|(row, was)| row[W as usize..] == was[W as usize..]));
    }
    assert!(whole > 500 && cut > 500 && hidden > 300 && not > 100, "{whole} {cut} {hidden} {not}");
}
