//! The sheet: a header, pairs of offset and length, and the items in the order in which they are drawn.
use crate::{room, Color, Paint, Pt, Rect, Refused, Room, SheetError};

const LIMIT: f32 = 8192.0;
const SIDES: std::ops::RangeInclusive<u32> = 1..=2048;
const HEADER: usize = 12;
const PAIR: usize = 4;
const MOST_BYTES: usize = 60_000;
const MOST_ITEMS: usize = 1_024;
const MOST_CLIPS: usize = 16;
const MOST_POINTS: usize = 64;

const PUSH: u8 = 1;
const POP: u8 = 2;
const FILL: u8 = 3;
const STROKE: u8 = 4;
const LINE: u8 = 5;
const POLYGON: u8 = 6;
const SHADOW: u8 = 7;
const POLYLINE: u8 = 8;

/// A shape as a value, for [`SheetBuilder::add`] and [`SheetBuilder::replace`].
///
/// Its reach is its box before any clip. That of a fill or a stroke is its rectangle, of a shadow the rectangle with the blur added on every
/// side, of a line the box around its ends with half the width and 1 added on every side, each rounded outward to whole pixels; of a polygon
/// the box around its points, rounded outward, with a pixel more on every side; of a polyline the smallest box around those of its lines. It is
/// empty where such a box has no pixel, as that of a line may by a negative width; and for a fill or stroke whose rectangle has a width or
/// height of 0 or less, a stroke or shadow of alpha 0, a shadow whose blur is 0 or less, and a polygon of under three points or with over
/// 4,000,000 pixels in its box.
///
/// The box and the ceiling of a patch take it as cut by the clip in force at the shape ([`Ticket::patch`](crate::Ticket::patch)).
#[derive(Clone, Debug, PartialEq)]
pub enum Shape {
    /// A filled rectangle with rounded corners.
    Fill {
        /// The rectangle.
        rect: Rect,
        /// The corners' radius.
        r: f32,
        /// What it is painted with.
        paint: Paint,
    },
    /// The rim of a rectangle with rounded corners, inside its edge.
    Stroke {
        /// The rectangle.
        rect: Rect,
        /// The corners' radius.
        r: f32,
        /// The rim's width.
        width: f32,
        /// The colour.
        color: Color,
    },
    /// A line with round ends.
    Line {
        /// One end.
        a: Pt,
        /// The other end.
        b: Pt,
        /// The line's width.
        width: f32,
        /// The colour.
        color: Color,
    },
    /// A filled polygon.
    Poly {
        /// Its corners, at most 64.
        points: Vec<Pt>,
        /// What it is painted with.
        paint: Paint,
    },
    /// The soft shadow of a rectangle with rounded corners.
    Shadow {
        /// The rectangle.
        rect: Rect,
        /// The corners' radius.
        r: f32,
        /// Half the width of the falloff.
        blur: f32,
        /// The colour.
        color: Color,
        /// Whether the middle, where the shadow is darkest, is left out.
        skip_inside: bool,
    },
    /// Lines with round ends from point to point, one after the other; none under two points.
    ///
    /// A joint is blended by both of its lines, so that with an alpha under 255 it shows; it takes a step for each. The box of a patch is
    /// around the whole polyline, old and new, however little of it differs; a clip cuts it as one box. A [`Shape::Line`] for each line gives
    /// the same pixels, in a painting as many steps, and in a patch smaller boxes.
    ///
    /// ```
    /// use maldjupp::{Color, IRect, Pt, Shape, SheetBuilder, Ticket};
    /// let weights = [Pt::new(4.0, 30.0), Pt::new(12.0, 9.0), Pt::new(20.0, 15.0)];
    /// let trace = |readings: usize| Shape::polyline(&weights[..readings], 2.0, Color::rgb(36, 66, 104));
    /// let mut b = SheetBuilder::new(40, 40, Color::WHITE)?;
    /// let index = b.add(&trace(1))?;
    /// let mut ticket = Ticket::paint(&b)?;
    /// assert_eq!(ticket.replace(index, trace(2))?.area, IRect::new(2, 7, 14, 32));
    /// assert_eq!(ticket.replace(index, trace(3))?.area, IRect::new(2, 7, 22, 32));
    /// # Ok::<(), Box<dyn std::error::Error>>(())
    /// ```
    Polyline {
        /// Its points, at most 64.
        points: Vec<Pt>,
        /// The lines' width.
        width: f32,
        /// The colour.
        color: Color,
    },
}

impl Shape {
    /// A filled rectangle.
    pub fn fill_rect(rect: Rect, paint: impl Into<Paint>) -> Shape {
        Shape::fill_rrect(rect, 0.0, paint)
    }

    /// A filled rectangle with rounded corners.
    pub fn fill_rrect(rect: Rect, r: f32, paint: impl Into<Paint>) -> Shape {
        Shape::Fill { rect, r, paint: paint.into() }
    }

    /// A filled circle, as the square around it.
    pub fn fill_circle(cx: f32, cy: f32, r: f32, paint: impl Into<Paint>) -> Shape {
        Shape::fill_rrect(Rect::around(cx, cy, r), r, paint)
    }

    /// The rim of a rectangle with rounded corners.
    pub fn stroke_rrect(rect: Rect, r: f32, width: f32, color: Color) -> Shape {
        Shape::Stroke { rect, r, width, color }
    }

    /// A ring, as the square around it.
    pub fn ring(cx: f32, cy: f32, r: f32, width: f32, color: Color) -> Shape {
        Shape::stroke_rrect(Rect::around(cx, cy, r), r, width, color)
    }

    /// A line with round ends.
    pub fn line(a: Pt, b: Pt, width: f32, color: Color) -> Shape {
        Shape::Line { a, b, width, color }
    }

    /// A filled polygon.
    pub fn fill_poly(points: &[Pt], paint: impl Into<Paint>) -> Shape {
        Shape::Poly { points: points.to_vec(), paint: paint.into() }
    }

    /// A soft shadow.
    pub fn shadow_rrect(rect: Rect, r: f32, blur: f32, color: Color, skip_inside: bool) -> Shape {
        Shape::Shadow { rect, r, blur, color, skip_inside }
    }

    /// Lines from point to point, as one shape.
    pub fn polyline(points: &[Pt], width: f32, color: Color) -> Shape {
        Shape::Polyline { points: points.to_vec(), width, color }
    }

    fn item(&self) -> Item {
        match self {
            Shape::Fill { rect, r, paint } => Item::new(FILL).rect(rect).float("r", *r).paint(paint),
            Shape::Stroke { rect, r, width, color } => {
                Item::new(STROKE).rect(rect).float("r", *r).float("width", *width).color(color)
            }
            Shape::Line { a, b, width, color } => Item::new(LINE)
                .float("a.x", a.x)
                .float("a.y", a.y)
                .float("b.x", b.x)
                .float("b.y", b.y)
                .float("width", *width)
                .color(color),
            Shape::Poly { points, paint } => Item::new(POLYGON).paint(paint).points(points),
            Shape::Shadow { rect, r, blur, color, skip_inside } => {
                Item::new(SHADOW).second(*skip_inside as u8).rect(rect).float("r", *r).float("blur", *blur).color(color)
            }
            Shape::Polyline { points, width, color } => Item::new(POLYLINE).float("width", *width).color(color).points(points),
        }
    }
}

/// An item's bytes, and the first thing that is wrong with each of its two kinds of limit.
struct Item {
    bytes: Vec<u8>,
    float: Option<SheetError>,
    points: usize,
}

impl Item {
    fn new(kind: u8) -> Item {
        Item { bytes: vec![kind, 0, 0, 0], float: None, points: 0 }
    }

    fn second(mut self, byte: u8) -> Item {
        self.bytes[1] = byte;
        self
    }

    /// The points at the item's end, and their count in bytes 2 and 3. A count past two bytes makes the item too long for any sheet.
    fn points(mut self, points: &[Pt]) -> Item {
        self.points = points.len();
        self.bytes[2..4].copy_from_slice(&(points.len() as u16).to_le_bytes());
        points.iter().fold(self, |item, p| item.float("a point's x", p.x).float("a point's y", p.y))
    }

    fn float(mut self, field: &'static str, value: f32) -> Item {
        if !(-LIMIT..=LIMIT).contains(&value) {
            self.float = self.float.or(Some(SheetError::Float { field, value }));
        }
        self.bytes.extend(value.to_le_bytes());
        self
    }

    fn rect(self, rect: &Rect) -> Item {
        self.float("x", rect.x).float("y", rect.y).float("w", rect.w).float("h", rect.h)
    }

    fn color(mut self, c: &Color) -> Item {
        self.bytes.extend([c.r, c.g, c.b, c.a]);
        self
    }

    fn paint(mut self, paint: &Paint) -> Item {
        let end = self.bytes.len() + 28;
        let kind = |mut item: Item, kind: u8, c0: &Color, c1: &Color| {
            item.bytes.extend([kind, 0, 0, 0]);
            item.color(c0).color(c1)
        };
        self = match paint {
            Paint::Solid(c) => kind(self, 0, c, &Color::rgba(0, 0, 0, 0)),
            Paint::VGrad { y0, y1, c0, c1 } => kind(self, 1, c0, c1).float("the paint's y0", *y0).float("the paint's y1", *y1),
            Paint::Linear { p0, p1, c0, c1 } => kind(self, 2, c0, c1)
                .float("the paint's p0.x", p0.x)
                .float("the paint's p0.y", p0.y)
                .float("the paint's p1.x", p1.x)
                .float("the paint's p1.y", p1.y),
            Paint::Radial { c, r, c0, c1 } => kind(self, 3, c0, c1)
                .float("the paint's c.x", c.x)
                .float("the paint's c.y", c.y)
                .float("the paint's r", *r),
        };
        self.bytes.resize(end, 0);
        self
    }

    fn within_limits(&self) -> Result<(), SheetError> {
        if self.points > MOST_POINTS {
            return Err(SheetError::Points { count: self.points });
        }
        self.float.map_or(Ok(()), Err)
    }
}

/// Builds a sheet with kash-ui's calls.
///
/// A call that would make the sheet one that the library refuses returns an error, and the builder stays as it was. So painting what a
/// builder holds is never refused. Each call that adds an item returns its index, counted from 0, by which it can be replaced.
///
/// ```
/// use maldjupp::{Color, Rect, SheetBuilder};
/// let mut b = SheetBuilder::new(120, 80, Color::hex(0xDEDBD2))?;
/// b.push_clip(Rect::new(8.0, 8.0, 104.0, 64.0))?;
/// let patch = b.fill_circle(30.0, 40.0, 16.0, Color::rgb(184, 115, 51))?;
/// b.ring(30.0, 40.0, 16.0, 2.0, Color::BLACK)?;
/// b.pop_clip()?;
/// assert_eq!(patch, 1);
/// // The rectangle that is written counts: this circle's left edge is at -8,193.
/// let error = b.fill_circle(-8190.0, 40.0, 3.0, Color::WHITE).unwrap_err();
/// assert_eq!(error.to_string(), "x is -8193; it must be -8,192 to 8,192");
/// # Ok::<(), maldjupp::SheetError>(())
/// ```
#[derive(Clone, Debug, PartialEq, Eq)]
pub struct SheetBuilder {
    w: u16,
    h: u16,
    ground: [u8; 3],
    lengths: Vec<u16>,
    body: Vec<u8>,
    saved: usize,
}

impl SheetBuilder {
    /// A sheet without items. The ground's alpha is not used.
    pub fn new(w: u32, h: u32, ground: Color) -> Result<SheetBuilder, SheetError> {
        if !SIDES.contains(&w) || !SIDES.contains(&h) {
            return Err(SheetError::Sides { w, h });
        }
        let ground = [ground.r, ground.g, ground.b];
        Ok(SheetBuilder { w: w as u16, h: h as u16, ground, lengths: vec![], body: vec![], saved: 0 })
    }

    /// The builder of a sheet that the library accepted.
    pub(crate) fn of_accepted(sheet: &[u8]) -> SheetBuilder {
        let word = |at: usize| u16::from_le_bytes([sheet[at], sheet[at + 1]]);
        let items = word(8) as usize;
        let lengths = (0..items).map(|i| word(HEADER + PAIR * i + 2)).collect();
        let body = sheet[HEADER + PAIR * items..].to_vec();
        let saved = (0..items).fold(0, |saved: usize, i| match sheet[word(HEADER + PAIR * i) as usize] {
            PUSH => saved + 1,
            POP => saved.saturating_sub(1),
            _ => saved,
        });
        SheetBuilder { w: word(0), h: word(2), ground: [sheet[4], sheet[5], sheet[6]], lengths, body, saved }
    }

    /// The canvas's width.
    pub fn width(&self) -> u32 {
        self.w.into()
    }

    /// The canvas's height.
    pub fn height(&self) -> u32 {
        self.h.into()
    }

    /// How many items there are.
    pub fn items(&self) -> usize {
        self.lengths.len()
    }

    /// Drops every item, so that a ticket can be drawn from the start; sides and ground stay.
    pub fn clear(&mut self) {
        self.lengths.clear();
        self.body.clear();
        self.saved = 0;
    }

    /// Saves the clip and cuts it to a rectangle. At most 16 clips are saved at once.
    pub fn push_clip(&mut self, rect: Rect) -> Result<usize, SheetError> {
        let item = Item::new(PUSH).rect(&rect);
        self.fits(self.items() + 1, self.body.len() + item.bytes.len())?;
        item.within_limits()?;
        if self.saved == MOST_CLIPS {
            return Err(SheetError::Clips);
        }
        self.saved += 1;
        Ok(self.append(item))
    }

    /// Takes back the clip saved last; does nothing where none is saved.
    pub fn pop_clip(&mut self) -> Result<usize, SheetError> {
        let item = Item::new(POP);
        self.fits(self.items() + 1, self.body.len() + item.bytes.len())?;
        self.saved = self.saved.saturating_sub(1);
        Ok(self.append(item))
    }

    /// Fills a rectangle.
    pub fn fill_rect(&mut self, rect: Rect, paint: impl Into<Paint>) -> Result<usize, SheetError> {
        self.add(&Shape::fill_rect(rect, paint))
    }

    /// Fills a rectangle with rounded corners.
    pub fn fill_rrect(&mut self, rect: Rect, r: f32, paint: impl Into<Paint>) -> Result<usize, SheetError> {
        self.add(&Shape::fill_rrect(rect, r, paint))
    }

    /// Fills a circle.
    pub fn fill_circle(&mut self, cx: f32, cy: f32, r: f32, paint: impl Into<Paint>) -> Result<usize, SheetError> {
        self.add(&Shape::fill_circle(cx, cy, r, paint))
    }

    /// Draws the rim of a rectangle with rounded corners.
    pub fn stroke_rrect(&mut self, rect: Rect, r: f32, width: f32, color: Color) -> Result<usize, SheetError> {
        self.add(&Shape::stroke_rrect(rect, r, width, color))
    }

    /// Draws a ring.
    pub fn ring(&mut self, cx: f32, cy: f32, r: f32, width: f32, color: Color) -> Result<usize, SheetError> {
        self.add(&Shape::ring(cx, cy, r, width, color))
    }

    /// Draws a line with round ends.
    pub fn line(&mut self, a: Pt, b: Pt, width: f32, color: Color) -> Result<usize, SheetError> {
        self.add(&Shape::line(a, b, width, color))
    }

    /// Draws lines from point to point, of at most 64 points, as one item.
    pub fn polyline(&mut self, points: &[Pt], width: f32, color: Color) -> Result<usize, SheetError> {
        self.add(&Shape::polyline(points, width, color))
    }

    /// Fills a polygon of at most 64 points.
    pub fn fill_poly(&mut self, points: &[Pt], paint: impl Into<Paint>) -> Result<usize, SheetError> {
        self.add(&Shape::fill_poly(points, paint))
    }

    /// Draws a soft shadow.
    pub fn shadow_rrect(&mut self, rect: Rect, r: f32, blur: f32, color: Color, skip_inside: bool) -> Result<usize, SheetError> {
        self.add(&Shape::shadow_rrect(rect, r, blur, color, skip_inside))
    }

    /// Adds a shape at the end.
    pub fn add(&mut self, shape: &Shape) -> Result<usize, SheetError> {
        let item = shape.item();
        self.fits(self.items() + 1, self.body.len() + item.bytes.len())?;
        item.within_limits()?;
        Ok(self.append(item))
    }

    /// Puts a shape in the place of the shape of an index.
    pub fn replace(&mut self, index: usize, shape: &Shape) -> Result<(), SheetError> {
        if index >= self.items() {
            return Err(SheetError::NoItem { index, count: self.items() });
        }
        let (at, length) = self.place(index);
        if matches!(self.body[at], PUSH | POP) {
            return Err(SheetError::NotAShape { index });
        }
        let item = shape.item();
        self.fits(self.items(), self.body.len() - length + item.bytes.len())?;
        item.within_limits()?;
        self.lengths[index] = item.bytes.len() as u16;
        self.body.splice(at..at + length, item.bytes);
        Ok(())
    }

    /// What painting this sheet takes, without pixels or scratch; [`room`] tells it of bytes.
    ///
    /// ```
    /// use maldjupp::{Color, Pt, Rect, SheetBuilder};
    /// let mut b = SheetBuilder::new(24, 16, Color::WHITE)?;
    /// b.fill_rect(Rect::new(3.0, 11.0, 9.0, 2.0), Color::BLACK)?;
    /// assert_eq!(b.room()?.words, 0);
    /// // Polygons alone need scratch.
    /// b.fill_poly(&[Pt::new(17.0, 3.0), Pt::new(21.0, 3.0), Pt::new(17.0, 7.0)], Color::BLACK)?;
    /// assert_eq!(b.room()?.words, 50);
    /// # Ok::<(), Box<dyn std::error::Error>>(())
    /// ```
    pub fn room(&self) -> Result<Room, Refused> {
        room(&self.bytes())
    }

    /// The sheet's bytes.
    pub fn bytes(&self) -> Vec<u8> {
        let start = HEADER + PAIR * self.items();
        let mut sheet = Vec::with_capacity(start + self.body.len());
        sheet.extend(self.w.to_le_bytes());
        sheet.extend(self.h.to_le_bytes());
        sheet.extend(self.ground);
        sheet.push(0);
        sheet.extend((self.items() as u16).to_le_bytes());
        sheet.extend([0, 0]);
        let mut at = start as u16;
        for length in &self.lengths {
            sheet.extend(at.to_le_bytes());
            sheet.extend(length.to_le_bytes());
            at += length;
        }
        sheet.extend(&self.body);
        sheet
    }

    fn fits(&self, items: usize, body: usize) -> Result<(), SheetError> {
        let bytes = HEADER + PAIR * items + body;
        if bytes > MOST_BYTES {
            Err(SheetError::Length { bytes })
        } else if items > MOST_ITEMS {
            Err(SheetError::Items)
        } else {
            Ok(())
        }
    }

    fn append(&mut self, item: Item) -> usize {
        self.lengths.push(item.bytes.len() as u16);
        self.body.extend(item.bytes);
        self.items() - 1
    }

    /// Where an item begins in the body, and its length.
    fn place(&self, index: usize) -> (usize, usize) {
        let at = self.lengths[..index].iter().map(|length| *length as usize).sum();
        (at, self.lengths[index] as usize)
    }
}

/// The sides of a canvas; zeros where one is outside 1 to 2,048.
pub(crate) fn sides(w: u32, h: u32) -> (usize, usize) {
    if SIDES.contains(&w) && SIDES.contains(&h) {
        (w as usize, h as usize)
    } else {
        (0, 0)
    }
}

/// The sides of a sheet's canvas; zeros where the library refuses the sheet by its length or sides.
pub(crate) fn sides_of(sheet: &[u8]) -> (usize, usize) {
    match sheet {
        [a, b, c, d, ..] if (HEADER..=MOST_BYTES).contains(&sheet.len()) => {
            let [w, h] = [[*a, *b], [*c, *d]].map(|side| u32::from(u16::from_le_bytes(side)));
            sides(w, h)
        }
        _ => (0, 0),
    }
}
