//! The ticket: a sheet, and the pixels that show it.
use crate::panel::{Lent, Picture};
use crate::raw::State;
use crate::{frame, raw, sheet, Error, IRect, Refusal, Refused, Shape, SheetBuilder, SheetError};

/// A painted sheet with its pixels. They are always those of its sheet, whatever was edited or refused before.
///
/// A `Ticket` owns its pixels; a [`FramedTicket`] borrows them, within a frame whose rows are longer. Both have the same calls.
///
/// ```
/// use maldjupp::{Altered, Color, IRect, Rect, Shape, SheetBuilder, Ticket};
/// let bar = |kg: f32| Shape::fill_rect(Rect::new(10.0, 20.0, kg / 400.0, 6.0), Color::rgb(32, 122, 78));
/// let mut b = SheetBuilder::new(120, 80, Color::WHITE)?;
/// let net = b.add(&bar(18_000.0))?;
/// let mut ticket = Ticket::paint(&b)?;
/// // The bar is 45 columns of 6 pixels; the painting grounds every pixel, since they are 0 before it.
/// assert_eq!(ticket.altered(), Altered { area: IRect::new(0, 0, 120, 80), steps: 45 * 6, grounded: 120 * 80 });
/// // The new one reaches into a 46th column.
/// assert_eq!(ticket.replace(net, bar(18_220.0))?, Altered { area: IRect::new(10, 20, 56, 26), steps: 46 * 6, grounded: 45 * 6 });
/// // The same, drawn from the start: the library finds the shapes that differ.
/// let altered = ticket.edit(|b| {
///     b.clear();
///     b.add(&bar(18_400.0))
/// })?;
/// assert_eq!(altered, Altered { area: IRect::new(10, 20, 56, 26), steps: 46 * 6, grounded: 46 * 6 });
/// # Ok::<(), Box<dyn std::error::Error>>(())
/// ```
#[derive(Clone, Debug)]
pub struct Ticket<P = Vec<u32>> {
    sheet: Vec<u8>,
    pitch: usize,
    px: P,
    scratch: Vec<f32>,
    altered: Altered,
}

/// A ticket within a lent frame, whose rows may be longer than the canvas. It is made by [`Ticket::paint_in`].
///
/// While it borrows the frame nothing else writes its pixels, so that they are always those of its sheet; the words beside them can be written
/// by [`Ticket::margin_mut`].
///
/// ```
/// use maldjupp::{to_ppm, Color, Rect, Shape, SheetBuilder, Ticket};
/// let bar = |kg: f32| Shape::fill_rect(Rect::new(10.0, 20.0, kg / 400.0, 6.0), Color::rgb(32, 122, 78));
/// let mut b = SheetBuilder::new(120, 80, Color::WHITE)?;
/// let net = b.add(&bar(18_000.0))?;
///
/// // A terminal of 200 by 100. The ticket begins at column 30 and row 5, and is lent 80 rows from there.
/// let (pitch, first) = (200, 5 * 200 + 30);
/// let mut terminal = vec![0x0036_4452; 200 * 100];
/// let mut ticket = Ticket::paint_in(&mut terminal[first..][..80 * pitch], pitch, &b)?;
/// ticket.replace(net, bar(18_220.0))?;
/// assert!(ticket.rows().eq(Ticket::paint(&ticket.builder())?.rows()));
///
/// assert_eq!((terminal[first - 1], terminal[first], terminal[first + 119], terminal[first + 120]), (0x36_4452, 0xFF_FFFF, 0xFF_FFFF, 0x36_4452));
/// // The whole terminal as a picture.
/// assert!(to_ppm(pitch, &terminal).starts_with(b"P6\n200 100\n255\n"));
/// # Ok::<(), Box<dyn std::error::Error>>(())
/// ```
pub type FramedTicket<'a> = Ticket<&'a mut [u32]>;

/// What an accepted painting or patch altered: where, and how busy it was.
#[derive(Clone, Copy, Debug, PartialEq, Eq, Default)]
pub struct Altered {
    /// The box outside which no pixel was altered: of a painting the whole canvas, of a patch the smallest around the reaches of the shapes
    /// that differ, old and new, each cut by the clip in force at it ([`Ticket::patch`]); empty, four zeros, where that leaves no pixel.
    pub area: IRect,
    /// How many steps altered a pixel of the box. A step is one shape of the sheet at one pixel; a polyline takes one step a line at each
    /// pixel, each line on what the one before left, so that a joint may count twice. It alters the pixel where its value, all 32 bits,
    /// differs afterwards. The shapes are drawn on the sheet's own ground: of a painting this hangs on the sheet alone, whatever the pixels
    /// held.
    pub steps: u64,
    /// How many pixels of the box the filling with the ground altered, by their value too: this hangs on what the pixels held. Before its
    /// painting the pixels that a ticket owns are 0, so that painting a black ground alters none, and any other all of them.
    pub grounded: u64,
}

fn answer(raw::Reply { number, item, area, steps, grounded }: raw::Reply) -> Result<Altered, Refused> {
    Refused::of(number, item).map_or(Ok(Altered { area, steps, grounded }), Err)
}

impl Ticket {
    /// Paints what a builder holds.
    pub fn paint(sheet: &SheetBuilder) -> Result<Ticket, Refused> {
        Ticket::from_bytes(sheet.bytes())
    }

    /// Paints a sheet given as bytes, which may be any.
    pub fn from_bytes(sheet: Vec<u8>) -> Result<Ticket, Refused> {
        let (w, h) = sheet::sides_of(&sheet);
        Ticket::on(vec![0; w * h], w, sheet)
    }
}

impl<'a> FramedTicket<'a> {
    /// Paints what a builder holds into a lent frame, whose rows are `pitch` words long: the pixel at column x and row y is
    /// `frame[y * pitch + x]`. The words of a row past the width stay as they are, in every call.
    ///
    /// Refused: [`Refusal::Pitch`] for a pitch outside the width to 4,096, then [`Refusal::Pixels`] where the frame is not pitch times height,
    /// the last row whole too. Then the frame is as it was.
    pub fn paint_in(frame: &'a mut [u32], pitch: usize, sheet: &SheetBuilder) -> Result<FramedTicket<'a>, Refused> {
        Ticket::from_bytes_in(frame, pitch, sheet.bytes())
    }

    /// Paints a sheet given as bytes, which may be any, into a lent frame, as [`Ticket::paint_in`] does.
    pub fn from_bytes_in(frame: &'a mut [u32], pitch: usize, sheet: Vec<u8>) -> Result<FramedTicket<'a>, Refused> {
        Ticket::on(frame, pitch, sheet)
    }
}

impl<P: AsRef<[u32]> + AsMut<[u32]>> Ticket<P> {
    /// Paints a sheet on pixels, rows of so many words.
    fn on(mut px: P, pitch: usize, sheet: Vec<u8>) -> Result<Ticket<P>, Refused> {
        let mut scratch = vec![0.0; raw::measure(&sheet).words];
        let altered = answer(raw::paint(&sheet, pitch, px.as_mut(), &mut scratch))?;
        Ok(Ticket { sheet, pitch, px, scratch, altered })
    }

    /// Patches the ticket to a new sheet, which may be any bytes, and returns what was altered. Up to 32 shapes may differ. Refused, the
    /// ticket stays as it is.
    ///
    /// The box is the smallest around the reaches of the shapes that differ, old and new ([`Shape`]), each cut by the clip in force at it: the
    /// whole canvas at first, then what the pushes and pops before the shape make of it. A polyline's reach is one box, and is cut as one. A
    /// reach of which its clip leaves no pixel adds nothing: where that is so of all, the box is empty, as where nothing differs, and no pixel
    /// is altered.
    ///
    /// ```
    /// use maldjupp::{Color, IRect, Rect, Shape, SheetBuilder, Ticket};
    /// let band = |colour: Color| Shape::fill_rect(Rect::new(0.0, 20.0, 640.0, 12.0), colour);
    /// let mut b = SheetBuilder::new(640, 400, Color::WHITE)?;
    /// b.push_clip(Rect::new(48.0, 0.0, 24.0, 400.0))?;
    /// let index = b.add(&band(Color::rgb(184, 115, 51)))?;
    /// b.pop_clip()?;
    /// let mut ticket = Ticket::paint(&b)?;
    /// // The band reaches from side to side; its clip leaves a column of it.
    /// assert_eq!(ticket.replace(index, band(Color::rgb(201, 174, 93)))?.area, IRect::new(48, 20, 72, 32));
    /// # Ok::<(), Box<dyn std::error::Error>>(())
    /// ```
    ///
    /// A ceiling to plan with, proved of every patch: [`Altered::steps`] is at most the area of the box times the number of shapes in the new
    /// sheet whose reach, cut by the clip in force at the shape, shares a pixel with the box, a polyline standing once for each of its lines
    /// whose reach, cut so, does; [`Altered::grounded`] is at most the area, and an empty box has 0 for both.
    pub fn patch(&mut self, new: Vec<u8>) -> Result<Altered, Refused> {
        let mut patch = |scratch: &mut [f32]| answer(raw::patch(&self.sheet, &new, self.pitch, self.px.as_mut(), scratch));
        let mut altered = patch(&mut self.scratch);
        // A patch that is refused alters nothing, so it can be tried again with what the new sheet needs.
        if altered.is_err_and(|refused| refused.refusal == Refusal::Scratch) {
            self.scratch.resize(raw::measure(&new).words, 0.0);
            altered = patch(&mut self.scratch);
        }
        self.altered = altered?;
        self.sheet = new;
        Ok(self.altered)
    }

    /// Alters the sheet by calls of a builder that holds it, and patches the ticket to it, up to 32 shapes at once. Where a call fails,
    /// nothing is patched.
    ///
    /// ```
    /// use maldjupp::{Color, IRect, Rect, Shape, SheetBuilder, Ticket};
    /// let bar = |y: f32, kg: f32| Shape::fill_rect(Rect::new(40.0, y, kg / 400.0, 6.0), Color::rgb(92, 106, 124));
    /// let patch = |colour: Color| Shape::fill_rect(Rect::new(10.0, 20.0, 20.0, 20.0), colour);
    /// let mut b = SheetBuilder::new(160, 80, Color::WHITE)?;
    /// let (gross, tare, grade) = (b.add(&bar(20.0, 31_500.0))?, b.add(&bar(30.0, 0.0))?, b.add(&patch(Color::hex(0xECEBE6)))?);
    /// let mut ticket = Ticket::paint(&b)?;
    /// // The plate settles: gross bar, tare bar and grade in one patch.
    /// let altered = ticket.edit(|b| {
    ///     b.replace(gross, &bar(20.0, 31_460.0))?;
    ///     b.replace(tare, &bar(30.0, 13_240.0))?;
    ///     b.replace(grade, &patch(Color::rgb(184, 115, 51)))
    /// })?;
    /// assert_eq!(altered.area, IRect::new(10, 20, 119, 40));
    /// // The new bars reach into 79 and 34 columns of 6 pixels; the old ones into 79 and none.
    /// assert_eq!((altered.steps, altered.grounded), (79 * 6 + 34 * 6 + 20 * 20, 79 * 6 + 20 * 20));
    /// # Ok::<(), Box<dyn std::error::Error>>(())
    /// ```
    pub fn edit<T>(&mut self, alter: impl FnOnce(&mut SheetBuilder) -> Result<T, SheetError>) -> Result<Altered, Error> {
        let mut builder = self.builder();
        alter(&mut builder)?;
        Ok(self.patch(builder.bytes())?)
    }

    /// Puts a shape in the place of the shape of an index, counted from 0.
    pub fn replace(&mut self, index: usize, shape: Shape) -> Result<Altered, Error> {
        self.edit(|b| b.replace(index, &shape))
    }

    /// What the call accepted last altered: the painting at first, then each patch that is accepted.
    pub fn altered(&self) -> Altered {
        self.altered
    }

    /// A builder that holds the ticket's sheet.
    pub fn builder(&self) -> SheetBuilder {
        SheetBuilder::of_accepted(&self.sheet)
    }

    /// The sheet's bytes.
    pub fn sheet(&self) -> &[u8] {
        &self.sheet
    }

    /// The words as they lie: the pixels row by row, each 0x00RRGGBB, and within a frame after each row the words past the width.
    pub fn px(&self) -> &[u32] {
        self.px.as_ref()
    }

    /// The words of a row: the width, but within a frame.
    pub fn pitch(&self) -> usize {
        self.pitch
    }

    /// The pixels of a row, as many as the canvas is wide.
    ///
    /// # Panics
    /// Where there is no such row.
    pub fn row(&self, y: usize) -> &[u32] {
        frame::row(self.px(), self.pitch, self.width(), y)
    }

    /// The pixels, one row after the other.
    pub fn rows(&self) -> impl ExactSizeIterator<Item = &[u32]> {
        frame::rows(self.px(), self.pitch, self.width())
    }

    /// The words of a row past the width, none where the ticket owns its pixels. They are the caller's to write, and no call alters them.
    ///
    /// # Panics
    /// Where there is no such row.
    pub fn margin_mut(&mut self, y: usize) -> &mut [u32] {
        let width = self.width();
        frame::margin(self.px.as_mut(), self.pitch, width, y)
    }

    /// The canvas's width.
    pub fn width(&self) -> usize {
        u16::from_le_bytes([self.sheet[0], self.sheet[1]]).into()
    }

    /// The canvas's height.
    pub fn height(&self) -> usize {
        u16::from_le_bytes([self.sheet[2], self.sheet[3]]).into()
    }

    /// The picture as a PPM file: the canvas's columns alone.
    pub fn to_ppm(&self) -> Vec<u8> {
        frame::picture(self.width(), self.rows())
    }
}

impl<P: AsRef<[u32]> + AsMut<[u32]>> Lent for Ticket<P> {
    fn lent(&self) -> (State, &[u32]) {
        (State::whole(self.width(), self.height(), self.pitch), self.px())
    }
}

impl<P: AsRef<[u32]> + AsMut<[u32]>> Picture for Ticket<P> {}

#[cfg(test)]
mod tests {
    use super::*;
    use crate::{Color, Pt, Rect};

    #[test]
    fn wrong_pixels_are_refused() {
        let sheet = SheetBuilder::new(4, 1, Color::BLACK).unwrap().bytes();
        let reply = raw::paint(&sheet, 4, &mut [0; 3], &mut []);
        assert_eq!(answer(reply), Err(Refused { refusal: Refusal::Pixels, item: 0 }));
        let whole = Altered { area: IRect::new(0, 0, 4, 1), steps: 0, grounded: 0 };
        assert_eq!(answer(raw::paint(&sheet, 4, &mut [0; 4], &mut [])), Ok(whole));
        assert_eq!(answer(raw::paint(&sheet, 4, &mut [0, 1, 1 << 24, 0], &mut [])), Ok(Altered { grounded: 2, ..whole }));
    }

    /// A ticket lends what the library tells of its sheet, and more for a patch to a larger polygon. A refused patch alters nothing.
    #[test]
    fn scratch_grows_with_the_sheet() {
        let corner = |side: f32| Shape::fill_poly(&[Pt::default(), Pt::new(side, 0.0), Pt::new(0.0, side)], Color::WHITE);
        let words = |ticket: &Ticket| ticket.builder().room().unwrap().words;
        let mut b = SheetBuilder::new(40, 30, Color::BLACK).unwrap();
        b.add(&corner(4.0)).unwrap();
        let mut ticket = Ticket::paint(&b).unwrap();
        assert_eq!((ticket.scratch.len(), words(&ticket)), (50, 50));
        // Of sides 4, 20 and 3, row by row one pixel fewer, the last covered by half: 10, 210 and 6.
        let area = IRect::new(0, 0, 21, 21);
        assert_eq!(ticket.replace(0, corner(20.0)), Ok(Altered { area, steps: 210, grounded: 10 }));
        assert_eq!((ticket.scratch.len(), words(&ticket)), (530, 530));
        assert_eq!(ticket.px(), Ticket::paint(&ticket.builder()).unwrap().px());
        assert_eq!(ticket.replace(0, corner(3.0)), Ok(Altered { area, steps: 6, grounded: 210 }));
        assert_eq!((ticket.scratch.len(), words(&ticket)), (530, 37));

        b.add(&corner(30.0)).unwrap();
        let (before, mut bad) = (ticket.clone(), b.bytes());
        assert_eq!(ticket.patch(bad.clone()), Err(Refused { refusal: Refusal::Difference, item: 0 }));
        let end = bad.len() - 4;
        bad[end..].copy_from_slice(&f32::NAN.to_le_bytes());
        assert_eq!(ticket.patch(bad), Err(Refused { refusal: Refusal::Float, item: 2 }));
        assert_eq!((ticket.px(), ticket.sheet(), ticket.altered()), (before.px(), before.sheet(), before.altered()));
    }

    const GROUND: u32 = 0x00DE_DBD2;

    /// Shapes of several kinds under a clip, with a bar of a length.
    fn several(bar: f32) -> Vec<u8> {
        let mut b = SheetBuilder::new(24, 16, Color::hex(GROUND)).unwrap();
        b.fill_rrect(Rect::new(1.0, 1.0, 20.5, 13.0), 3.0, Color::rgb(253, 252, 248)).unwrap();
        b.push_clip(Rect::new(2.0, 0.0, 16.0, 12.0)).unwrap();
        b.fill_rect(Rect::new(3.0, 10.0, bar, 3.0), Color::rgba(32, 122, 78, 200)).unwrap();
        b.polyline(&[Pt::new(2.0, 9.0), Pt::new(9.0, 3.0), Pt::new(20.0, 9.0)], 3.0, Color::rgba(36, 66, 104, 99)).unwrap();
        b.shadow_rrect(Rect::new(5.0, 5.0, 9.0, 6.0), 2.0, 3.0, Color::rgba(0, 0, 0, 96), true).unwrap();
        b.bytes()
    }

    /// Words that are the ground, the ground under a filled uppermost byte, or any.
    fn any_words(salt: u32) -> Vec<u32> {
        let word = |i: u32| (i + 384 * salt).wrapping_mul(0x9E37_79B9) ^ salt;
        let held = |w: u32| [GROUND, GROUND | w & 0xFF00_0000, w, !w][(w >> 13) as usize % 4];
        (0..24 * 16).map(|i| held(word(i))).collect()
    }

    /// Painted or patched over any words, the steps are those of the ticket; grounded are the words of the box that were not the ground.
    #[test]
    fn counts_over_any_words() {
        let (old, new) = (several(6.0), several(9.5));
        let mut ticket = Ticket::from_bytes(new.clone()).unwrap();
        let painted = ticket.altered();
        ticket.patch(old.clone()).unwrap();
        let patched = ticket.patch(new.clone()).unwrap();
        assert_eq!((painted.area, patched.area), (IRect::new(0, 0, 24, 16), IRect::new(3, 10, 13, 12)));
        assert!(painted.steps > patched.steps && patched.steps > 0);
        for held in (0..50).map(any_words) {
            let not_ground = |area: IRect| {
                let inside = |i: usize| area.contains(i as i32 % 24, i as i32 / 24);
                (0..held.len()).filter(|i| inside(*i) && held[*i] != GROUND).count() as u64
            };
            let after = |altered: Altered| Ok(Altered { grounded: not_ground(altered.area), ..altered });
            assert_eq!(answer(raw::paint(&new, 24, &mut held.clone(), &mut [])), after(painted));
            assert_eq!(answer(raw::patch(&old, &new, 24, &mut held.clone(), &mut [])), after(patched));
        }
    }

    /// The answer of a refused call has zeros for box and counts.
    #[test]
    fn refused_answers_are_zeros() {
        let (old, new, px) = (several(6.0), several(9.5), &mut any_words(7));
        let (short, mut bad) = (&new[..new.len() - 1], new.clone());
        let blur = new.len() - 8;
        bad[blur..blur + 4].copy_from_slice(&f32::NAN.to_le_bytes());
        let all = [
            (3, 0, raw::paint(short, 24, px, &mut [])),
            (6, 5, raw::paint(&bad, 0, px, &mut [])),
            (15, 0, raw::paint(&new, 23, px, &mut [])),
            (8, 0, raw::paint(&new, 24, &mut px[1..], &mut [])),
            (3, 0, raw::patch(short, &new, 24, px, &mut [])),
            (6, 5, raw::patch(&old, &bad, 0, px, &mut [])),
            (15, 0, raw::patch(&old, &new, 4097, &mut px[1..], &mut [])),
            (8, 0, raw::patch(&old, &new, 24, &mut px[1..], &mut [])),
            // Within its range, another pitch than that of the pixels lent.
            (8, 0, raw::patch(&old, &new, 25, px, &mut [])),
        ];
        for (number, item, reply) in all {
            assert_eq!((reply.number, reply.item, reply.area, reply.steps, reply.grounded), (number, item, IRect::default(), 0, 0));
        }
        assert_eq!(*px, any_words(7));
    }
}
