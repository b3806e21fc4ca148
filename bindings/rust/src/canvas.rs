//! The canvas: pixels that are drawn on call by call.
use crate::panel::{Lent, Picture};
use crate::raw::{self, Counted, Done, State};
use crate::{frame, sheet, Color, IRect, Paint, Pt, Rect, Refusal, SheetBuilder};

/// The most words of a row.
const LONGEST: usize = 4096;

/// A canvas with its pixels, and kash-ui's calls. The sides are 1 to 2,048; up to 16 clips are saved at once.
///
/// A call that the library refuses returns why, and the canvas stays as it was: every float must be finite and -8,192 to 8,192, and a
/// polygon or polyline has at most 64 points.
///
/// A call that draws a shape returns how many pixels it altered: those whose value, all 32 bits, differs afterwards. A polyline returns the
/// sum over its lines, each drawn on what the one before left, so that a joint may count twice.
///
/// ```
/// use maldjupp::{Canvas, Color, IRect, Paint, Pt, Rect, Refusal};
/// let mut canvas = Canvas::new(120, 80)?;
/// canvas.clear(Color::hex(0xDEDBD2))?;
/// canvas.push_clip(Rect::new(8.0, 8.0, 104.0, 64.0))?;
/// canvas.fill_circle(30.0, 40.0, 16.0, Paint::VGrad { y0: 24.0, y1: 56.0, c0: Color::WHITE, c1: Color::rgb(184, 115, 51) })?;
/// canvas.polyline(&[Pt::new(50.0, 60.0), Pt::new(70.0, 20.0), Pt::new(90.0, 60.0)], 3.0, Color::BLACK)?;
/// assert_eq!(canvas.clip(), IRect::new(8, 8, 112, 72));
/// canvas.pop_clip()?;
/// assert_eq!((canvas.get(0, 0), canvas.get(70, 21)), (0x00DE_DBD2, 0));
///
/// let bar = Rect::new(100.0, 10.0, 5.0, 4.0);
/// assert_eq!(canvas.fill_rect(bar, Color::BLACK)?, 20);
/// assert_eq!(canvas.fill_rect(bar, Color::BLACK)?, 0);
/// assert_eq!(canvas.ring(30.0, f32::NAN, 16.0, 2.0, Color::BLACK), Err(Refusal::Float));
/// # Ok::<(), Refusal>(())
/// ```
#[derive(Clone, Debug)]
pub struct Canvas {
    state: State,
    px: Vec<u32>,
    scratch: Vec<f32>,
    /// Whether the pitch was given, and so stays; else it is the width.
    pitched: bool,
}

/// Sides raised to 1; zeros where the library refuses one.
fn raised(w: i32, h: i32) -> (usize, usize) {
    let [w, h] = [w, h].map(|side| side.max(1) as u32);
    sheet::sides(w, h)
}

/// The words of so many rows; 0 where the library refuses the pitch as too long.
fn words_of(pitch: usize, rows: usize) -> usize {
    if pitch <= LONGEST {
        pitch * rows
    } else {
        0
    }
}

fn state(done: Done) -> Result<State, Refusal> {
    Refusal::of(done.number).map_or(Ok(done.state), Err)
}

fn counted(drawn: Counted) -> Result<(State, u64), Refusal> {
    Refusal::of(drawn.number).map_or(Ok((drawn.state, drawn.steps)), Err)
}

/// The scratch words that a polygon needs, asked of a sheet that holds it alone; 0 where there is no such sheet.
fn words(points: &[Pt], paint: Paint) -> usize {
    let alone = |mut b: SheetBuilder| b.fill_poly(points, paint).map(|_| b.bytes());
    SheetBuilder::new(1, 1, Color::BLACK).and_then(alone).map_or(0, |sheet| raw::measure(&sheet).words)
}

impl Canvas {
    /// A canvas whose pixels are 0, its rows as long as it is wide. A side below 1 is raised to 1.
    pub fn new(w: i32, h: i32) -> Result<Canvas, Refusal> {
        Canvas::blank(w, h, raised(w, h).0, false)
    }

    /// A canvas within rows of `pitch` words, its width to 4,096: the pixel at column x and row y is `px()[y * pitch + x]`. The words of a row
    /// past the width are 0 at first, and no call alters them; [`Canvas::margin_mut`] lends them. Another pitch is refused by
    /// [`Refusal::Pitch`]. A side below 1 is raised to 1.
    ///
    /// ```
    /// use maldjupp::{Canvas, Color, Refusal};
    /// let mut canvas = Canvas::with_pitch(2, 2, 3)?;
    /// canvas.margin_mut(1)[0] = 7;
    /// canvas.clear(Color::WHITE)?;
    /// assert_eq!(canvas.px(), [0xFF_FFFF, 0xFF_FFFF, 0, 0xFF_FFFF, 0xFF_FFFF, 7]);
    /// assert_eq!((canvas.row(1), canvas.pitch()), (&[0xFF_FFFF; 2][..], 3));
    /// assert_eq!((canvas.resize(4, 2), Canvas::with_pitch(2, 2, 1).err()), (Err(Refusal::Pitch), Some(Refusal::Pitch)));
    /// # Ok::<(), Refusal>(())
    /// ```
    pub fn with_pitch(w: i32, h: i32, pitch: usize) -> Result<Canvas, Refusal> {
        Canvas::blank(w, h, pitch, true)
    }

    fn blank(w: i32, h: i32, pitch: usize, pitched: bool) -> Result<Canvas, Refusal> {
        let mut px = vec![0; words_of(pitch, raised(w, h).1)];
        let state = state(State::blank(w, h, pitch, &mut px))?;
        Ok(Canvas { state, px, scratch: vec![], pitched })
    }

    /// Makes the canvas another size: its pixels are then 0, its clip is all of it and none is saved. The same size alters nothing. A side below
    /// 1 is raised to 1.
    ///
    /// A canvas made by [`Canvas::new`] has rows as long as it is wide, before and after. One made by [`Canvas::with_pitch`] keeps its pitch, and
    /// a larger width is refused by [`Refusal::Pitch`]; the words of its rows past the new width stay as they were, and those of rows that it
    /// did not have are 0.
    pub fn resize(&mut self, w: i32, h: i32) -> Result<(), Refusal> {
        let (width, height) = raised(w, h);
        if !self.pitched && (width, height) != (self.width(), self.height()) {
            let other = Canvas::new(w, h)?;
            (self.state, self.px) = (other.state, other.px);
            return Ok(());
        }
        let length = self.pitch() * height;
        if length == self.px.len() {
            return self.on(|state, px| state.resize(w, h, px));
        }
        let mut px = self.px.clone();
        px.resize(length, 0);
        self.state = state(self.state.resize(w, h, &mut px))?;
        self.px = px;
        Ok(())
    }

    /// The whole canvas.
    pub fn bounds(&self) -> IRect {
        self.state.bounds().area
    }

    /// The clip.
    pub fn clip(&self) -> IRect {
        self.state.clip().area
    }

    /// Saves the clip and cuts it to the pixels around a rectangle.
    pub fn push_clip(&mut self, rect: Rect) -> Result<(), Refusal> {
        self.on(|state, _| state.push_clip(rect))
    }

    /// Saves the clip and cuts it to a box.
    pub fn push_clip_i(&mut self, area: IRect) -> Result<(), Refusal> {
        self.on(|state, _| state.push_clip_i(area))
    }

    /// Takes back the clip saved last; does nothing where none is saved.
    pub fn pop_clip(&mut self) -> Result<(), Refusal> {
        self.on(|state, _| state.pop_clip())
    }

    /// Sets every pixel of the canvas to a colour, whatever the clip. The colour's alpha is not used.
    pub fn clear(&mut self, color: Color) -> Result<(), Refusal> {
        self.on(|state, px| state.clear(px, color))
    }

    /// The pixel at a column and row, each brought to the nearest inside.
    pub fn get(&self, x: i32, y: i32) -> u32 {
        self.state.get(&self.px, x, y).value
    }

    /// Fills a rectangle.
    pub fn fill_rect(&mut self, rect: Rect, paint: impl Into<Paint>) -> Result<u64, Refusal> {
        self.draw(|state, px| state.fill_rect(px, rect, paint.into().into()))
    }

    /// Fills a rectangle with rounded corners.
    pub fn fill_rrect(&mut self, rect: Rect, r: f32, paint: impl Into<Paint>) -> Result<u64, Refusal> {
        self.draw(|state, px| state.fill_rrect(px, rect, r, paint.into().into()))
    }

    /// Fills a circle. The square around it may pass 8,192.
    pub fn fill_circle(&mut self, cx: f32, cy: f32, r: f32, paint: impl Into<Paint>) -> Result<u64, Refusal> {
        self.draw(|state, px| state.fill_circle(px, cx, cy, r, paint.into().into()))
    }

    /// Draws the rim of a rectangle with rounded corners.
    pub fn stroke_rrect(&mut self, rect: Rect, r: f32, width: f32, color: Color) -> Result<u64, Refusal> {
        self.draw(|state, px| state.stroke_rrect(px, rect, r, width, color))
    }

    /// Draws a ring. The square around it may pass 8,192.
    pub fn ring(&mut self, cx: f32, cy: f32, r: f32, width: f32, color: Color) -> Result<u64, Refusal> {
        self.draw(|state, px| state.ring(px, cx, cy, r, width, color))
    }

    /// Draws a line with round ends.
    pub fn line(&mut self, a: Pt, b: Pt, width: f32, color: Color) -> Result<u64, Refusal> {
        self.draw(|state, px| state.line(px, a, b, width, color))
    }

    /// Draws lines from point to point, one after the other, of at most 64 points. A joint is blended by both of its lines, and may count
    /// for both.
    pub fn polyline(&mut self, points: &[Pt], width: f32, color: Color) -> Result<u64, Refusal> {
        self.draw(|state, px| state.polyline(px, points, width, color))
    }

    /// Fills a polygon of at most 64 points.
    pub fn fill_poly(&mut self, points: &[Pt], paint: impl Into<Paint>) -> Result<u64, Refusal> {
        let paint = paint.into();
        let mut draw = |scratch: &mut [f32]| counted(self.state.fill_poly(&mut self.px, points, paint.into(), scratch));
        let mut drawn = draw(&mut self.scratch);
        if drawn == Err(Refusal::Scratch) {
            self.scratch.resize(words(points, paint), 0.0);
            drawn = draw(&mut self.scratch);
        }
        let (state, steps) = drawn?;
        self.state = state;
        Ok(steps)
    }

    /// Draws a soft shadow.
    pub fn shadow_rrect(&mut self, rect: Rect, r: f32, blur: f32, color: Color, skip_inside: bool) -> Result<u64, Refusal> {
        self.draw(|state, px| state.shadow_rrect(px, rect, r, blur, color, skip_inside.into()))
    }

    /// The words as they lie, [`pitch`](Canvas::pitch) times height: the pixels row by row, each 0x00RRGGBB, and after each row the words past the
    /// width.
    pub fn px(&self) -> &[u32] {
        &self.px
    }

    /// The words of a row: the width, but for a canvas made by [`Canvas::with_pitch`].
    pub fn pitch(&self) -> usize {
        self.state.pitch
    }

    /// The pixels of a row, as many as the canvas is wide.
    ///
    /// # Panics
    /// Where there is no such row.
    pub fn row(&self, y: usize) -> &[u32] {
        frame::row(&self.px, self.pitch(), self.width(), y)
    }

    /// The pixels, one row after the other.
    pub fn rows(&self) -> impl ExactSizeIterator<Item = &[u32]> {
        frame::rows(&self.px, self.pitch(), self.width())
    }

    /// The words of a row past the width, to be written by the caller; no call alters them.
    ///
    /// # Panics
    /// Where there is no such row.
    pub fn margin_mut(&mut self, y: usize) -> &mut [u32] {
        let (pitch, width) = (self.pitch(), self.width());
        frame::margin(&mut self.px, pitch, width, y)
    }

    /// The width.
    pub fn width(&self) -> usize {
        self.state.w as usize
    }

    /// The height.
    pub fn height(&self) -> usize {
        self.state.h as usize
    }

    /// The picture as a PPM file: the canvas's columns alone.
    pub fn to_ppm(&self) -> Vec<u8> {
        frame::picture(self.width(), self.rows())
    }

    fn on(&mut self, call: impl FnOnce(State, &mut [u32]) -> Done) -> Result<(), Refusal> {
        self.state = state(call(self.state, &mut self.px))?;
        Ok(())
    }

    fn draw(&mut self, call: impl FnOnce(State, &mut [u32]) -> Counted) -> Result<u64, Refusal> {
        let (state, steps) = counted(call(self.state, &mut self.px))?;
        self.state = state;
        Ok(steps)
    }
}

impl Lent for Canvas {
    fn lent(&self) -> (State, &[u32]) {
        (self.state, &self.px)
    }
}

impl Picture for Canvas {}

#[cfg(test)]
mod tests {
    use super::*;
    use crate::Ticket;

    /// A triangle over the half of a square.
    fn corner(side: f32) -> [Pt; 3] {
        [Pt::default(), Pt::new(side, 0.0), Pt::new(0.0, side)]
    }

    /// Scratch grows to what the polygon needs, and only where what is held is refused. Row by row, the pixels altered are one fewer, the
    /// last covered by half.
    #[test]
    fn scratch_grows_with_the_polygon() {
        let mut canvas = Canvas::new(40, 30).unwrap();
        let cases = [(4.0, 50, 10), (3.0, 50, 6), (20.0, 530, 210), (4.0, 530, 10), (1996.0, 2000 * 1998 + 2, 40 * 30)];
        for (side, held, steps) in cases {
            let mut b = SheetBuilder::new(40, 30, Color::BLACK).unwrap();
            b.fill_poly(&corner(side), Color::WHITE).unwrap();
            canvas.clear(Color::BLACK).unwrap();
            assert_eq!(canvas.fill_poly(&corner(side), Color::WHITE), Ok(steps));
            assert_eq!((canvas.scratch.len(), canvas.px()), (held, Ticket::paint(&b).unwrap().px()));
            assert_eq!(canvas.get(0, 0), 0xFF_FFFF);
        }
    }

    /// None for what is not painted or refused otherwise, which alters nothing.
    #[test]
    fn scratch_stays_where_none_is_needed() {
        let mut canvas = Canvas::new(40, 30).unwrap();
        assert_eq!(canvas.fill_poly(&corner(4.0)[..2], Color::WHITE), Ok(0));
        assert_eq!(canvas.fill_poly(&corner(8000.0), Color::WHITE), Ok(0));
        assert_eq!(canvas.fill_poly(&corner(9000.0), Color::WHITE), Err(Refusal::Float));
        assert_eq!(canvas.fill_poly(&[Pt::default(); 65], Color::WHITE), Err(Refusal::Points));
        let paint = Paint::VGrad { y0: f32::NAN, y1: 9.0, c0: Color::WHITE, c1: Color::BLACK };
        assert_eq!(canvas.fill_poly(&corner(4.0), paint), Err(Refusal::Float));
        assert_eq!((canvas.scratch.len(), canvas.px()), (0, &[0; 40 * 30][..]));
    }
}
