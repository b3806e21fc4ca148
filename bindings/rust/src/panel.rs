//! The panel: a box of pixels, handed over one by one through eight registers.
use crate::raw::{self, State, Stepped};
use crate::{IRect, Refusal};
use std::{fmt, iter::FusedIterator};

/// The canvas state and the words that a picture lends to each step.
pub trait Lent {
    /// The state, and the words, pitch times height.
    fn lent(&self) -> (State, &[u32]);
}

/// What a panel takes pixels from: a [`Ticket`](crate::Ticket), a [`FramedTicket`](crate::FramedTicket) or a [`Canvas`](crate::Canvas).
///
/// Each lends its pixels to be read, with the state of a canvas: a `Canvas` its own, of which the clip does not matter here, a ticket that of
/// a new canvas of its size and pitch. No other type can be a picture.
pub trait Picture: Lent {}

/// The registers through which a panel takes the pixels of a box, and the box last loaded.
///
/// | byte | register |
/// |---|---|
/// | 0 | command: written with a box, 1 loads it; reads 0 always |
/// | 1 | flags: bit 0, a pixel is ready; bit 7, finished, the interrupt; 128 written clears bit 7 |
/// | 2-3 | column of the next pixel |
/// | 4-5 | row of the next pixel |
/// | 6-7 | pixels left in this row, the next one included |
///
/// Two bytes are little-endian. A fresh panel is all zero.
///
/// [`load`](Panel::load) sets the registers to the first pixel of a box, [`take`](Panel::take) hands over the pixel at column and row and moves
/// on, row by row. The last take leaves bytes 2 to 7 zero and the interrupt set, which [`acknowledge`](Panel::acknowledge) clears.
/// [`pixels`](Panel::pixels) loads a box and takes all of it:
///
/// ```
/// use maldjupp::{Color, IRect, Panel, Rect, Shape, SheetBuilder, Ticket};
/// let bar = |columns: f32| Shape::fill_rect(Rect::new(1.0, 1.0, columns, 2.0), Color::WHITE);
/// let mut b = SheetBuilder::new(8, 4, Color::BLACK)?;
/// let net = b.add(&bar(3.0))?;
/// let mut ticket = Ticket::paint(&b)?;
///
/// let mut panel = Panel::fresh();
/// let altered = ticket.replace(net, bar(2.0))?;
/// assert_eq!(altered.area, IRect::new(1, 1, 4, 3));
/// let mut sent = vec![];
/// for pixel in panel.pixels(&ticket, altered.area)? {
///     sent.push(pixel);
/// }
/// assert_eq!(sent, [0xFF_FFFF, 0xFF_FFFF, 0, 0xFF_FFFF, 0xFF_FFFF, 0]);
/// assert!(panel.is_finished());
/// panel.acknowledge(&ticket)?;
/// assert!(!panel.is_finished());
/// # Ok::<(), Box<dyn std::error::Error>>(())
/// ```
///
/// # Refusals
/// Every step tests the registers first: [`Refusal::State`] where the command is not 0, a flag other than bits 0 and 7 is set, or, with bit 0 set,
/// the held box is empty or leaves the picture, the place is outside that box, or the pixels left are not the rest of its row. So no step of
/// such a panel is accepted, a load included; [`Panel::fresh`] begins anew. Then comes the step's own check: [`Refusal::Command`],
/// [`Refusal::FlagWrite`] or [`Refusal::NotReady`]. A refused step alters no register. What a picture lends is sound, so that no step is refused
/// for it.
///
/// # What is proved
/// Over every list of steps from fresh, refused ones among them, each given the same picture, which nothing alters between them: the pixels that
/// accepted takes handed over since the last accepted load are the first so many of its box, row by row, and all of them once none is ready. Where
/// the picture is altered between two takes, each hands over the pixel at its column and row as it then is; an iterator borrows the picture,
/// so that it is not.
#[repr(C)]
#[derive(Clone, Copy, Debug, PartialEq, Eq)]
pub struct Panel {
    pub(crate) regs: [u8; 8],
    pub(crate) held: IRect,
}

impl Default for Panel {
    /// A fresh panel.
    fn default() -> Panel {
        Panel::fresh()
    }
}

impl Panel {
    /// The command that loads a box.
    pub const LOAD: u8 = 1;
    /// Flag bit 0: a pixel is ready.
    pub const PIXEL_READY: u8 = 1;
    /// Flag bit 7: finished, the interrupt; also what is written to the flags to clear it.
    pub const INTERRUPT: u8 = 128;

    /// A panel with all registers zero, and a box of zeros.
    pub fn fresh() -> Panel {
        raw::fresh_panel()
    }

    /// A panel with the registers and the box of a device, which may be any: the library tests them at each step.
    ///
    /// ```
    /// use maldjupp::{Canvas, IRect, Panel, Refusal};
    /// let canvas = Canvas::new(4, 2)?;
    /// let mut panel = Panel::fresh();
    /// panel.load(&canvas, IRect::new(1, 0, 4, 2))?;
    /// panel.take(&canvas)?;
    /// let mut restored = Panel::from_registers(panel.registers(), panel.held());
    /// assert_eq!((restored, restored.rest(&canvas)?.len()), (panel, 5));
    ///
    /// // With the column at the right, but two pixels left of a row that has one.
    /// let mut damaged = Panel::from_registers([0, 1, 3, 0, 0, 0, 2, 0], IRect::new(1, 0, 4, 2));
    /// assert_eq!(damaged.take(&canvas), Err(Refusal::State));
    /// # Ok::<(), Refusal>(())
    /// ```
    pub const fn from_registers(registers: [u8; 8], held: IRect) -> Panel {
        Panel { regs: registers, held }
    }

    /// Loads a box: writes 1 to the command. The flags are cleared, the registers are those of its first pixel, and a pixel is ready; of an empty
    /// box, which may lie anywhere, bytes 2 to 7 are zero and it is finished at once. The box is held as given. A load before the box
    /// before is finished starts anew.
    ///
    /// Refused: [`Refusal::Command`] for a box that is neither empty nor inside the picture.
    ///
    /// ```
    /// use maldjupp::{Canvas, IRect, Panel, Refusal};
    /// let (canvas, mut panel) = (Canvas::new(300, 5)?, Panel::default());
    /// panel.load(&canvas, IRect::new(258, 2, 300, 5))?;
    /// assert_eq!(panel.registers(), [0, Panel::PIXEL_READY, 2, 1, 2, 0, 42, 0]);
    /// assert_eq!((panel.column(), panel.row(), panel.left()), (258, 2, 42));
    /// assert_eq!(panel.load(&canvas, IRect::new(258, 2, 301, 5)), Err(Refusal::Command));
    ///
    /// panel.load(&canvas, IRect::new(9, -9, 9, -7))?;
    /// assert_eq!(panel.registers(), [0, Panel::INTERRUPT, 0, 0, 0, 0, 0, 0]);
    /// assert_eq!(panel.held(), IRect::new(9, -9, 9, -7));
    /// # Ok::<(), Refusal>(())
    /// ```
    pub fn load(&mut self, picture: &(impl Picture + ?Sized), area: IRect) -> Result<(), Refusal> {
        self.write_command(picture, Panel::LOAD, area)
    }

    /// Takes the pixel at column and row, all 32 bits of it, and moves on to the next of the box, row by row. The last take clears the ready
    /// flag, leaves bytes 2 to 7 zero and sets the interrupt.
    ///
    /// Refused: [`Refusal::NotReady`] while no pixel is ready.
    ///
    /// ```
    /// use maldjupp::{Canvas, Color, IRect, Panel, Rect, Refusal};
    /// let (mut canvas, mut panel) = (Canvas::new(3, 2)?, Panel::fresh());
    /// canvas.fill_rect(Rect::new(2.0, 0.0, 1.0, 1.0), Color::WHITE)?;
    /// panel.load(&canvas, IRect::new(1, 0, 3, 1))?;
    /// assert_eq!((panel.take(&canvas), panel.column(), panel.left()), (Ok(0), 2, 1));
    /// assert_eq!((panel.take(&canvas), panel.is_ready(), panel.is_finished()), (Ok(0xFF_FFFF), false, true));
    /// assert_eq!(panel.take(&canvas), Err(Refusal::NotReady));
    /// # Ok::<(), Refusal>(())
    /// ```
    pub fn take(&mut self, picture: &(impl Picture + ?Sized)) -> Result<u32, Refusal> {
        let (state, px) = picture.lent();
        self.taken(state, px)
    }

    /// Acknowledges the interrupt: writes 128 to the flags, which clears bit 7 and leaves bit 0. Where it is clear already nothing is altered.
    pub fn acknowledge(&mut self, picture: &(impl Picture + ?Sized)) -> Result<(), Refusal> {
        self.write_flags(picture, Panel::INTERRUPT)
    }

    /// Writes a value to the command, with a box, as a bus gives them: 1 is [`Panel::load`].
    ///
    /// Refused: [`Refusal::Command`] for any other value, whatever the box.
    pub fn write_command(&mut self, picture: &(impl Picture + ?Sized), value: u8, area: IRect) -> Result<(), Refusal> {
        let (state, px) = picture.lent();
        self.stepped(raw::write_command(*self, state, px, value, area))
    }

    /// Writes a value to the flags, as a bus gives it: 128 is [`Panel::acknowledge`].
    ///
    /// Refused: [`Refusal::FlagWrite`] for any other value.
    pub fn write_flags(&mut self, picture: &(impl Picture + ?Sized), value: u8) -> Result<(), Refusal> {
        let (state, px) = picture.lent();
        self.stepped(raw::write_flags(*self, state, px, value))
    }

    /// Loads a box, as [`Panel::load`] does, and gives its pixels, each by a take. The interrupt is left set at the end, as by the last take, for
    /// the caller to acknowledge. An iterator that is dropped half-way leaves the registers where they are: [`Panel::rest`] goes on there.
    ///
    /// Refused: [`Refusal::State`] and [`Refusal::Command`], as a load is. After it no take is, since the iterator borrows panel and picture.
    ///
    /// ```
    /// use maldjupp::{Canvas, IRect, Panel, Refusal};
    /// let (canvas, mut panel) = (Canvas::new(640, 400)?, Panel::fresh());
    /// let mut pixels = panel.pixels(&canvas, IRect::new(600, 380, 640, 400))?;
    /// assert_eq!(pixels.len(), 40 * 20);
    /// assert_eq!(pixels.by_ref().take(45).count(), 45);
    /// assert_eq!((panel.column(), panel.row(), panel.left()), (605, 381, 35));
    /// assert_eq!(panel.rest(&canvas)?.count(), 40 * 20 - 45);
    /// # Ok::<(), Refusal>(())
    /// ```
    pub fn pixels<'a>(&'a mut self, picture: &'a (impl Picture + ?Sized), area: IRect) -> Result<Pixels<'a>, Refusal> {
        self.load(picture, area)?;
        let (state, px) = picture.lent();
        Ok(Pixels { panel: self, state, px })
    }

    /// The pixels of the held box that are still to be taken, without a load; none where no pixel is ready.
    ///
    /// Refused: [`Refusal::State`] where the registers are out of order for this picture.
    pub fn rest<'a>(&'a mut self, picture: &'a (impl Picture + ?Sized)) -> Result<Pixels<'a>, Refusal> {
        let (state, px) = picture.lent();
        // A flag write of 0 is refused by its own check, which is the last, or by one of those that a take has too; it alters nothing.
        match Refusal::of(raw::write_flags(*self, state, px, 0).number) {
            Some(refusal) if refusal != Refusal::FlagWrite => Err(refusal),
            _ => Ok(Pixels { panel: self, state, px }),
        }
    }

    /// The eight bytes.
    pub const fn registers(&self) -> [u8; 8] {
        self.regs
    }

    /// The box last loaded.
    pub const fn held(&self) -> IRect {
        self.held
    }

    /// The column of the next pixel: bytes 2 and 3.
    pub const fn column(&self) -> u16 {
        self.two_bytes(2)
    }

    /// The row of the next pixel: bytes 4 and 5.
    pub const fn row(&self) -> u16 {
        self.two_bytes(4)
    }

    /// The pixels left in this row, the next one included: bytes 6 and 7.
    pub const fn left(&self) -> u16 {
        self.two_bytes(6)
    }

    /// Whether a pixel is ready: flag bit 0.
    pub const fn is_ready(&self) -> bool {
        self.regs[1] & Panel::PIXEL_READY != 0
    }

    /// Whether a box is finished and the interrupt not acknowledged: flag bit 7.
    pub const fn is_finished(&self) -> bool {
        self.regs[1] & Panel::INTERRUPT != 0
    }

    const fn two_bytes(&self, at: usize) -> u16 {
        u16::from_le_bytes([self.regs[at], self.regs[at + 1]])
    }

    fn stepped(&mut self, stepped: Stepped) -> Result<(), Refusal> {
        *self = stepped.panel;
        Refusal::of(stepped.number).map_or(Ok(()), Err)
    }

    fn taken(&mut self, state: State, px: &[u32]) -> Result<u32, Refusal> {
        let taken = raw::take(*self, state, px);
        *self = taken.panel;
        Refusal::of(taken.number).map_or(Ok(taken.value), Err)
    }

    /// How many pixels are still to be taken, of registers that are in order: the rest of this row, and the rows below it.
    fn pending(&self) -> usize {
        if !self.is_ready() {
            return 0;
        }
        let below = self.held.y1 as usize - usize::from(self.row()) - 1;
        below * (self.held.x1 - self.held.x0) as usize + usize::from(self.left())
    }
}

/// The pixels of a box that are still to be taken through a panel's registers, as [`Panel::pixels`] and [`Panel::rest`] give them. Each step is a
/// take.
///
/// # Panics
/// Where the library refuses a take. That cannot be while the iterator is there: it borrows panel and picture, which the library had found in order
/// when it was made, an accepted take leaves registers that the next step finds in order, and one is taken only where a pixel is ready. An
/// end in place of the panic would look like that of a whole box.
pub struct Pixels<'a> {
    panel: &'a mut Panel,
    state: State,
    px: &'a [u32],
}

impl Iterator for Pixels<'_> {
    type Item = u32;

    fn next(&mut self) -> Option<u32> {
        if !self.panel.is_ready() {
            return None;
        }
        match self.panel.taken(self.state, self.px) {
            Ok(pixel) => Some(pixel),
            Err(refusal) => panic!("a take is refused while a pixel is ready: {refusal}"),
        }
    }

    fn size_hint(&self) -> (usize, Option<usize>) {
        let left = self.panel.pending();
        (left, Some(left))
    }
}

impl ExactSizeIterator for Pixels<'_> {}

impl FusedIterator for Pixels<'_> {}

impl fmt::Debug for Pixels<'_> {
    /// The panel alone, without the words of the picture.
    fn fmt(&self, f: &mut fmt::Formatter) -> fmt::Result {
        f.debug_struct("Pixels").field("panel", &self.panel).finish_non_exhaustive()
    }
}
