//! Weighbridge tickets as pictures: a sheet of shapes is built, painted and patched by the proved static library `maldjupp`.
//!
//! ```
//! use maldjupp::{Altered, Color, IRect, Rect, Refusal, Shape, SheetBuilder, Ticket};
//!
//! let red = Color::rgb(255, 0, 0);
//! let mut b = SheetBuilder::new(4, 1, Color::BLACK)?;
//! let bar = b.fill_rect(Rect::new(0.0, 0.0, 1.0, 1.0), red)?;
//! let mut ticket = Ticket::paint(&b)?;
//! assert_eq!(ticket.px(), [0x00FF0000, 0, 0, 0]);
//!
//! // The patch fills a box with the ground, which alters one pixel, and draws the bar in it, which alters another.
//! let altered = ticket.replace(bar, Shape::fill_rect(Rect::new(2.0, 0.0, 1.0, 1.0), red))?;
//! assert_eq!(altered, Altered { area: IRect::new(0, 0, 3, 1), steps: 1, grounded: 1 });
//! assert_eq!(ticket.px(), [0, 0, 0x00FF0000, 0]);
//!
//! // What the library refuses alters nothing. Here: bytes that are no sheet.
//! let refused = ticket.patch(vec![0; 11]).unwrap_err();
//! assert_eq!(refused.refusal, Refusal::SheetLength);
//! assert_eq!(refused.to_string(), "refused 1 at 0: The sheet is under 12 or over 60,000 bytes.");
//! assert_eq!(ticket.px(), [0, 0, 0x00FF0000, 0]);
//! # Ok::<(), Box<dyn std::error::Error>>(())
//! ```
//!
//! A program that draws call by call has a [`Canvas`] with the same calls. Its pixels and counts are those of the sheet:
//!
//! ```
//! use maldjupp::{Canvas, Color, Rect, SheetBuilder, Ticket};
//!
//! let (area, copper) = (Rect::new(1.5, 0.5, 4.0, 2.0), Color::rgb(184, 115, 51));
//! let mut canvas = Canvas::new(8, 3)?;
//! canvas.clear(Color::WHITE)?;
//! let steps = canvas.fill_rrect(area, 1.0, copper)?;
//!
//! let mut b = SheetBuilder::new(8, 3, Color::WHITE)?;
//! b.fill_rrect(area, 1.0, copper)?;
//! let ticket = Ticket::paint(&b)?;
//! assert_eq!((canvas.px(), steps), (ticket.px(), ticket.altered().steps));
//! # Ok::<(), Box<dyn std::error::Error>>(())
//! ```
//!
//! Where the picture stands within a frame whose rows are longer than it, [`Ticket::paint_in`] paints and patches it there
//! ([`FramedTicket`]), and [`Canvas::with_pitch`] draws on such rows; the words beside it are never altered.
//!
//! What painting a sheet takes, [`room`] tells before it is painted: scratch, saved clips, and pixels as a figure for the work.
//!
//! One pixel is blended, and told whether it altered, by [`blend`].
//!
//! A program that shows sheets can be tried on [`clip_orders`], every small order of clips and fills.
//!
//! A panel takes the box of a patch pixel by pixel, through the eight registers of a [`Panel`]; [`Panel::pixels`] is an iterator over them.
//!
//! The library is found by the build script: in the folder that `MALDJUPP_LIB_DIR` names, else where `tools/library maldjupp` writes it.
#![deny(unsafe_code)]
#![warn(missing_docs)]

mod blend;
mod canvas;
mod frame;
mod measure;
mod orders;
mod panel;
#[allow(unsafe_code)]
mod raw;
mod refusal;
mod sheet;
mod ticket;
mod values;

pub use blend::{blend, Blended};
pub use canvas::Canvas;
pub use frame::to_ppm;
pub use measure::{room, Room};
pub use orders::{clip_order, clip_orders, ClipOrders, LONGEST_CLIP_ORDER};
pub use panel::{Panel, Picture, Pixels};
pub use refusal::{Error, Refusal, Refused, SheetError};
pub use sheet::{Shape, SheetBuilder};
pub use ticket::{Altered, FramedTicket, Ticket};
pub use values::{Color, IRect, Paint, Pt, Rect};
