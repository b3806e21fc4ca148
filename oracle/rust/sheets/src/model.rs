//! What painting, patching and measuring answer, and what the first two leave of scratch and pixels, by document 01 and requests 2026-01,
//! 2026-03, 2026-05, 2026-07 and 2026-09.
use crate::{boxes, item::EMPTY, Counted, Fault, Sheet, MOST_CHANGES};
use answers::frame::{pitch_ok, Frame};
use kash::geom::IRect;

/// What a sheet call returns, as the library returns it: number, item and box; the steps of shapes that altered a pixel's value, and the
/// pixels whose value the filling with the ground altered.
#[repr(C)]
#[derive(Clone, Copy, Debug, PartialEq)]
pub struct Answer {
    pub number: u32,
    pub item: u32,
    pub x0: i32,
    pub y0: i32,
    pub x1: i32,
    pub y1: i32,
    pub steps: u64,
    pub grounded: u64,
}

impl Answer {
    /// The same without its counts.
    pub fn uncounted(self) -> Answer {
        Answer { steps: 0, grounded: 0, ..self }
    }

    /// The box that it reports.
    pub fn reported(&self) -> IRect {
        IRect::new(self.x0, self.y0, self.x1, self.y1)
    }
}

/// What a call must do, whatever the pixels before it are: its number, item and box, how many of the first scratch words it leaves +0, and
/// the sheet that it paints if it is accepted, in rows of so many words.
pub struct Expected {
    pub number: u32,
    pub item: u32,
    pub area: IRect,
    pub swept: usize,
    pub sheet: Option<Sheet>,
    pub pitch: usize,
}

/// What a call must return and leave: px, and how many of the first scratch words are +0; and where the canvas lies in px, if the call is
/// accepted.
pub struct After {
    pub answer: Answer,
    pub px: Vec<u32>,
    pub swept: usize,
    pub frame: Option<Frame>,
}

impl Expected {
    fn refused(Fault { number, item }: Fault) -> Expected {
        Expected { number, item, area: EMPTY, swept: 0, sheet: None, pitch: 0 }
    }

    /// Where the canvas lies in px, if the call is accepted.
    pub fn frame(&self) -> Option<Frame> {
        self.sheet.as_ref().map(|sheet| Frame { w: sheet.w, h: sheet.h, pitch: self.pitch })
    }

    /// A fresh painting counted inside the box, where the call is accepted.
    pub fn counted(&self) -> Option<Counted> {
        self.sheet.as_ref().map(|sheet| sheet.counted(self.area))
    }

    /// What the call returns and leaves in px, where its fresh painting is known: within the box the pixels of that, all other words as they
    /// came. The ground alters a pixel of the box where its value was another than the ground's.
    pub fn after(&self, before: &[u32], counted: Option<&Counted>) -> After {
        let (IRect { x0, y0, x1, y1 }, mut px) = (self.area, before.to_vec());
        let mut answer = Answer { number: self.number, item: self.item, x0, y0, x1, y1, steps: 0, grounded: 0 };
        if let (Some(sheet), Some(fresh)) = (&self.sheet, counted) {
            answer.steps = fresh.steps;
            let ground = sheet.ground().pix();
            let columns = |row: usize| row + x0 as usize..row + x1 as usize;
            for y in y0 as usize..y1 as usize {
                let row = &mut px[columns(y * self.pitch)];
                answer.grounded += row.iter().filter(|p| **p != ground).count() as u64;
                row.copy_from_slice(&fresh.px[columns(y * sheet.w)]);
            }
        }
        After { answer, px, swept: self.swept, frame: self.frame() }
    }

    /// The same, where the fresh painting serves for this alone.
    pub fn on(&self, before: &[u32]) -> After {
        self.after(before, self.counted().as_ref())
    }
}

/// Numbers 15, 8 and 9 of a sheet, then the acceptance with a box.
fn lent(sheet: Sheet, area: IRect, pitch: usize, px: usize, scratch: usize) -> Expected {
    let need = sheet.need();
    if !pitch_ok(sheet.w, pitch) {
        return Expected::refused(Fault { number: 15, item: 0 });
    }
    if px != pitch * sheet.h {
        return Expected::refused(Fault { number: 8, item: 0 });
    }
    if scratch < need {
        return Expected::refused(Fault { number: 9, item: 0 });
    }
    Expected { number: 0, item: 0, area, swept: need, sheet: Some(sheet), pitch }
}

/// Painting a sheet in rows of so many words, with so many words of px and scratch.
pub fn paint(bytes: &[u8], pitch: usize, px: usize, scratch: usize) -> Expected {
    match Sheet::read(bytes) {
        Err(fault) => Expected::refused(fault),
        Ok(sheet) => {
            let canvas = sheet.canvas();
            lent(sheet, canvas, pitch, px, scratch)
        }
    }
}

/// The room that a sheet takes, as the library returns it: scratch words, clips saved at once, and pixels in reach and clip together.
#[repr(C)]
#[derive(Clone, Copy, Debug, PartialEq)]
pub struct Room {
    pub number: u32,
    pub item: u32,
    pub words: usize,
    pub saved: usize,
    pub pixels: u64,
}

/// Measuring a sheet.
pub fn measure(bytes: &[u8]) -> Room {
    match Sheet::read(bytes) {
        Err(Fault { number, item }) => Room { number, item, words: 0, saved: 0, pixels: 0 },
        Ok(sheet) => {
            let saved = sheet.saved().into_iter().max().unwrap_or(0);
            Room { number: 0, item: 0, words: sheet.need(), saved, pixels: sheet.met() }
        }
    }
}

/// The box of a patch, or its number: 10 where the sheets differ in something other than a shape, then 14.
fn differing(sheets: &[Sheet; 2]) -> Result<IRect, u32> {
    let [old, new] = sheets;
    if (old.w, old.h, old.ground, old.items.len()) != (new.w, new.h, new.ground, new.items.len()) {
        return Err(10);
    }
    let places = boxes::differing(sheets);
    if places.iter().any(|i| !old.items[*i].0.is_shape() || !new.items[*i].0.is_shape()) {
        return Err(10);
    }
    if places.len() > MOST_CHANGES {
        return Err(14);
    }
    Ok(boxes::reported(sheets))
}

/// Patching from an old sheet to a new one.
pub fn patch(old: &[u8], new: &[u8], pitch: usize, px: usize, scratch: usize) -> Expected {
    let sheets = Sheet::read(old).and_then(|old| Ok([old, Sheet::read(new)?]));
    match sheets {
        Err(fault) => Expected::refused(fault),
        Ok(sheets) => match differing(&sheets) {
            Err(number) => Expected::refused(Fault { number, item: 0 }),
            Ok(area) => {
                let [_, new] = sheets;
                lent(new, area, pitch, px, scratch)
            }
        },
    }
}

/// Painting a sheet, or patching to it where there is an old one.
pub fn called(old: Option<&[u8]>, new: &[u8], pitch: usize, px: usize, scratch: usize) -> Expected {
    match old {
        None => paint(new, pitch, px, scratch),
        Some(old) => patch(old, new, pitch, px, scratch),
    }
}
