//! A sheet's check in document 01's order, its painting by the unchanged Rust, and what change requests 2026-03 and 2026-05 count of it.
use crate::{half, item, Item, LONGEST, MOST_ITEMS, MOST_SAVED, MOST_SIDE, SHORTEST};
use answers::steps::{Altered, Watch};
use kash::{color::Color, geom::IRect, gfx::Canvas};

/// A sheet that was read: sides, ground, and each item with its bytes.
#[derive(Clone, Debug)]
pub struct Sheet {
    pub w: usize,
    pub h: usize,
    pub ground: [u8; 3],
    pub items: Vec<(Item, Vec<u8>)>,
}

/// A number, and the item beside it or 0.
#[derive(Clone, Copy, Debug, PartialEq)]
pub struct Fault {
    pub number: u32,
    pub item: u32,
}

/// A fresh painting: its pixels, and inside a box the steps of its shapes that altered a pixel's value, and how many of its chains altered one
/// at two steps or more.
pub struct Counted {
    pub px: Vec<u32>,
    pub steps: u64,
    pub twice: u64,
}

/// Where the items lie, if the pairs run as they must.
fn places(bytes: &[u8], n: usize) -> Option<Vec<(usize, usize)>> {
    let mut next = 12 + 4 * n;
    if bytes.len() < next {
        return None;
    }
    let mut places = vec![];
    for i in 0..n {
        let (offset, length) = (half(bytes, 12 + 4 * i), half(bytes, 14 + 4 * i));
        if offset != next {
            return None;
        }
        places.push((offset, offset + length));
        next = offset + length;
    }
    if next == bytes.len() { Some(places) } else { None }
}

/// How many pixels of a canvas of w columns and h rows lie in both boxes, counted one by one.
fn in_both(w: usize, h: usize, a: &IRect, b: &IRect) -> u64 {
    let column = |x: i32| (a.x0 <= x) & (x < a.x1) & (b.x0 <= x) & (x < b.x1);
    let row = |y: &i32| a.y0 <= *y && *y < a.y1 && b.y0 <= *y && *y < b.y1;
    (0..h as i32).filter(row).map(|_| (0..w as i32).map(|x| column(x) as u32).sum::<u32>() as u64).sum()
}

impl Sheet {
    /// The sheet of any bytes, or its number: 1, 2, 3, then for each item 4, 13, 5, 6, 7.
    pub fn read(bytes: &[u8]) -> Result<Sheet, Fault> {
        let whole = |number| Err(Fault { number, item: 0 });
        if bytes.len() < SHORTEST || bytes.len() > LONGEST {
            return whole(1);
        }
        let (w, h, n) = (half(bytes, 0), half(bytes, 2), half(bytes, 8));
        let sides = (1..=MOST_SIDE).contains(&w) && (1..=MOST_SIDE).contains(&h);
        if !sides || n > MOST_ITEMS || bytes[7] != 0 || bytes[10] != 0 || bytes[11] != 0 {
            return whole(2);
        }
        let Some(places) = places(bytes, n) else { return whole(3) };
        let mut sheet = Sheet { w, h, ground: [bytes[4], bytes[5], bytes[6]], items: vec![] };
        let mut saved = 0;
        for (i, (from, to)) in places.into_iter().enumerate() {
            let own = &bytes[from..to];
            let mut number = item::number(own);
            if number == 0 && own[0] == 1 {
                if saved == MOST_SAVED {
                    number = 7;
                }
                saved += 1;
            }
            if number > 0 {
                return Err(Fault { number, item: i as u32 + 1 });
            }
            if own[0] == 2 && saved > 0 {
                saved -= 1;
            }
            sheet.items.push((Item::of(own), own.to_vec()));
        }
        Ok(sheet)
    }

    /// The scratch words that painting it, or patching to it, needs.
    pub fn need(&self) -> usize {
        self.items.iter().map(|(item, _)| item.need()).max().unwrap_or(0)
    }

    /// How many clips are saved before the first item, and after each.
    pub fn saved(&self) -> Vec<usize> {
        let mut saved = 0usize;
        let after = self.items.iter().map(|(item, _)| {
            match item {
                Item::Push(_) => saved += 1,
                Item::Pop => saved = saved.saturating_sub(1),
                _ => (),
            }
            saved
        });
        [0].into_iter().chain(after).collect()
    }

    /// The clip in force before the first item, and after each, where the sheet is painted from nothing: so that of item i stands at i. The
    /// clips are the Rust's own.
    pub fn clips(&self) -> Vec<IRect> {
        let mut canvas = Canvas::new(self.w as i32, self.h as i32);
        let mut clips = vec![canvas.clip()];
        for (item, _) in &self.items {
            if !item.is_shape() {
                item.draw(&mut canvas);
            }
            clips.push(canvas.clip());
        }
        clips
    }

    /// The same where nothing is clipped: the whole canvas at each.
    pub fn unclipped(&self) -> Vec<IRect> {
        vec![self.canvas(); self.items.len() + 1]
    }

    /// The pixels of the canvas in a shape's reach and in the clip at it, summed over the shapes.
    pub fn met(&self) -> u64 {
        self.items.iter().zip(self.clips()).map(|((item, _), clip)| in_both(self.w, self.h, &item.reach(), &clip)).sum()
    }

    /// The box of the whole canvas.
    pub fn canvas(&self) -> IRect {
        IRect::new(0, 0, self.w as i32, self.h as i32)
    }

    pub fn ground(&self) -> Color {
        let [r, g, b] = self.ground;
        Color::rgb(r, g, b)
    }

    /// A canvas filled with the ground.
    fn cleared(&self) -> Canvas {
        let mut canvas = Canvas::new(self.w as i32, self.h as i32);
        canvas.clear(self.ground());
        canvas
    }

    /// The pixels of a fresh painting.
    pub fn fresh(&self) -> Vec<u32> {
        let mut canvas = self.cleared();
        for (item, _) in &self.items {
            item.draw(&mut canvas);
        }
        canvas.px
    }

    /// A fresh painting, counted inside a box.
    pub fn counted(&self, area: IRect) -> Counted {
        let mut canvas = self.cleared();
        let mut watch = Watch::new(&canvas, area);
        let items: Vec<Altered> = self.items.iter().map(|(item, _)| item.counted(&mut canvas, &mut watch)).collect();
        let twice = items.iter().filter(|item| item.twice()).count() as u64;
        Counted { px: canvas.px, steps: items.iter().map(|item| item.steps).sum(), twice }
    }
}
