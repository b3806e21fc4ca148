//! How many steps of a shape alter a pixel's value on the unchanged Rust's canvas: by all 32 bits of the pixels before and after each step.
//! A shape takes one step at each pixel, a chain one a segment.
use kash::{
    color::Color,
    geom::{IRect, Pt},
    gfx::Canvas,
};
use std::mem::replace;

/// What a shape did: the steps that altered a pixel's value, and the pixels whose value is another after it.
#[derive(Clone, Copy, Debug, PartialEq)]
pub struct Altered {
    pub steps: u64,
    pub pixels: u64,
}

impl Altered {
    /// Whether some pixel was altered at more than one step.
    pub fn twice(&self) -> bool {
        self.steps > self.pixels
    }
}

/// A box of a canvas, and its pixels as they were when they were last looked at.
pub struct Watch {
    area: IRect,
    seen: Vec<u32>,
}

impl Watch {
    pub fn new(canvas: &Canvas, area: IRect) -> Watch {
        let mut watch = Watch { area, seen: vec![] };
        watch.keep(canvas);
        watch
    }

    fn rows<'a>(&self, canvas: &'a Canvas) -> impl Iterator<Item = &'a [u32]> {
        let [x0, y0, x1, y1] = [self.area.x0, self.area.y0, self.area.x1, self.area.y1].map(|z| z as usize);
        (y0..y1).map(move |y| &canvas.px[y * canvas.w as usize..][x0..x1])
    }

    fn keep(&mut self, canvas: &Canvas) {
        self.seen.clear();
        let rows = self.rows(canvas);
        rows.for_each(|row| self.seen.extend_from_slice(row));
    }

    /// How many pixels of the box have another value than they had.
    fn differing(&self, canvas: &Canvas) -> u64 {
        let width = (self.area.x1 - self.area.x0).max(1) as usize;
        let in_row = |(now, was): (&[u32], &[u32])| now.iter().zip(was).map(|(a, b)| (a != b) as u32).sum::<u32>() as u64;
        self.rows(canvas).zip(self.seen.chunks_exact(width)).map(in_row).sum()
    }

    /// The same, and looks at them.
    fn look(&mut self, canvas: &Canvas) -> u64 {
        let differing = self.differing(canvas);
        if differing > 0 {
            self.keep(canvas);
        }
        differing
    }

    /// What is drawn in one step at each pixel.
    pub fn shape(&mut self, canvas: &mut Canvas, draw: impl FnOnce(&mut Canvas)) -> Altered {
        draw(canvas);
        let steps = self.look(canvas);
        Altered { steps, pixels: steps }
    }

    /// A chain, line by line with the Rust's own `line`, which must leave the pixels that its `polyline` leaves.
    pub fn chain(&mut self, canvas: &mut Canvas, points: &[Pt], width: f32, ink: Color) -> Altered {
        let before = canvas.px.clone();
        canvas.polyline(points, width, ink);
        let pixels = self.differing(canvas);
        let whole = replace(&mut canvas.px, before);
        let mut steps = 0;
        for ends in points.windows(2) {
            canvas.line(ends[0], ends[1], width, ink);
            steps += self.look(canvas);
        }
        assert!(canvas.px == whole, "the lines of a chain leave other pixels than the chain");
        Altered { steps, pixels }
    }
}
