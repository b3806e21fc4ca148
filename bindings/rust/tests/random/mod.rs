//! Random numbers, shapes and paints, for the tests that run random calls.
use maldjupp::{Color, Paint, Pt, Rect, Shape};

pub struct Random(pub u64);

impl Random {
    pub fn word(&mut self) -> u64 {
        self.0 = self.0.wrapping_add(0x9E37_79B9_7F4A_7C15);
        let z = (self.0 ^ (self.0 >> 30)).wrapping_mul(0xBF58_476D_1CE4_E5B9);
        let z = (z ^ (z >> 27)).wrapping_mul(0x94D0_49BB_1331_11EB);
        z ^ (z >> 31)
    }

    pub fn below(&mut self, n: u64) -> u64 {
        self.word() % n
    }

    /// Mostly a place near a small canvas; now and then one past the limit, at it, or no number.
    pub fn float(&mut self) -> f32 {
        match self.below(400) {
            0 => [8192.001, -8193.0, f32::NAN, f32::INFINITY, f32::NEG_INFINITY, f32::MAX][self.below(6) as usize],
            1..=9 => [8192.0, -8192.0, 0.0, -0.0, f32::MIN_POSITIVE][self.below(5) as usize],
            _ => self.below(400) as f32 / 8.0 - 10.0,
        }
    }

    pub fn color(&mut self) -> Color {
        let [r, g, b, a, ..] = self.word().to_le_bytes();
        Color::rgba(r, g, b, if a < 64 { 255 } else { a })
    }

    pub fn pt(&mut self) -> Pt {
        Pt::new(self.float(), self.float())
    }

    /// Mostly a few points; now and then about as many as are allowed.
    pub fn points(&mut self) -> Vec<Pt> {
        let count = if self.below(8) == 0 { 60 + self.below(8) } else { self.below(9) };
        (0..count).map(|_| self.pt()).collect()
    }

    pub fn rect(&mut self) -> Rect {
        Rect::new(self.float(), self.float(), self.float(), self.float())
    }

    pub fn paint(&mut self) -> Paint {
        let (c0, c1) = (self.color(), self.color());
        match self.below(4) {
            0 => Paint::Solid(c0),
            1 => Paint::VGrad { y0: self.float(), y1: self.float(), c0, c1 },
            2 => Paint::Linear { p0: self.pt(), p1: self.pt(), c0, c1 },
            _ => Paint::Radial { c: self.pt(), r: self.float(), c0, c1 },
        }
    }

    pub fn shape(&mut self) -> Shape {
        match self.below(9) {
            0 => Shape::fill_rect(self.rect(), self.paint()),
            1 => Shape::fill_rrect(self.rect(), self.float(), self.paint()),
            2 => Shape::fill_circle(self.float(), self.float(), self.float(), self.paint()),
            3 => Shape::stroke_rrect(self.rect(), self.float(), self.float(), self.color()),
            4 => Shape::ring(self.float(), self.float(), self.float(), self.float(), self.color()),
            5 => Shape::line(self.pt(), self.pt(), self.float(), self.color()),
            6 => Shape::fill_poly(&self.points(), self.paint()),
            7 => Shape::polyline(&self.points(), self.float(), self.color()),
            _ => Shape::shadow_rrect(self.rect(), self.float(), self.float(), self.color(), self.below(2) == 1),
        }
    }
}
