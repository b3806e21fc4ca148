//! Colours, points, rectangles and paints, named as in kash-ui.

/// A colour with straight alpha: 0 paints nothing, 255 covers.
#[repr(C)]
#[derive(Clone, Copy, Debug, PartialEq, Eq)]
pub struct Color {
    /// Red.
    pub r: u8,
    /// Green.
    pub g: u8,
    /// Blue.
    pub b: u8,
    /// Alpha.
    pub a: u8,
}

impl Color {
    /// White, covering.
    pub const WHITE: Color = Color::rgb(255, 255, 255);
    /// Black, covering.
    pub const BLACK: Color = Color::rgb(0, 0, 0);

    /// A covering colour.
    pub const fn rgb(r: u8, g: u8, b: u8) -> Color {
        Color::rgba(r, g, b, 255)
    }

    /// A colour with its alpha.
    pub const fn rgba(r: u8, g: u8, b: u8, a: u8) -> Color {
        Color { r, g, b, a }
    }

    /// A covering colour from 0xRRGGBB.
    pub const fn hex(h: u32) -> Color {
        Color::rgb((h >> 16) as u8, (h >> 8) as u8, h as u8)
    }
}

/// A point.
#[repr(C)]
#[derive(Clone, Copy, Debug, PartialEq, Default)]
pub struct Pt {
    /// Column.
    pub x: f32,
    /// Row.
    pub y: f32,
}

impl Pt {
    /// A point.
    pub const fn new(x: f32, y: f32) -> Pt {
        Pt { x, y }
    }
}

/// A rectangle. Negative sides are allowed.
#[repr(C)]
#[derive(Clone, Copy, Debug, PartialEq, Default)]
pub struct Rect {
    /// Left edge.
    pub x: f32,
    /// Top edge.
    pub y: f32,
    /// Width.
    pub w: f32,
    /// Height.
    pub h: f32,
}

impl Rect {
    /// A rectangle.
    pub const fn new(x: f32, y: f32, w: f32, h: f32) -> Rect {
        Rect { x, y, w, h }
    }

    /// The square around a circle, as kash-ui's `fill_circle` and `ring` make it.
    pub(crate) fn around(cx: f32, cy: f32, r: f32) -> Rect {
        Rect::new(cx - r, cy - r, r * 2.0, r * 2.0)
    }
}

/// A box of pixels: columns x0 up to but without x1, rows y0 up to but without y1.
#[repr(C)]
#[derive(Clone, Copy, Debug, PartialEq, Eq, Default)]
pub struct IRect {
    /// First column.
    pub x0: i32,
    /// First row.
    pub y0: i32,
    /// The column after the last.
    pub x1: i32,
    /// The row after the last.
    pub y1: i32,
}

impl IRect {
    /// A box.
    pub const fn new(x0: i32, y0: i32, x1: i32, y1: i32) -> IRect {
        IRect { x0, y0, x1, y1 }
    }

    /// Whether it holds no pixel.
    pub const fn is_empty(&self) -> bool {
        self.x1 <= self.x0 || self.y1 <= self.y0
    }

    /// Whether it holds the pixel at a column and row.
    pub const fn contains(&self, x: i32, y: i32) -> bool {
        self.x0 <= x && x < self.x1 && self.y0 <= y && y < self.y1
    }
}

/// What a fill or polygon is painted with, sampled at pixel centres.
#[derive(Clone, Copy, Debug, PartialEq)]
pub enum Paint {
    /// One colour.
    Solid(Color),
    /// From c0 at row y0 to c1 at row y1.
    VGrad {
        /// Row of c0.
        y0: f32,
        /// Row of c1.
        y1: f32,
        /// The first colour.
        c0: Color,
        /// The second colour.
        c1: Color,
    },
    /// From c0 at p0 to c1 at p1.
    Linear {
        /// Place of c0.
        p0: Pt,
        /// Place of c1.
        p1: Pt,
        /// The first colour.
        c0: Color,
        /// The second colour.
        c1: Color,
    },
    /// From c0 at the centre to c1 at the radius.
    Radial {
        /// The centre.
        c: Pt,
        /// The radius.
        r: f32,
        /// The first colour.
        c0: Color,
        /// The second colour.
        c1: Color,
    },
}

impl From<Color> for Paint {
    fn from(c: Color) -> Paint {
        Paint::Solid(c)
    }
}
