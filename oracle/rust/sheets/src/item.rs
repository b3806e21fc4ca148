//! An item of a sheet: its bytes' number by document 01 (4, 13, 5, 6), the item that they are, its reach, its scratch and its drawing.
use crate::{float, half, MOST_POINTS};
use answers::steps::{Altered, Watch};
use kash::{
    color::Color,
    geom::{IRect, Pt, Rect},
    gfx::{Canvas, Paint},
    mathf::{ceil, floor},
};

#[derive(Clone, Debug)]
pub enum Item {
    Push(Rect),
    Pop,
    Fill { rect: Rect, r: f32, paint: Paint },
    Stroke { rect: Rect, r: f32, width: f32, ink: Color },
    Line { a: Pt, b: Pt, width: f32, ink: Color },
    Polygon { paint: Paint, points: Vec<Pt> },
    Shadow { rect: Rect, r: f32, blur: f32, ink: Color, skip: bool },
    Chain { width: f32, ink: Color, points: Vec<Pt> },
}

pub const EMPTY: IRect = IRect { x0: 0, y0: 0, x1: 0, y1: 0 };

/// Where a chain has its width, and its colour.
pub const CHAIN_WIDTH: usize = 4;
pub const CHAIN_COLOUR: usize = 8;

/// The length that an item of a kind has; none for an unknown kind.
pub fn length(kind: u8, m: usize) -> Option<usize> {
    match kind {
        1 => Some(20),
        2 => Some(4),
        3 => Some(52),
        4 | 7 => Some(32),
        5 => Some(28),
        6 => Some(32 + 8 * m),
        8 => Some(12 + 8 * m),
        0 | 9..=255 => None,
    }
}

/// Where an item of a kind has its paint.
pub fn paint_at(kind: u8) -> Option<usize> {
    match kind {
        3 => Some(24),
        6 => Some(4),
        _ => None,
    }
}

/// How many of its four floats a paint of a kind uses.
fn paint_floats(kind: u8) -> usize {
    [0, 2, 4, 3][kind as usize]
}

/// The places that must hold a zero byte, in an item of the right length.
pub fn zeros(b: &[u8]) -> Vec<usize> {
    let mut places = match b[0] {
        6 | 8 => vec![1],
        7 => vec![2, 3],
        _ => vec![1, 2, 3],
    };
    if let Some(at) = paint_at(b[0]) {
        places.extend([at + 1, at + 2, at + 3]);
        if b[at] == 0 {
            places.extend(at + 8..at + 12);
        }
        if b[at] <= 3 {
            places.extend(at + 12 + 4 * paint_floats(b[at])..at + 28);
        }
    }
    places
}

/// The places of the floats that an item uses, its paint's kind being one of the four.
pub fn floats(b: &[u8]) -> Vec<usize> {
    let own = match b[0] {
        1 => 4..20,
        3 => 4..24,
        4 | 7 => 4..28,
        5 => 4..24,
        6 => 32..b.len(),
        8 => 12..b.len(),
        _ => 0..0,
    };
    let mut places: Vec<usize> = own.step_by(4).collect();
    if b[0] == 8 {
        places.push(CHAIN_WIDTH);
    }
    if let Some(at) = paint_at(b[0]) {
        places.extend((0..paint_floats(b[at])).map(|i| at + 12 + 4 * i));
    }
    places
}

/// The number of an item's bytes: 4, 13, 5, 6 in this order, or 0.
pub fn number(b: &[u8]) -> u32 {
    if b.len() < 4 || length(b[0], half(b, 2)) != Some(b.len()) {
        return 4;
    }
    if (b[0] == 6 || b[0] == 8) && half(b, 2) > MOST_POINTS {
        return 13;
    }
    let kind_over = paint_at(b[0]).is_some_and(|at| b[at] > 3);
    if kind_over || b[0] == 7 && b[1] > 1 || zeros(b).iter().any(|at| b[*at] != 0) {
        return 5;
    }
    let fits = |x: f32| x.is_finite() && -8192.0 <= x && x <= 8192.0;
    if floats(b).iter().all(|at| fits(float(b, *at))) { 0 } else { 6 }
}

fn color(b: &[u8], at: usize) -> Color {
    Color::rgba(b[at], b[at + 1], b[at + 2], b[at + 3])
}

fn pt(b: &[u8], at: usize) -> Pt {
    Pt::new(float(b, at), float(b, at + 4))
}

/// The points of a polygon or a chain, the first of which stands at a place.
fn points(b: &[u8], at: usize) -> Vec<Pt> {
    (0..half(b, 2)).map(|i| pt(b, at + 8 * i)).collect()
}

fn rect(b: &[u8], at: usize) -> Rect {
    Rect::new(float(b, at), float(b, at + 4), float(b, at + 8), float(b, at + 12))
}

fn paint(b: &[u8], at: usize) -> Paint {
    let (c0, c1) = (color(b, at + 4), color(b, at + 8));
    match b[at] {
        0 => Paint::Solid(c0),
        1 => Paint::VGrad { y0: float(b, at + 12), y1: float(b, at + 16), c0, c1 },
        2 => Paint::Linear { p0: pt(b, at + 12), p1: pt(b, at + 20), c0, c1 },
        _ => Paint::Radial { c: pt(b, at + 12), r: float(b, at + 20), c0, c1 },
    }
}

impl Item {
    /// The item of bytes whose number is 0.
    pub fn of(b: &[u8]) -> Item {
        match b[0] {
            1 => Item::Push(rect(b, 4)),
            2 => Item::Pop,
            3 => Item::Fill { rect: rect(b, 4), r: float(b, 20), paint: paint(b, 24) },
            4 => Item::Stroke { rect: rect(b, 4), r: float(b, 20), width: float(b, 24), ink: color(b, 28) },
            5 => Item::Line { a: pt(b, 4), b: pt(b, 12), width: float(b, 20), ink: color(b, 24) },
            6 => Item::Polygon { paint: paint(b, 4), points: points(b, 32) },
            8 => Item::Chain { width: float(b, CHAIN_WIDTH), ink: color(b, CHAIN_COLOUR), points: points(b, 12) },
            _ => Item::Shadow { rect: rect(b, 4), r: float(b, 20), blur: float(b, 24), ink: color(b, 28), skip: b[1] == 1 },
        }
    }

    pub fn is_shape(&self) -> bool {
        !matches!(self, Item::Push(_) | Item::Pop)
    }

    pub fn draw(&self, canvas: &mut Canvas) {
        match self {
            Item::Push(rect) => canvas.push_clip(*rect),
            Item::Pop => canvas.pop_clip(),
            Item::Fill { rect, r, paint } => canvas.fill_rrect(*rect, *r, *paint),
            Item::Stroke { rect, r, width, ink } => canvas.stroke_rrect(*rect, *r, *width, *ink),
            Item::Line { a, b, width, ink } => canvas.line(*a, *b, *width, *ink),
            Item::Polygon { paint, points } => canvas.fill_poly(points, *paint),
            Item::Shadow { rect, r, blur, ink, skip } => canvas.shadow_rrect(*rect, *r, *blur, *ink, *skip),
            Item::Chain { width, ink, points } => canvas.polyline(points, *width, *ink),
        }
    }

    /// Draws it, and answers what its steps altered in the box that is watched.
    pub fn counted(&self, canvas: &mut Canvas, watch: &mut Watch) -> Altered {
        match self {
            Item::Chain { width, ink, points } => watch.chain(canvas, points, *width, *ink),
            _ => watch.shape(canvas, |canvas| self.draw(canvas)),
        }
    }

    /// Its reaches, one for each step that it takes at a pixel: a chain has one for each of its lines, another item its own alone.
    pub fn reaches(&self) -> Vec<IRect> {
        match self {
            Item::Chain { width, points, .. } => points.windows(2).map(|ends| line_reach(&ends[0], &ends[1], *width)).collect(),
            _ => vec![self.reach()],
        }
    }

    /// The box before the clip, of a chain around those of its lines; empty where the method returns before it meets the clip.
    pub fn reach(&self) -> IRect {
        match self {
            Item::Fill { rect, .. } if rect.w <= 0.0 || rect.h <= 0.0 => EMPTY,
            Item::Fill { rect, .. } => IRect::from_rect_outer(rect),
            Item::Stroke { rect, ink, .. } if rect.w <= 0.0 || rect.h <= 0.0 || ink.a == 0 => EMPTY,
            Item::Stroke { rect, .. } => IRect::from_rect_outer(rect),
            Item::Line { a, b, width, .. } => line_reach(a, b, *width),
            Item::Chain { .. } => self.reaches().into_iter().fold(EMPTY, around),
            Item::Polygon { points, .. } => match cells(points) {
                Some((ox, oy, bw, bh)) => IRect::new(ox, oy, ox + bw as i32, oy + bh as i32),
                None => EMPTY,
            },
            Item::Shadow { ink, blur, .. } if ink.a == 0 || *blur <= 0.0 => EMPTY,
            Item::Shadow { rect, blur, .. } => IRect::from_rect_outer(&rect.inset(-blur)),
            Item::Push(_) | Item::Pop => EMPTY,
        }
    }

    /// The scratch words that it needs.
    pub fn need(&self) -> usize {
        match self {
            Item::Polygon { points, .. } => cells(points).map_or(0, |(_, _, bw, bh)| (bw + 2) * bh + 2),
            _ => 0,
        }
    }
}

/// The smallest box around both, an empty one counting for nothing; four zeros where both are empty.
pub fn around(a: IRect, b: IRect) -> IRect {
    match (a.is_empty(), b.is_empty()) {
        (true, true) => EMPTY,
        (true, false) => b,
        (false, true) => a,
        (false, false) => IRect::new(a.x0.min(b.x0), a.y0.min(b.y0), a.x1.max(b.x1), a.y1.max(b.y1)),
    }
}

/// The box around a line's padded rectangle.
fn line_reach(a: &Pt, b: &Pt, width: f32) -> IRect {
    let pad = width * 0.5 + 1.0;
    let (x, y) = (a.x.min(b.x) - pad, a.y.min(b.y) - pad);
    IRect::from_rect_outer(&Rect::new(x, y, (a.x - b.x).abs() + 2.0 * pad, (a.y - b.y).abs() + 2.0 * pad))
}

/// The first column and row of a polygon's cells, and how many columns and rows; none where it paints nothing.
fn cells(points: &[Pt]) -> Option<(i32, i32, usize, usize)> {
    if points.len() < 3 {
        return None;
    }
    let (mut low, mut high) = (Pt::new(f32::MAX, f32::MAX), Pt::new(f32::MIN, f32::MIN));
    for p in points {
        low = Pt::new(low.x.min(p.x), low.y.min(p.y));
        high = Pt::new(high.x.max(p.x), high.y.max(p.y));
    }
    let (ox, oy) = (floor(low.x) as i32 - 1, floor(low.y) as i32 - 1);
    let (bw, bh) = ((ceil(high.x) as i32 + 1 - ox) as usize, (ceil(high.y) as i32 + 1 - oy) as usize);
    if bw * bh > 4_000_000 { None } else { Some((ox, oy, bw, bh)) }
}
