//! The drawing methods of gfx.rs: a call with its numbers, as words and as the Rust draws it, and sequences of calls on one canvas.
use crate::{
    frame::{pitch_ok, Frame},
    random::Random,
    steps::{Altered, Watch},
};
use kash::{
    color::Color,
    geom::{IRect, Pt, Rect},
    gfx::{Canvas, Paint},
    mathf::{ceil, floor},
};

pub const NAMES: [&str; 9] = ["line", "polyline", "stroke_rrect", "ring", "fill_rrect", "fill_rect", "fill_circle", "fill_poly", "shadow_rrect"];
pub const POLYLINE: u32 = 2;
pub const FILL_POLY: u32 = 8;
pub const SHADOW: u32 = 9;

/// A call: `kind` is the paint's, or 1 for `skip_inside`; a shape of one colour takes the first.
#[derive(Clone)]
pub struct Call {
    pub f: u32,
    pub kind: u32,
    pub paint: [f32; 4],
    pub colours: [u32; 2],
    pub r: f32,
    pub width: f32,
    pub coords: Vec<f32>,
}

pub fn color_of(w: u32) -> Color {
    let [r, g, b, a] = w.to_le_bytes();
    Color::rgba(r, g, b, a)
}

impl Call {
    /// The words before the coordinates, and those.
    pub fn words(&self, canvas: &Canvas, pitch: usize) -> Vec<u32> {
        self.words_on([canvas.w, canvas.h], pitch, canvas.clip())
    }

    pub fn words_on(&self, [w, h]: [i32; 2], pitch: usize, clip: IRect) -> Vec<u32> {
        let mut words = vec![self.f, w as u32, h as u32, pitch as u32];
        words.extend([clip.x0, clip.y0, clip.x1, clip.y1].map(|z| z as u32));
        words.push(self.kind);
        words.extend(self.paint.map(f32::to_bits));
        words.extend(self.colours);
        words.extend([self.r.to_bits(), self.width.to_bits(), self.coords.len() as u32]);
        words.extend(self.coords.iter().map(|x| x.to_bits()));
        words
    }

    pub fn ink(&self) -> Color {
        color_of(self.colours[0])
    }

    /// The rectangle of the first four coordinates, or around a circle.
    pub fn rect(&self) -> Rect {
        let [x, y, w, h] = [0, 1, 2, 3].map(|i| self.coords[i]);
        let r = self.r;
        if self.f == 4 || self.f == 7 { Rect::new(x - r, y - r, r * 2.0, r * 2.0) } else { Rect::new(x, y, w, h) }
    }

    pub fn points(&self) -> Vec<Pt> {
        self.coords.chunks(2).map(|p| Pt::new(p[0], p[1])).collect()
    }

    pub fn filling(&self) -> Paint {
        let (x, [c0, c1]) = (self.paint, self.colours.map(color_of));
        match self.kind {
            0 => Paint::Solid(c0),
            1 => Paint::VGrad { y0: x[0], y1: x[1], c0, c1 },
            2 => Paint::Linear { p0: Pt::new(x[0], x[1]), p1: Pt::new(x[2], x[3]), c0, c1 },
            _ => Paint::Radial { c: Pt::new(x[0], x[1]), r: x[2], c0, c1 },
        }
    }

    pub fn draw(&self, canvas: &mut Canvas) {
        let (x, r, width, c) = (&self.coords, self.r, self.width, self.ink());
        match self.f {
            1 => canvas.line(Pt::new(x[0], x[1]), Pt::new(x[2], x[3]), width, c),
            2 => canvas.polyline(&self.points(), width, c),
            3 => canvas.stroke_rrect(self.rect(), r, width, c),
            4 => canvas.ring(x[0], x[1], r, width, c),
            5 => canvas.fill_rrect(self.rect(), r, self.filling()),
            6 => canvas.fill_rect(self.rect(), self.filling()),
            7 => canvas.fill_circle(x[0], x[1], r, self.filling()),
            8 => canvas.fill_poly(&self.points(), self.filling()),
            9 => canvas.shadow_rrect(self.rect(), r, width, c, self.kind == 1),
            f => panic!("no shape {f}"),
        }
    }

    /// Draws it, and answers what its steps altered.
    pub fn counted(&self, canvas: &mut Canvas) -> Altered {
        let mut watch = Watch::new(canvas, canvas.bounds());
        match self.f {
            POLYLINE => watch.chain(canvas, &self.points(), self.width, self.ink()),
            _ => watch.shape(canvas, |canvas| self.draw(canvas)),
        }
    }

    /// The first column and row of a polygon's box, and its sides.
    pub fn poly_box(&self) -> (i32, i32, usize, usize) {
        let (mut low, mut high) = ([f32::MAX; 2], [f32::MIN; 2]);
        for p in self.coords.chunks(2) {
            low = [low[0].min(p[0]), low[1].min(p[1])];
            high = [high[0].max(p[0]), high[1].max(p[1])];
        }
        let (ox, oy) = (floor(low[0]) as i32 - 1, floor(low[1]) as i32 - 1);
        (ox, oy, (ceil(high[0]) as i32 + 1 - ox) as usize, (ceil(high[1]) as i32 + 1 - oy) as usize)
    }

    /// The scratch words that the call needs.
    pub fn need(&self) -> usize {
        if self.f != FILL_POLY || self.coords.len() < 6 {
            return 0;
        }
        let (_, _, bw, bh) = self.poly_box();
        if bw * bh > 4_000_000 { 0 } else { (bw + 2) * bh + 2 }
    }
}

/// What a call is given beside its own numbers: sides, pitch and clip of the state, and the words of px and scratch.
#[derive(Clone)]
pub struct Given {
    pub sides: [i32; 2],
    pub pitch: usize,
    pub clip: IRect,
    pub px: usize,
    pub scratch: usize,
}

impl Call {
    fn by_points(&self) -> bool {
        self.f == POLYLINE || self.f == FILL_POLY
    }

    /// The places of the floats that the call takes: coordinates first, then radius, width and paint.
    fn floats(&mut self) -> Vec<&mut f32> {
        let used = [0, 2, 4, 3][self.kind as usize];
        let mut all: Vec<&mut f32> = self.coords.iter_mut().take(if self.f == 4 || self.f == 7 { 2 } else { usize::MAX }).collect();
        if [3, 4, 5, 7, SHADOW].contains(&self.f) {
            all.push(&mut self.r);
        }
        if [1, POLYLINE, 3, 4, SHADOW].contains(&self.f) {
            all.push(&mut self.width);
        }
        if [5, 6, 7, FILL_POLY].contains(&self.f) {
            all.extend(self.paint.iter_mut().take(used));
        }
        all
    }

    /// The number of a call in the order of documents 01 and 02: 12, 15, 8, 13, 6, 9.
    pub fn number(&self, given: &Given) -> u32 {
        let ([w, h], c) = (given.sides, given.clip);
        let sides = (1..=2048).contains(&w) && (1..=2048).contains(&h);
        if !sides || !c.is_empty() && !(c.x0 >= 0 && c.y0 >= 0 && c.x1 <= w && c.y1 <= h) {
            12
        } else if !pitch_ok(w as usize, given.pitch) {
            15
        } else if given.px != given.pitch * h as usize {
            8
        } else if self.by_points() && (self.coords.len() % 2 == 1 || self.coords.len() > 128) {
            13
        } else if self.clone().floats().iter().any(|x| !(x.abs() <= 8192.0)) {
            6
        } else if given.scratch < self.need() {
            9
        } else {
            0
        }
    }

    /// Makes one thing wrong that a number of documents 01 and 02 names.
    pub fn spoil(&mut self, given: &mut Given, random: &mut Random) {
        let [w, h] = given.sides;
        let last = given.pitch.saturating_sub(w as usize);
        match random.below(6) {
            0 => match random.below(3) {
                0 => given.sides[random.below(2) as usize] = random.of(&[0, -1, 2049, i32::MIN, i32::MAX]),
                1 => given.clip = random.of(&[IRect::new(0, 0, w + 1, h), IRect::new(0, 0, w, h + 1)]),
                _ => given.clip = random.of(&[IRect::new(-1, 0, w, h), IRect::new(0, -1, w, h), IRect::new(0, 0, 9, 2049)]),
            },
            1 => given.px = random.of(&[given.px + 1, given.px.saturating_sub(1), given.px.saturating_sub(last), 0]),
            5 => given.pitch = Frame::alone(w.clamp(1, 2048) as usize, 1).bad_pitch(random),
            2 if self.by_points() => {
                let n = random.of(&[1, 3, 5, 11, 129, 130]);
                self.coords.resize(n, 1.0);
            }
            3 if self.coords.len() % 2 == 0 && self.coords.iter().all(|x| x.abs() <= 8192.0) && self.need() > 0 => {
                given.scratch = random.of(&[self.need() - 1, 0]);
            }
            _ => {
                let wide = random.of(&[f32::NAN, f32::INFINITY, f32::NEG_INFINITY, 8192.001, -8192.001, 8193.0, f32::MAX]);
                let mut all = self.floats();
                let at = random.below(all.len().max(1) as u32) as usize;
                if let Some(x) = all.get_mut(at) {
                    **x = wide;
                }
            }
        }
    }
}

/// A number one bit beside a whole one.
fn beside(random: &mut Random) -> f32 {
    let whole = 1.0 + random.below(24) as f32;
    f32::from_bits(if random.below(2) == 0 { whole.to_bits() - 1 } else { whole.to_bits() + 1 })
}

fn subnormal(random: &mut Random) -> f32 {
    f32::from_bits(1 + random.below(0x7f_ffff) >> random.below(23) | 1 | random.below(2) << 31)
}

/// A place on a canvas of a side: near it, at a whole or half, beside a whole one, subnormal; where `far`, out to 8,192 either way.
pub fn place(random: &mut Random, side: i32, far: bool) -> f32 {
    match random.below(16) {
        0 if far => random.within(-8192.0, 8192.0),
        1 if far => random.of(&[8192.0, -8192.0]),
        2..=4 => random.within(-10.0, 2.0 * side as f32 + 10.0).floor() * 0.5,
        5 => beside(random),
        6 => subnormal(random),
        7 => random.of(&[0.0, -0.0, 0.5, 1.0]),
        _ => random.within(-6.0, side as f32 + 6.0),
    }
}

/// A size, radius, width or blur: mostly small, sometimes zero, negative, subnormal or as large as can be.
fn size(random: &mut Random) -> f32 {
    match random.below(12) {
        0 => random.of(&[0.0, -0.0, -1.5, -8192.0, 1.0e-3, 8192.0]),
        1 => subnormal(random),
        2 => random.within(0.0, 60.0).floor() * 0.5,
        3 | 4 => random.within(0.0, 30.0),
        _ => random.within(0.0, 8.0),
    }
}

fn colour(random: &mut Random) -> u32 {
    let alpha = random.of(&[0, 1, 128, 254, 255, 255]) << 24;
    if random.below(4) == 0 { random.word() } else { random.word() & 0x00ff_ffff | alpha }
}

/// A call of shape f, about a canvas of the sides given; a polygon of up to `most` points.
pub fn call(f: u32, random: &mut Random, [w, h]: [i32; 2], most: u32) -> Call {
    let far = random.below(if f == FILL_POLY { 40 } else { 2 }) == 0;
    let points = match (f, random.below(8)) {
        (POLYLINE, n) => n.min(4),
        (FILL_POLY, 0) => random.below(3),
        (FILL_POLY, 1) => 3 + random.below(most - 2),
        _ => 3 + random.below(4),
    };
    let mut coords: Vec<f32> = (0..2 * points).map(|i| place(random, if i % 2 == 0 { w } else { h }, far)).collect();
    if f != POLYLINE && f != FILL_POLY {
        coords.truncate(4);
        if f != 1 && random.below(4) > 0 {
            (coords[2], coords[3]) = (random.within(-1.0, w as f32 + 4.0), random.within(-1.0, h as f32 + 4.0));
        }
    }
    if f <= POLYLINE && coords.len() >= 4 && random.below(16) == 0 {
        (coords[2], coords[3]) = (coords[0], coords[1]);
    }
    let kind = random.below(if f == SHADOW { 2 } else { 4 });
    let paint = core::array::from_fn(|_| place(random, w, true));
    let mut made = Call { f, kind, paint, colours: [colour(random), colour(random)], r: size(random), width: size(random), coords };
    if f == SHADOW && random.below(32) == 0 {
        let (tiny, at) = (f32::from_bits(1 + random.below(4096)), random.below(w as u32) as f32 + 0.5);
        (made.coords, made.width) = (vec![at, random.below(h as u32) as f32 + 0.5, 2.0 * tiny, 2.0 * tiny], tiny);
    }
    made
}

/// The sides of a canvas: small, sometimes larger, a few with 2,048 columns or rows.
fn sides(random: &mut Random) -> [i32; 2] {
    let mut small = |n: u32| 1 + random.below(n) as i32;
    match small(400) {
        1 => [2048, small(6)],
        2 => [small(6), 2048],
        3..=24 => [small(90), small(60)],
        _ => [small(24), small(20)],
    }
}

/// A canvas of random pixels on which calls follow each other, with clips pushed and popped between; and the frame that it stands in.
pub struct Scene {
    pub canvas: Canvas,
    pub frame: Frame,
    pub left: u32,
    depth: u32,
}

impl Scene {
    pub fn new(random: &mut Random) -> Scene {
        let [w, h] = sides(random);
        let mut canvas = Canvas::new(w, h);
        canvas.px = (0..w * h).map(|_| random.word()).collect();
        let frame = Frame::around(w as usize, h as usize, random);
        Scene { canvas, frame, left: 1 + random.below(8), depth: 0 }
    }

    /// Pushes, pops or keeps the clip, and answers the next call.
    pub fn next(&mut self, random: &mut Random) -> Call {
        self.left -= 1;
        let (w, h) = (self.canvas.w, self.canvas.h);
        match random.below(4) {
            0 if self.depth < 16 => {
                let mut end = |side: i32| random.below(side as u32 + 8) as i32 - 4;
                self.canvas.push_clip_i(IRect::new(end(w / 2), end(h / 2), end(w) + w / 4, end(h) + h / 4));
                self.depth += 1;
            }
            1 | 2 if self.depth > 0 => {
                self.canvas.pop_clip();
                self.depth -= 1;
            }
            _ => (),
        }
        call(1 + random.below(NAMES.len() as u32), random, [w, h], 64)
    }
}
