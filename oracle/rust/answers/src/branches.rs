//! How often each branch of a shape's method is taken, by the Rust's own conditions on the call and the clip.
use crate::shape::{Call, FILL_POLY, POLYLINE, SHADOW};
use kash::{
    geom::{IRect, Pt, Rect},
    gfx::Paint,
    mathf::{ceil, clamp, fabs, floor},
};
use std::collections::BTreeMap;

/// Every branch, so that one never taken is seen.
pub const NAMES: [&str; 36] = [
    "fill: no width or height", "fill: empty under the clip", "fill: edge row", "fill: corner row", "fill: straight row",
    "fill: middle stored", "fill: middle blended", "fill: middle clear", "fill: middle of a gradient", "fill: no middle",
    "stroke: no size or alpha 0", "stroke: empty under the clip", "stroke: full row", "stroke: corner row", "stroke: straight row",
    "line: empty under the clip", "line: length under 0.01", "line: drawn",
    "poly: under 3 points", "poly: over 4,000,000 cells", "poly: level edge", "poly: edge down", "poly: edge up",
    "poly: x1i <= x0i + 1", "poly: x1i == x0i + 2", "poly: x1i wider",
    "shadow: alpha 0 or no blur", "shadow: empty under the clip", "shadow: straight row", "shadow: corner row",
    "shadow: sides meet", "shadow: middle span", "shadow: middle skipped", "shadow: scale finite", "shadow: scale infinite", "shadow: step NaN",
];

#[derive(Default)]
pub struct Taken(BTreeMap<&'static str, u64>);

fn radius(rect: Rect, r: f32) -> f32 {
    r.min(rect.w * 0.5).min(rect.h * 0.5).max(0.0)
}

fn centre(z: i32) -> f32 {
    z as f32 + 0.5
}

/// A level of a shadow's falloff.
fn level(call: &Call, i: usize) -> u32 {
    (kash::fraction(i) * call.ink().a as f32 + 0.5) as u32
}

impl Taken {
    fn take(&mut self, name: &'static str) {
        debug_assert!(NAMES.contains(&name));
        *self.0.entry(name).or_default() += 1;
    }

    pub fn of(&self, name: &str) -> u64 {
        self.0.get(name).copied().unwrap_or(0)
    }

    pub fn count(&mut self, call: &Call, clip: IRect) {
        match call.f {
            1 => self.line(call.points()[0], call.points()[1], call.width, clip),
            POLYLINE => call.points().windows(2).for_each(|p| self.line(p[0], p[1], call.width, clip)),
            3 | 4 => self.stroke(call, clip),
            FILL_POLY => self.poly(call),
            SHADOW => self.shadow(call, clip),
            6 => self.fill(&Call { r: 0.0, ..call.clone() }, clip),
            _ => self.fill(call, clip),
        }
    }

    fn fill(&mut self, call: &Call, clip: IRect) {
        let rect = call.rect();
        if rect.w <= 0.0 || rect.h <= 0.0 {
            return self.take("fill: no width or height");
        }
        let (r, bb) = (radius(rect, call.r), IRect::from_rect_outer(&rect).intersect(&clip));
        if bb.is_empty() {
            return self.take("fill: empty under the clip");
        }
        let (left, right, top, bottom) = (rect.x, rect.right(), rect.y, rect.bottom());
        for y in bb.y0..bb.y1 {
            let yc = centre(y);
            let corner = r > 0.0 && (yc < top + r || yc > bottom - r);
            self.take(if corner { "fill: corner row" } else { "fill: straight row" });
            let (le, rs) = if corner { (ceil(left + r), floor(right - r)) } else { (ceil(left) + 1.0, floor(right) - 1.0) };
            let lend = (le as i32).clamp(bb.x0, bb.x1);
            let middle = (rs as i32).clamp(lend, bb.x1) > lend;
            self.take(match call.filling() {
                _ if yc < top + 1.0 || yc > bottom - 1.0 => "fill: edge row",
                _ if !middle => "fill: no middle",
                Paint::Solid(c) if c.a == 255 => "fill: middle stored",
                Paint::Solid(c) if c.a > 0 => "fill: middle blended",
                Paint::Solid(_) => "fill: middle clear",
                _ => "fill: middle of a gradient",
            });
        }
    }

    fn stroke(&mut self, call: &Call, clip: IRect) {
        let rect = call.rect();
        if rect.w <= 0.0 || rect.h <= 0.0 || call.ink().a == 0 {
            return self.take("stroke: no size or alpha 0");
        }
        let (r, bb) = (radius(rect, call.r), IRect::from_rect_outer(&rect).intersect(&clip));
        if bb.is_empty() {
            return self.take("stroke: empty under the clip");
        }
        let (top, bottom, band) = (rect.y, rect.bottom(), call.width + 1.0);
        for y in bb.y0..bb.y1 {
            let yc = centre(y);
            let full = yc < top + band || yc > bottom - band;
            let corner = r > 0.0 && (yc < top + r + 1.0 || yc > bottom - r - 1.0);
            self.take(if full { "stroke: full row" } else if corner { "stroke: corner row" } else { "stroke: straight row" });
        }
    }

    fn line(&mut self, a: Pt, b: Pt, width: f32, clip: IRect) {
        let pad = width * 0.5 + 1.0;
        let padded = Rect::new(a.x.min(b.x) - pad, a.y.min(b.y) - pad, (a.x - b.x).abs() + 2.0 * pad, (a.y - b.y).abs() + 2.0 * pad);
        let (dx, dy) = (b.x - a.x, b.y - a.y);
        self.take(match IRect::from_rect_outer(&padded).intersect(&clip) {
            bb if bb.is_empty() => "line: empty under the clip",
            _ if dx * dx + dy * dy < 0.0001 => "line: length under 0.01",
            _ => "line: drawn",
        });
    }

    fn poly(&mut self, call: &Call) {
        if call.coords.len() < 6 {
            return self.take("poly: under 3 points");
        }
        let (ox, oy, bw, bh) = call.poly_box();
        if bw * bh > 4_000_000 {
            return self.take("poly: over 4,000,000 cells");
        }
        let pts: Vec<Pt> = call.points().iter().map(|p| Pt::new(p.x - ox as f32, p.y - oy as f32)).collect();
        for (i, p0) in pts.iter().enumerate() {
            self.edge(*p0, pts[(i + 1) % pts.len()], bh, bw as f32);
        }
    }

    fn edge(&mut self, p0: Pt, p1: Pt, bh: usize, maxx: f32) {
        if p0.y == p1.y {
            return self.take("poly: level edge");
        }
        self.take(if p0.y < p1.y { "poly: edge down" } else { "poly: edge up" });
        let (p0, p1) = if p0.y < p1.y { (p0, p1) } else { (p1, p0) };
        let dxdy = (p1.x - p0.x) / (p1.y - p0.y);
        let mut x = p0.x;
        for y in p0.y as usize..bh.min(ceil(p1.y) as usize) {
            let dy = ((y + 1) as f32).min(p1.y) - (y as f32).max(p0.y);
            let next = x + dxdy * dy;
            let (xa, xb) = if x < next { (x, next) } else { (next, x) };
            let x0i = floor(clamp(xa, 0.0, maxx)) as i32;
            let x1i = ceil(clamp(xb, 0.0, maxx)) as i32;
            self.take(if x1i <= x0i + 1 { "poly: x1i <= x0i + 1" } else if x1i == x0i + 2 { "poly: x1i == x0i + 2" } else { "poly: x1i wider" });
            x = next;
        }
    }

    fn shadow(&mut self, call: &Call, clip: IRect) {
        let (rect, blur) = (call.rect(), call.width);
        if call.ink().a == 0 || blur <= 0.0 {
            return self.take("shadow: alpha 0 or no blur");
        }
        let (r, bb) = (radius(rect, call.r), IRect::from_rect_outer(&rect.inset(-blur)).intersect(&clip));
        if bb.is_empty() {
            return self.take("shadow: empty under the clip");
        }
        let scale = 96.0 / (2.0 * blur);
        self.take(if scale.is_finite() { "shadow: scale finite" } else { "shadow: scale infinite" });
        let (cx, cy, hw, hh) = (rect.cx(), rect.cy(), rect.w * 0.5, rect.h * 0.5);
        for y in bb.y0..bb.y1 {
            let dy = fabs(centre(y) - cy);
            if dy - (hh - r) > 0.0 {
                self.take("shadow: corner row");
                continue;
            }
            self.take("shadow: straight row");
            let t = (dy - hh + blur) * scale;
            if t.is_nan() {
                self.take("shadow: step NaN");
            }
            let xa = (ceil(cx - hw + blur) as i32).clamp(bb.x0, bb.x1);
            let xb = (floor(cx + hw - blur) as i32).clamp(bb.x0, bb.x1);
            let skipped = call.kind == 1 && level(call, if t > 0.0 { t as usize } else { 0 }) >= level(call, 0);
            self.take(if xa >= xb { "shadow: sides meet" } else if skipped { "shadow: middle skipped" } else { "shadow: middle span" });
        }
    }
}
