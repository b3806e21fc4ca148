//! A shape as a value, drawn by the call of a canvas.
use maldjupp::{Canvas, Refusal, Shape};

pub fn draw(canvas: &mut Canvas, shape: &Shape) -> Result<u64, Refusal> {
    match shape {
        Shape::Fill { rect, r, paint } => canvas.fill_rrect(*rect, *r, *paint),
        Shape::Stroke { rect, r, width, color } => canvas.stroke_rrect(*rect, *r, *width, *color),
        Shape::Line { a, b, width, color } => canvas.line(*a, *b, *width, *color),
        Shape::Poly { points, paint } => canvas.fill_poly(points, *paint),
        Shape::Shadow { rect, r, blur, color, skip_inside } => canvas.shadow_rrect(*rect, *r, *blur, *color, *skip_inside),
        Shape::Polyline { points, width, color } => canvas.polyline(points, *width, *color),
    }
}
