//! The functions of the static library, on slices. The only unsafe code is here.
use crate::{Color, IRect, Paint, Panel, Pt, Rect};

/// A number, the item that it names, a box, and what was altered in it: steps of shapes, and pixels by the ground.
#[repr(C)]
pub struct Reply {
    pub number: u32,
    pub item: u32,
    pub area: IRect,
    pub steps: u64,
    pub grounded: u64,
}

/// A number, the item that it names, and what painting a sheet takes: scratch words, saved clips and pixels.
#[repr(C)]
pub struct Room {
    pub number: u32,
    pub item: u32,
    pub words: usize,
    pub saved: usize,
    pub pixels: u64,
}

/// A number, the item that it names, and the bytes written.
#[repr(C)]
pub struct Written {
    pub number: u32,
    pub item: u32,
    pub len: usize,
}

/// The state of a canvas: its sides, the words of a row, its clip, and the saved clips, of which `depth` are in use.
#[repr(C)]
#[derive(Clone, Copy, Debug, PartialEq, Eq)]
pub struct State {
    pub w: i32,
    pub h: i32,
    pub pitch: usize,
    pub clip: IRect,
    pub saved: [IRect; 16],
    pub depth: usize,
}

/// A number and the state after a call.
#[repr(C)]
pub struct Done {
    pub number: u32,
    pub state: State,
}

/// A number, the state after a shape, and how many of its steps altered a pixel.
#[repr(C)]
pub struct Counted {
    pub number: u32,
    pub state: State,
    pub steps: u64,
}

/// A number and a box.
#[repr(C)]
pub struct Boxed {
    pub number: u32,
    pub area: IRect,
}

/// A number and a pixel.
#[repr(C)]
pub struct Pixel {
    pub number: u32,
    pub value: u32,
}

/// A number, the value of a blend, and whether it differs from the old one.
#[repr(C)]
pub struct Blended {
    pub number: u32,
    pub value: u32,
    pub altered: bool,
}

/// A number and the panel after a write to its registers.
#[repr(C)]
pub struct Stepped {
    pub number: u32,
    pub panel: Panel,
}

/// A number, the pixel handed over, and the panel after a take.
#[repr(C)]
pub struct Taken {
    pub number: u32,
    pub value: u32,
    pub panel: Panel,
}

/// A paint as a kind, two colours and four floats.
#[repr(C)]
#[derive(Clone, Copy)]
pub struct Brush {
    kind: u32,
    colors: [Color; 2],
    floats: [f32; 4],
}

impl From<Paint> for Brush {
    fn from(paint: Paint) -> Brush {
        let brush = |kind, c0, c1, floats| Brush { kind, colors: [c0, c1], floats };
        match paint {
            Paint::Solid(c) => brush(0, c, c, [0.0; 4]),
            Paint::VGrad { y0, y1, c0, c1 } => brush(1, c0, c1, [y0, y1, 0.0, 0.0]),
            Paint::Linear { p0, p1, c0, c1 } => brush(2, c0, c1, [p0.x, p0.y, p1.x, p1.y]),
            Paint::Radial { c, r, c0, c1 } => brush(3, c0, c1, [c.x, c.y, r, 0.0]),
        }
    }
}

extern "C" {
    fn maldjupp_paint(
        sheet: *const u8,
        bytes: usize,
        pitch: usize,
        px: *mut u32,
        pixels: usize,
        scratch: *mut f32,
        words: usize,
    ) -> Reply;
    fn maldjupp_patch(
        old: *const u8,
        old_bytes: usize,
        new: *const u8,
        new_bytes: usize,
        pitch: usize,
        px: *mut u32,
        pixels: usize,
        scratch: *mut f32,
        words: usize,
    ) -> Reply;
    fn maldjupp_measure(sheet: *const u8, bytes: usize) -> Room;
    fn maldjupp_clip_order(number: usize, buf: *mut u8, room: usize) -> Written;
    fn maldjupp_blend(old: u32, r: u32, g: u32, b: u32, a: u32) -> Blended;
    fn maldjupp_new(w: i32, h: i32, pitch: usize, px: *mut u32, pixels: usize) -> Done;
    fn maldjupp_resize(canvas: State, w: i32, h: i32, px: *mut u32, pixels: usize) -> Done;
    fn maldjupp_bounds(canvas: State) -> Boxed;
    fn maldjupp_clip(canvas: State) -> Boxed;
    fn maldjupp_push_clip(canvas: State, rect: Rect) -> Done;
    fn maldjupp_push_clip_i(canvas: State, area: IRect) -> Done;
    fn maldjupp_pop_clip(canvas: State) -> Done;
    fn maldjupp_clear(canvas: State, px: *mut u32, pixels: usize, color: Color) -> Done;
    fn maldjupp_get(canvas: State, px: *const u32, pixels: usize, x: i32, y: i32) -> Pixel;
    fn maldjupp_fill_rrect(canvas: State, px: *mut u32, pixels: usize, rect: Rect, r: f32, brush: Brush) -> Counted;
    fn maldjupp_fill_rect(canvas: State, px: *mut u32, pixels: usize, rect: Rect, brush: Brush) -> Counted;
    fn maldjupp_fill_circle(canvas: State, px: *mut u32, pixels: usize, cx: f32, cy: f32, r: f32, brush: Brush) -> Counted;
    fn maldjupp_stroke_rrect(canvas: State, px: *mut u32, pixels: usize, rect: Rect, r: f32, width: f32, color: Color) -> Counted;
    fn maldjupp_ring(canvas: State, px: *mut u32, pixels: usize, cx: f32, cy: f32, r: f32, width: f32, color: Color) -> Counted;
    fn maldjupp_line(canvas: State, px: *mut u32, pixels: usize, a: Pt, b: Pt, width: f32, color: Color) -> Counted;
    fn maldjupp_polyline(
        canvas: State,
        px: *mut u32,
        pixels: usize,
        points: *const f32,
        coordinates: usize,
        width: f32,
        color: Color,
    ) -> Counted;
    fn maldjupp_fill_poly(
        canvas: State,
        px: *mut u32,
        pixels: usize,
        points: *const f32,
        coordinates: usize,
        brush: Brush,
        scratch: *mut f32,
        words: usize,
    ) -> Counted;
    fn maldjupp_shadow_rrect(
        canvas: State,
        px: *mut u32,
        pixels: usize,
        rect: Rect,
        r: f32,
        blur: f32,
        color: Color,
        skip_inside: u32,
    ) -> Counted;
    fn maldjupp_panel_fresh() -> Panel;
    fn maldjupp_panel_command(panel: Panel, canvas: State, px: *const u32, pixels: usize, value: u8, area: IRect) -> Stepped;
    fn maldjupp_panel_flags(panel: Panel, canvas: State, px: *const u32, pixels: usize, value: u8) -> Stepped;
    fn maldjupp_panel_take(panel: Panel, canvas: State, px: *const u32, pixels: usize) -> Taken;
}

// SAFETY, of every call below: each pointer comes with the length of its slice, and a point is two floats, x and y, without a gap. The
// library reads and writes only what is lent, for any bytes, numbers and state, and keeps nothing.

/// Paints a sheet on px, rows of so many words.
pub fn paint(sheet: &[u8], pitch: usize, px: &mut [u32], scratch: &mut [f32]) -> Reply {
    unsafe { maldjupp_paint(sheet.as_ptr(), sheet.len(), pitch, px.as_mut_ptr(), px.len(), scratch.as_mut_ptr(), scratch.len()) }
}

/// Patches px, which shows the old sheet, to the new one.
pub fn patch(old: &[u8], new: &[u8], pitch: usize, px: &mut [u32], scratch: &mut [f32]) -> Reply {
    unsafe {
        maldjupp_patch(
            old.as_ptr(),
            old.len(),
            new.as_ptr(),
            new.len(),
            pitch,
            px.as_mut_ptr(),
            px.len(),
            scratch.as_mut_ptr(),
            scratch.len(),
        )
    }
}

/// Measures a sheet: what painting it takes.
pub fn measure(sheet: &[u8]) -> Room {
    unsafe { maldjupp_measure(sheet.as_ptr(), sheet.len()) }
}

/// Writes the clip order of a number, from 0, into a buffer.
pub fn clip_order(number: usize, buf: &mut [u8]) -> Written {
    unsafe { maldjupp_clip_order(number, buf.as_mut_ptr(), buf.len()) }
}

/// Blends three inks over an old pixel at an alpha.
pub fn blend(old: u32, r: u32, g: u32, b: u32, a: u32) -> Blended {
    unsafe { maldjupp_blend(old, r, g, b, a) }
}

/// A panel with all registers zero.
pub fn fresh_panel() -> Panel {
    unsafe { maldjupp_panel_fresh() }
}

/// Writes to a panel's command, with a box.
pub fn write_command(panel: Panel, state: State, px: &[u32], value: u8, area: IRect) -> Stepped {
    unsafe { maldjupp_panel_command(panel, state, px.as_ptr(), px.len(), value, area) }
}

/// Writes to a panel's flags.
pub fn write_flags(panel: Panel, state: State, px: &[u32], value: u8) -> Stepped {
    unsafe { maldjupp_panel_flags(panel, state, px.as_ptr(), px.len(), value) }
}

/// Takes the pixel at a panel's column and row.
pub fn take(panel: Panel, state: State, px: &[u32]) -> Taken {
    unsafe { maldjupp_panel_take(panel, state, px.as_ptr(), px.len()) }
}

/// The calls of a canvas, each on its state and on px.
impl State {
    /// All of a canvas as clip and nothing saved, as a new one has it; no pixel is touched.
    pub fn whole(w: usize, h: usize, pitch: usize) -> State {
        let (w, h) = (w as i32, h as i32);
        State { w, h, pitch, clip: IRect::new(0, 0, w, h), saved: [IRect::default(); 16], depth: 0 }
    }

    pub fn blank(w: i32, h: i32, pitch: usize, px: &mut [u32]) -> Done {
        unsafe { maldjupp_new(w, h, pitch, px.as_mut_ptr(), px.len()) }
    }

    pub fn resize(self, w: i32, h: i32, px: &mut [u32]) -> Done {
        unsafe { maldjupp_resize(self, w, h, px.as_mut_ptr(), px.len()) }
    }

    pub fn bounds(self) -> Boxed {
        unsafe { maldjupp_bounds(self) }
    }

    pub fn clip(self) -> Boxed {
        unsafe { maldjupp_clip(self) }
    }

    pub fn push_clip(self, rect: Rect) -> Done {
        unsafe { maldjupp_push_clip(self, rect) }
    }

    pub fn push_clip_i(self, area: IRect) -> Done {
        unsafe { maldjupp_push_clip_i(self, area) }
    }

    pub fn pop_clip(self) -> Done {
        unsafe { maldjupp_pop_clip(self) }
    }

    pub fn clear(self, px: &mut [u32], color: Color) -> Done {
        unsafe { maldjupp_clear(self, px.as_mut_ptr(), px.len(), color) }
    }

    pub fn get(self, px: &[u32], x: i32, y: i32) -> Pixel {
        unsafe { maldjupp_get(self, px.as_ptr(), px.len(), x, y) }
    }

    pub fn fill_rrect(self, px: &mut [u32], rect: Rect, r: f32, brush: Brush) -> Counted {
        unsafe { maldjupp_fill_rrect(self, px.as_mut_ptr(), px.len(), rect, r, brush) }
    }

    pub fn fill_rect(self, px: &mut [u32], rect: Rect, brush: Brush) -> Counted {
        unsafe { maldjupp_fill_rect(self, px.as_mut_ptr(), px.len(), rect, brush) }
    }

    pub fn fill_circle(self, px: &mut [u32], cx: f32, cy: f32, r: f32, brush: Brush) -> Counted {
        unsafe { maldjupp_fill_circle(self, px.as_mut_ptr(), px.len(), cx, cy, r, brush) }
    }

    pub fn stroke_rrect(self, px: &mut [u32], rect: Rect, r: f32, width: f32, color: Color) -> Counted {
        unsafe { maldjupp_stroke_rrect(self, px.as_mut_ptr(), px.len(), rect, r, width, color) }
    }

    pub fn ring(self, px: &mut [u32], cx: f32, cy: f32, r: f32, width: f32, color: Color) -> Counted {
        unsafe { maldjupp_ring(self, px.as_mut_ptr(), px.len(), cx, cy, r, width, color) }
    }

    pub fn line(self, px: &mut [u32], a: Pt, b: Pt, width: f32, color: Color) -> Counted {
        unsafe { maldjupp_line(self, px.as_mut_ptr(), px.len(), a, b, width, color) }
    }

    pub fn polyline(self, px: &mut [u32], points: &[Pt], width: f32, color: Color) -> Counted {
        unsafe { maldjupp_polyline(self, px.as_mut_ptr(), px.len(), points.as_ptr().cast(), 2 * points.len(), width, color) }
    }

    pub fn fill_poly(self, px: &mut [u32], points: &[Pt], brush: Brush, scratch: &mut [f32]) -> Counted {
        unsafe {
            maldjupp_fill_poly(
                self,
                px.as_mut_ptr(),
                px.len(),
                points.as_ptr().cast(),
                2 * points.len(),
                brush,
                scratch.as_mut_ptr(),
                scratch.len(),
            )
        }
    }

    /// Of `skip_inside`, 0 and 1 are accepted.
    pub fn shadow_rrect(self, px: &mut [u32], rect: Rect, r: f32, blur: f32, color: Color, skip_inside: u32) -> Counted {
        unsafe { maldjupp_shadow_rrect(self, px.as_mut_ptr(), px.len(), rect, r, blur, color, skip_inside) }
    }
}

#[cfg(test)]
mod tests {
    use super::*;
    use std::mem::{offset_of, size_of};

    const AREA: IRect = IRect::new(-1, 2, 3, -4);

    /// A state of which each number is another; it is none that a canvas can be in.
    fn odd() -> State {
        let saved = std::array::from_fn(|i| IRect::new(100 + i as i32, 200 + i as i32, -300 - i as i32, 400 + i as i32));
        State { w: 7, h: 9, pitch: 1 << 41, clip: AREA, saved, depth: 1 << 40 }
    }

    /// Every call refuses a state by a number. Each field of it comes back as it was given, beside a shape's no step, and no pixel is altered.
    fn every_call_refuses(state: State, px: &mut [u32], number: u32) {
        let before = px.to_vec();
        let (rect, pt, brush) = (Rect::new(0.0, 0.0, 2.0, 2.0), Pt::new(1.0, 1.0), Brush::from(Paint::Solid(Color::WHITE)));
        let others = [
            state.resize(1, 2, px),
            state.push_clip(rect),
            state.push_clip_i(AREA),
            state.pop_clip(),
            state.clear(px, Color::WHITE),
        ];
        assert!(others.iter().all(|done| done.number == number && done.state == state));
        let shapes = [
            state.fill_rrect(px, rect, 1.0, brush),
            state.fill_rect(px, rect, brush),
            state.fill_circle(px, 1.0, 1.0, 1.0, brush),
            state.stroke_rrect(px, rect, 1.0, 1.0, Color::WHITE),
            state.ring(px, 1.0, 1.0, 1.0, 1.0, Color::WHITE),
            state.line(px, pt, pt, 1.0, Color::WHITE),
            state.polyline(px, &[pt; 3], 1.0, Color::WHITE),
            state.fill_poly(px, &[pt; 3], brush, &mut [0.0; 99]),
            state.shadow_rrect(px, rect, 1.0, 1.0, Color::WHITE, 0),
        ];
        assert!(shapes.iter().all(|drawn| drawn.number == number && drawn.state == state && drawn.steps == 0));
        assert_eq!((state.bounds().number, state.clip().number, state.get(px, 0, 0).number), (number, number, number));
        assert_eq!((state.bounds().area, state.clip().area, state.get(px, 0, 0).value), (IRect::default(), IRect::default(), 0));
        assert_eq!(*px, before);
    }

    #[test]
    fn a_refused_state_comes_back() {
        every_call_refuses(odd(), &mut [5; 4], 12);
    }

    /// 15 for a pitch below the width or over 4,096, whatever the pixels are, after 12.
    #[test]
    fn a_pitch_out_of_range_is_refused() {
        let state = State::blank(2, 2, 3, &mut [0; 6]).state;
        for pitch in [0, 1, 4097, 1 << 32, usize::MAX] {
            for words in [0, 4, 6] {
                every_call_refuses(State { pitch, ..state }, &mut vec![5; words], 15);
                every_call_refuses(State { pitch, depth: 17, ..state }, &mut vec![5; words], 12);
            }
        }
        // One as long as the width is sound, and so is the longest.
        for pitch in [2, 4096] {
            let px = &mut vec![5; 2 * pitch];
            let done = State { pitch, ..state }.clear(px, Color::WHITE);
            assert_eq!((done.number, done.state), (0, State { pitch, ..state }));
            let expected = |i: usize| if i % pitch < 2 { 0xFF_FFFF } else { 5 };
            assert!((0..2 * pitch).all(|i| px[i] == expected(i)));
        }
    }

    /// A refused `new` gives a state of zeros, and its tests stand in the order 2, 15, 8.
    #[test]
    fn a_refused_new_gives_zeros() {
        let zeros = State { w: 0, h: 0, pitch: 0, clip: IRect::default(), saved: [IRect::default(); 16], depth: 0 };
        let cases = [(2049, 1, 0, 2), (2, 2049, 9000, 2), (3, 2, 2, 15), (3, 2, 4097, 15), (-3, 2, 0, 15), (2, 2, 2, 8), (2, 2, 4, 8)];
        for (w, h, pitch, number) in cases {
            let px = &mut [5; 6];
            let done = State::blank(w, h, pitch, px);
            assert_eq!((done.number, done.state, *px), (number, zeros, [5; 6]), "{w} {h} {pitch}");
        }
        let px = &mut [5; 6];
        assert_eq!((State::blank(2, 2, 3, px).number, *px), (0, [0, 0, 5, 0, 0, 5]));
    }

    /// `resize` keeps the pitch; 15 for the pitch of the state by its own width, or below the width that is wanted, after 12 and 2 and before 8.
    #[test]
    fn resize_keeps_the_pitch() {
        let state = State::blank(2, 2, 4, &mut [0; 8]).state;
        let px = &mut [5; 8];
        assert_eq!((state.resize(5, 2049, px).number, state.resize(5, 9, px).number, state.resize(4, 3, px).number), (2, 15, 8));
        assert_eq!(State { w: 4, pitch: 3, ..state }.resize(1, 2, px).number, 15);
        assert_eq!((state.resize(2, 2, px).state, *px), (state, [5; 8]));
        let done = state.resize(3, 0, &mut px[..4]);
        assert_eq!((done.number, done.state.w, done.state.h, done.state.pitch, *px), (0, 3, 1, 4, [0, 0, 0, 5, 5, 5, 5, 5]));
    }

    /// A paint kind over 3 is refused by 5, after 12, 15, 8 and 13 and before 6 and 9.
    #[test]
    fn a_kind_over_3_is_refused() {
        let px = &mut [0; 4];
        let state = State::blank(2, 2, 2, px).state;
        let (bad, fit, points) = (Rect::new(f32::NAN, 0.0, 2.0, 2.0), Rect::new(0.0, 0.0, 2.0, 2.0), [Pt::new(0.0, 9000.0); 65]);
        for kind in [4, 5, 255, 256, u32::MAX] {
            let brush = Brush { kind, colors: [Color::WHITE; 2], floats: [f32::NAN; 4] };
            assert_eq!(odd().fill_rect(px, fit, brush).number, 12);
            assert_eq!(State { pitch: 1, ..state }.fill_rect(&mut [0; 3], fit, brush).number, 15);
            assert_eq!(state.fill_rect(&mut [0; 3], fit, brush).number, 8);
            assert_eq!(state.fill_poly(px, &points, brush, &mut []).number, 13);
            let fives = [
                state.fill_rect(px, bad, brush),
                state.fill_rrect(px, bad, 0.0, brush),
                state.fill_circle(px, f32::NAN, 0.0, 1.0, brush),
                state.fill_poly(px, &points[..64], brush, &mut []),
            ];
            assert!(fives.iter().all(|drawn| drawn.number == 5 && drawn.state == state && drawn.steps == 0));
        }
        assert_eq!(*px, [0; 4]);
    }

    /// A shadow's `skip_inside` over 1 is refused by 5, after 12, 15 and 8 and before 6; 0 and 1 draw two different shadows.
    #[test]
    fn a_skip_over_1_is_refused() {
        let px = &mut [0; 64];
        let state = State::blank(8, 8, 8, px).state;
        let (fit, bad, white) = (Rect::new(0.0, 0.0, 8.0, 8.0), Rect::new(f32::NAN, 0.0, 8.0, 8.0), Color::WHITE);
        for skip in [2, 3, 255, 256, 1 << 8 | 1, 1 << 31, u32::MAX] {
            assert_eq!(odd().shadow_rrect(px, fit, 1.0, 1.0, white, skip).number, 12);
            assert_eq!(State { pitch: 7, ..state }.shadow_rrect(&mut [0; 3], fit, 1.0, 1.0, white, skip).number, 15);
            assert_eq!(state.shadow_rrect(&mut [0; 63], fit, 1.0, 1.0, white, skip).number, 8);
            for rect in [fit, bad] {
                let drawn = state.shadow_rrect(px, rect, 1.0, 1.0, white, skip);
                assert_eq!((drawn.number, drawn.state, drawn.steps, *px), (5, state, 0, [0; 64]), "{skip}");
            }
        }
        let drawn = [0, 1].map(|skip| {
            assert_eq!(state.shadow_rrect(px, bad, 1.0, 1.0, white, skip).number, 6);
            let px = &mut [0; 64];
            let drawn = state.shadow_rrect(px, fit, 0.0, 1.0, white, skip);
            assert_eq!((drawn.number, drawn.state), (0, state));
            (drawn.steps, px[4 * 8 + 4])
        });
        assert_eq!(drawn, [(64, 0xFF_FFFF), (64 - 36, 0)]);
    }

    /// Each field of a blend comes back: number, value, altered.
    #[test]
    fn a_blend_has_its_fields() {
        let fields = |old, r, g, b, a| {
            let blended = blend(old, r, g, b, a);
            (blended.number, blended.value, blended.altered)
        };
        assert_eq!(fields(0x0012_3456, 1, 2, 3, 255), (0, 0x0001_0203, true));
        assert_eq!(fields(0x0001_0203, 1, 2, 3, 255), (0, 0x0001_0203, false));
        assert_eq!(fields(0x0012_3456, 256, 2, 3, 255), (11, 0, false));
        assert_eq!([offset_of!(Blended, value), offset_of!(Blended, altered), size_of::<Blended>()], [4, 8, 12]);
    }

    /// The fields of the answers with counts stand where the library puts them.
    #[test]
    fn the_answers_have_their_places() {
        let reply = [offset_of!(Reply, area), offset_of!(Reply, steps), offset_of!(Reply, grounded), size_of::<Reply>()];
        assert_eq!(reply, [8, 24, 32, 40]);
        assert_eq!([offset_of!(Counted, state), offset_of!(Counted, steps), size_of::<Counted>()], [8, 304, 312]);
        assert_eq!([offset_of!(State, pitch), offset_of!(State, clip), offset_of!(State, depth), size_of::<State>()], [8, 16, 288, 296]);
    }

    /// A shape counts the words that differ, also where the uppermost byte alone does.
    #[test]
    fn a_shape_counts_whole_words() {
        let held = [0x00FF_FFFF, 0xFFFF_FFFF, 0x01FF_FFFF, 0x00FF_FFFE];
        let state = State::blank(2, 2, 2, &mut held.clone()).state;
        let (all, white) = (Rect::new(-1.0, -1.0, 9.0, 9.0), |a| Brush::from(Paint::Solid(Color::rgba(255, 255, 255, a))));
        for (alpha, steps) in [(255, 3), (0, 0)] {
            let px = &mut held.clone();
            let drawn = state.fill_rect(px, all, white(alpha));
            assert_eq!((drawn.number, drawn.steps, *px), (0, steps, if steps == 0 { held } else { [0x00FF_FFFF; 4] }));
            assert_eq!((state.fill_rect(px, all, white(alpha)).steps, drawn.state), (0, state));
        }
    }

    /// What a kind does not use is not read.
    #[test]
    fn what_a_paint_does_not_use_is_free() {
        let px = &mut [0; 1];
        let state = State::blank(1, 1, 1, px).state;
        let brush = Brush { kind: 0, colors: [Color::rgb(1, 2, 3), Color::WHITE], floats: [f32::NAN; 4] };
        assert_eq!(state.fill_rect(px, Rect::new(-1.0, -1.0, 9.0, 9.0), brush).number, 0);
        assert_eq!(*px, [0x0001_0203]);
    }

    /// The state of a ticket's pixels is that of a new canvas.
    #[test]
    fn a_whole_state_is_that_of_a_new_canvas() {
        for (w, h, pitch) in [(1, 1, 1), (1, 1, 4096), (3, 2, 3), (3, 2, 5), (2048, 1, 2048), (1, 2048, 9), (2048, 2, 4096)] {
            let done = State::blank(w as i32, h as i32, pitch, &mut vec![5; pitch * h]);
            assert_eq!((done.number, State::whole(w, h, pitch)), (0, done.state), "{w} {h} {pitch}");
        }
    }

    /// The fields of a panel and of what its steps return stand where the library puts them.
    #[test]
    fn the_panels_have_their_places() {
        assert_eq!([offset_of!(Panel, regs), offset_of!(Panel, held), size_of::<Panel>()], [0, 8, 24]);
        assert_eq!([offset_of!(Stepped, number), offset_of!(Stepped, panel), size_of::<Stepped>()], [0, 4, 28]);
        let taken = [offset_of!(Taken, number), offset_of!(Taken, value), offset_of!(Taken, panel), size_of::<Taken>()];
        assert_eq!(taken, [0, 4, 8, 32]);
        let held = IRect::new(1, 0, 3, 2);
        let loaded = write_command(fresh_panel(), State::whole(3, 2, 4), &[0; 8], 1, held);
        assert_eq!((loaded.number, loaded.panel.regs, loaded.panel.held), (0, [0, 1, 1, 0, 0, 0, 2, 0], held));
    }

    /// A take hands over all 32 bits, by the pitch, and never a word of a row past the width.
    #[test]
    fn a_take_hands_over_whole_words() {
        let px: Vec<u32> = (0..5 * 3).map(|i| 0xFF00_0000 | i).collect();
        let state = State::whole(4, 3, 5);
        let mut panel = write_command(fresh_panel(), state, &px, 1, IRect::new(1, 1, 4, 3)).panel;
        for i in [6, 7, 8, 11, 12, 13] {
            let taken = take(panel, state, &px);
            assert_eq!((taken.number, taken.value), (0, 0xFF00_0000 | i));
            panel = taken.panel;
        }
        assert_eq!((panel.regs, take(panel, state, &px).number), ([0, 128, 0, 0, 0, 0, 0, 0], 22));
    }

    /// Every step of a panel on a state and px: 1 with a box that is inside and with one that is not, another command, 128, another value, a take.
    /// Each is refused by a number, the panel comes back as given, and a take hands over 0.
    fn every_step_refuses(panel: Panel, state: State, px: &[u32], number: u32) {
        let (inside, outside) = (IRect::new(0, 0, 1, 1), IRect::new(0, 0, 9999, 1));
        let writes = [
            write_command(panel, state, px, 1, inside),
            write_command(panel, state, px, 1, outside),
            write_command(panel, state, px, 0, inside),
            write_flags(panel, state, px, 128),
            write_flags(panel, state, px, 0),
        ];
        assert!(writes.iter().all(|stepped| stepped.number == number && stepped.panel == panel), "{number} {panel:?}");
        let taken = take(panel, state, px);
        assert_eq!((taken.number, taken.value, taken.panel), (number, 0, panel));
    }

    /// 12 for the state or the registers, then 15, then 8, each before 20, 21 and 22.
    #[test]
    fn the_refusals_of_a_step_in_their_order() {
        let (state, px) = (State::whole(3, 2, 4), &[7; 8]);
        let busy = write_command(fresh_panel(), state, px, 1, IRect::new(1, 0, 3, 2)).panel;
        let damaged = Panel { regs: [1, 0, 0, 0, 0, 0, 0, 0], ..busy };
        for panel in [fresh_panel(), busy] {
            for words in [&px[..], &px[..7], &[]] {
                every_step_refuses(panel, State { depth: 17, ..state }, words, 12);
                every_step_refuses(panel, State { pitch: 2, depth: 17, ..state }, words, 12);
                every_step_refuses(damaged, State { pitch: 2, ..state }, words, 12);
                every_step_refuses(damaged, state, words, 12);
                for pitch in [0, 2, 4097, usize::MAX] {
                    every_step_refuses(panel, State { pitch, ..state }, words, 15);
                }
            }
            for words in [&[7; 9][..], &px[..7], &px[..6], &[]] {
                every_step_refuses(panel, state, words, 8);
            }
        }
    }

    /// The clip and the saved clips of the state do not matter to a step.
    #[test]
    fn a_step_under_any_clip() {
        let (px, mut state) = (&mut [1, 2, 3, 4, 5, 6], State::whole(3, 2, 3));
        for area in [IRect::new(2, 1, 3, 2), IRect::new(0, 0, 0, 0)] {
            state = state.push_clip_i(area).state;
            let mut panel = write_command(fresh_panel(), state, px, 1, IRect::new(0, 0, 3, 2)).panel;
            for value in 1..=6 {
                let taken = take(panel, state, px);
                assert_eq!((taken.number, taken.value), (0, value));
                panel = taken.panel;
            }
            assert_eq!(panel.regs, [0, 128, 0, 0, 0, 0, 0, 0]);
        }
    }
}
