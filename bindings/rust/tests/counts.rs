//! The steps that alter a pixel, and the pixels that the ground alters, beside the words that differ, counted here call by call.
use drawn::draw;
use maldjupp::{Altered, Canvas, Color, IRect, Pt, Rect, Refusal, Refused, Shape, SheetBuilder, Ticket};
use random::Random;

mod drawn;
mod random;

/// How many words of a box differ, in rows of so many.
fn differing(before: &[u32], after: &[u32], width: usize, area: IRect) -> u64 {
    let inside = |i: &usize| area.contains((i % width) as i32, (i / width) as i32);
    (0..after.len()).filter(inside).filter(|i| before[*i] != after[*i]).count() as u64
}

/// How many words of a canvas are other than before.
fn altered_since(before: &Canvas, canvas: &Canvas) -> u64 {
    differing(before.px(), canvas.px(), canvas.width(), canvas.bounds())
}

/// What takes one step at each pixel: a shape, or each line of a polyline.
fn parts(shape: &Shape) -> Vec<Shape> {
    match shape {
        Shape::Polyline { points, width, color } => points.windows(2).map(|ends| Shape::line(ends[0], ends[1], *width, *color)).collect(),
        other => vec![other.clone()],
    }
}

/// Draws a shape part by part; how many words of a box each alters, summed.
fn steps(canvas: &mut Canvas, shape: &Shape, area: IRect) -> u64 {
    let step = |part: &Shape| {
        let before = canvas.px().to_vec();
        draw(canvas, part).unwrap();
        differing(&before, canvas.px(), canvas.width(), area)
    };
    parts(shape).iter().map(step).sum()
}

/// A random canvas of one colour.
fn blank(random: &mut Random) -> Canvas {
    let mut canvas = Canvas::new(1 + random.below(60) as i32, 1 + random.below(50) as i32).unwrap();
    canvas.clear(random.color()).unwrap();
    canvas
}

/// A clip that leaves a part of most canvases.
fn clip(random: &mut Random) -> Rect {
    Rect::new(random.below(30) as f32 - 20.0, random.below(30) as f32 - 20.0, 40.0, 40.0)
}

/// Now and then pushes a clip, more often pops one.
fn reclip(random: &mut Random, canvas: &mut Canvas) {
    match random.below(12) {
        0 => canvas.push_clip(clip(random)).unwrap(),
        1 | 2 => canvas.pop_clip().unwrap(),
        _ => {}
    }
}

/// A random call of one of the shapes that take one step at a pixel.
fn call(which: usize, random: &mut Random, canvas: &mut Canvas) -> Result<u64, Refusal> {
    let (rect, points, a, b) = (random.rect(), random.points(), random.pt(), random.pt());
    let (r, width, paint, color) = (random.float(), random.float(), random.paint(), random.color());
    match which {
        0 => canvas.fill_rrect(rect, r, paint),
        1 => canvas.fill_rect(rect, paint),
        2 => canvas.fill_circle(a.x, a.y, r, paint),
        3 => canvas.stroke_rrect(rect, r, width, color),
        4 => canvas.ring(a.x, a.y, r, width, color),
        5 => canvas.line(a, b, width, color),
        6 => canvas.fill_poly(&points, paint),
        _ => canvas.shadow_rrect(rect, r, width, color, color.r < 128),
    }
}

#[test]
fn a_call_counts_the_words_that_differ() {
    let mut random = Random(8);
    let (mut altered, mut none, mut refused) = ([0; 8], 0, 0);
    for _ in 0..300 {
        let mut canvas = blank(&mut random);
        for _ in 0..40 {
            reclip(&mut random, &mut canvas);
            let (which, before) = (random.below(8) as usize, canvas.clone());
            let counted = call(which, &mut random, &mut canvas);
            assert_eq!(counted.unwrap_or(0), altered_since(&before, &canvas), "{which}");
            match counted {
                Ok(0) => none += 1,
                Ok(_) => altered[which] += 1,
                Err(_) => refused += 1,
            }
        }
    }
    assert!(altered.iter().all(|times| *times > 200) && none > 1000 && refused > 100, "{altered:?} {none} {refused}");
}

#[test]
fn a_polyline_counts_line_by_line() {
    let mut random = Random(9);
    let (mut more, mut refused) = (0, 0);
    for _ in 0..300 {
        let mut canvas = blank(&mut random);
        for _ in 0..12 {
            reclip(&mut random, &mut canvas);
            let (before, shape) = (canvas.clone(), Shape::polyline(&random.points(), random.float() / 4.0, random.color()));
            match draw(&mut canvas, &shape) {
                Ok(counted) => {
                    let mut lines = before.clone();
                    assert_eq!(counted, steps(&mut lines, &shape, canvas.bounds()));
                    assert_eq!(canvas.px(), lines.px());
                    more += (counted > altered_since(&before, &canvas)) as u32;
                }
                Err(_) => {
                    refused += 1;
                    assert_eq!(canvas.px(), before.px());
                }
            }
        }
    }
    assert!(more > 500 && refused > 100, "{more} {refused}");
}

fn black(w: i32, h: i32) -> Canvas {
    Canvas::new(w, h).unwrap()
}

/// A covering fill alters each of its pixels once; alpha 0, an empty clip and a shape beside the canvas alter none.
#[test]
fn fills_by_hand() {
    let (mut canvas, area) = (black(8, 6), Rect::new(1.0, 2.0, 5.0, 3.0));
    assert_eq!(canvas.fill_rect(area, Color::WHITE), Ok(15));
    assert_eq!(canvas.fill_rect(area, Color::WHITE), Ok(0));
    assert_eq!(canvas.fill_rect(Rect::new(0.0, 1.0, 3.0, 3.0), Color::WHITE), Ok(9 - 4));
    assert_eq!(canvas.fill_rect(area, Color::rgba(9, 9, 9, 0)), Ok(0));
    assert_eq!(canvas.fill_rect(Rect::new(8.0, 0.0, 9.0, 9.0), Color::WHITE), Ok(0));
    canvas.push_clip(Rect::new(5.0, 3.0, 9.0, 9.0)).unwrap();
    assert_eq!(canvas.fill_rect(area, Color::rgb(9, 9, 9)), Ok(2));
    canvas.push_clip(Rect::default()).unwrap();
    assert_eq!(canvas.fill_rect(area, Color::BLACK), Ok(0));
    assert_eq!(canvas.px().iter().filter(|p| **p == 0x09_0909).count(), 2);
}

/// Each line has 10 columns of 3 pixels, and they share columns 6 to 9. Where the first covers wholly, in columns 6 and 7 and the middle of
/// 8, black over black alters nothing; the 5 others of 8 and 9 alter once more.
#[test]
fn a_covering_joint_by_hand() {
    let mut canvas = black(16, 5);
    canvas.clear(Color::WHITE).unwrap();
    let before = canvas.clone();
    assert_eq!(canvas.polyline(&[2.0, 8.0, 14.0].map(|x| Pt::new(x, 2.5)), 3.0, Color::BLACK), Ok(30 + 30 - 6 - 1));
    assert_eq!(altered_since(&before, &canvas), 3 * 16);
    assert_eq!(canvas.polyline(&[Pt::new(2.0, 2.5)], 3.0, Color::WHITE), Ok(0));
    assert_eq!(canvas.polyline(&[], 3.0, Color::WHITE), Ok(0));
}

/// One more than 32 bits hold: 1,024 fills, each of which alters every pixel of the largest canvas.
#[test]
fn steps_past_32_bits() {
    let mut b = SheetBuilder::new(2048, 2048, Color::BLACK).unwrap();
    for i in 0..1024 {
        b.fill_rect(Rect::new(0.0, 0.0, 2048.0, 2048.0), if i % 2 == 0 { Color::WHITE } else { Color::BLACK }).unwrap();
    }
    let altered = Altered { area: IRect::new(0, 0, 2048, 2048), steps: 1 << 32, grounded: 0 };
    assert_eq!(Ticket::paint(&b).unwrap().altered(), altered);
}

/// An item of a sheet.
enum Item {
    Push(Rect),
    Pop,
    Draw(Shape),
}

/// A sheet with its ground and items, as values.
struct Sheet {
    b: SheetBuilder,
    ground: Color,
    items: Vec<Item>,
}

impl Sheet {
    /// Random items, as far as a builder takes them.
    fn random(random: &mut Random) -> Sheet {
        let ground = if random.below(4) == 0 { Color::BLACK } else { random.color() };
        let mut b = SheetBuilder::new(1 + random.below(40) as u32, 1 + random.below(30) as u32, ground).unwrap();
        let mut items = vec![];
        for _ in 0..1 + random.below(16) {
            let item = match random.below(8) {
                0 => Item::Push(clip(random)),
                1 => Item::Pop,
                _ => Item::Draw(random.shape()),
            };
            let added = match &item {
                Item::Push(rect) => b.push_clip(*rect),
                Item::Pop => b.pop_clip(),
                Item::Draw(shape) => b.add(shape),
            };
            items.extend(added.is_ok().then_some(item));
        }
        Sheet { b, ground, items }
    }

    /// What drawing it on its ground alters within a box, over pixels that held these words.
    fn altered(&self, held: &[u32], area: IRect) -> Altered {
        let mut canvas = Canvas::new(self.b.width() as i32, self.b.height() as i32).unwrap();
        canvas.clear(self.ground).unwrap();
        let mut altered = Altered { area, steps: 0, grounded: differing(held, canvas.px(), canvas.width(), area) };
        for item in &self.items {
            match item {
                Item::Push(rect) => canvas.push_clip(*rect).unwrap(),
                Item::Pop => canvas.pop_clip().unwrap(),
                Item::Draw(shape) => altered.steps += steps(&mut canvas, shape, area),
            }
        }
        altered
    }
}

/// Of a painting in the whole canvas, over zeros; of a patch in its box, over the pixels that the ticket had. What is refused leaves the
/// counts of the call before.
#[test]
fn paintings_and_patches_count_shape_after_shape() {
    let mut random = Random(10);
    let (mut patched, mut not, mut empty, mut most) = (0, 0, 0, 0);
    for _ in 0..300 {
        let mut sheet = Sheet::random(&mut random);
        let mut ticket = Ticket::paint(&sheet.b).unwrap();
        let whole = IRect::new(0, 0, ticket.width() as i32, ticket.height() as i32);
        assert_eq!(ticket.altered(), sheet.altered(&vec![0; ticket.px().len()], whole));
        for _ in 0..8 {
            let (index, shape, before) = (random.below(sheet.items.len() as u64 + 1) as usize, random.shape(), ticket.clone());
            match ticket.replace(index, shape.clone()) {
                Ok(altered) => {
                    sheet.items[index] = Item::Draw(shape);
                    assert_eq!(altered, sheet.altered(before.px(), altered.area));
                    assert_eq!(ticket.altered(), altered);
                    (patched, empty, most) = (patched + 1, empty + altered.area.is_empty() as u32, most.max(altered.steps));
                }
                Err(_) => {
                    not += 1;
                    assert_eq!(ticket.altered(), before.altered());
                }
            }
        }
    }
    assert!(patched > 1000 && not > 100 && empty > 50 && most > 2000, "{patched} {not} {empty} {most}");
}

/// In each patch every shape whose reach meets the box alters every pixel of it, and so does each line of the trace; the fill at columns 4 and 5
/// does not meet columns 6 and 7. The ground alters every pixel too.
#[test]
fn a_patch_takes_as_many_steps_as_its_ceiling() {
    let fill = |x: f32, w: f32, h: f32, color: Color| Shape::fill_rect(Rect::new(x, 0.0, w, h), color);
    let trace = Shape::polyline(&[1.0, 3.0, 5.0, 7.0].map(|x| Pt::new(x, 2.0)), 64.0, Color::rgba(0, 0, 0, 128));
    let mut b = SheetBuilder::new(8, 4, Color::BLACK).unwrap();
    for shape in [fill(0.0, 8.0, 4.0, Color::WHITE), fill(0.0, 8.0, 4.0, Color::rgb(200, 0, 0)), trace] {
        b.add(&shape).unwrap();
    }
    let (shapes, lines) = (2, 3);
    let altered = Altered { area: IRect::new(0, 0, 8, 4), steps: (shapes + lines) * 8 * 4, grounded: 8 * 4 };
    assert_eq!(Ticket::paint(&b).unwrap().replace(1, fill(0.0, 8.0, 4.0, Color::rgb(0, 200, 0))), Ok(altered));

    b.add(&fill(4.0, 2.0, 1.0, Color::WHITE)).unwrap();
    let last = b.add(&fill(6.0, 2.0, 1.0, Color::WHITE)).unwrap();
    let mut ticket = Ticket::paint(&b).unwrap();
    let altered = Altered { area: IRect::new(6, 0, 8, 1), steps: (shapes + lines + 1) * 2, grounded: 2 };
    assert_eq!(ticket.replace(last, fill(6.0, 2.0, 1.0, Color::rgb(0, 0, 200))), Ok(altered));
    assert_eq!(ticket.patch(ticket.sheet().to_vec()), Ok(Altered::default()));
}

#[test]
fn altered_is_of_the_call_accepted_last() {
    let at = |x: f32| Shape::fill_rect(Rect::new(x, 0.0, 2.0, 1.0), Color::WHITE);
    let mut b = SheetBuilder::new(8, 1, Color::rgb(1, 2, 3)).unwrap();
    b.add(&at(0.0)).unwrap();
    b.add(&at(1.0)).unwrap();
    let mut ticket = Ticket::paint(&b).unwrap();
    let painted = Altered { area: IRect::new(0, 0, 8, 1), steps: 3, grounded: 8 };
    assert_eq!(ticket.altered(), painted);
    assert_eq!(ticket.patch(vec![0; 11]), Err(Refused { refusal: Refusal::SheetLength, item: 0 }));
    assert_eq!(ticket.altered(), painted);

    let patched = Altered { area: IRect::new(0, 0, 6, 1), steps: 4, grounded: 3 };
    assert_eq!(ticket.replace(0, at(4.0)), Ok(patched));
    assert!(ticket.replace(0, at(f32::NAN)).is_err() && ticket.edit(|b| b.add(&at(0.0))).is_err());
    assert_eq!((ticket.altered(), ticket.clone().altered()), (patched, patched));

    assert_eq!(ticket.edit(|_| Ok(())), Ok(Altered::default()));
    assert_eq!(ticket.altered(), Altered::default());
}
