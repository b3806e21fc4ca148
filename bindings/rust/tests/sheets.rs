//! The builder and the ticket against the library, on random calls. `Plain` writes the format without any limit.
use maldjupp::{room, Altered, Color, Error, IRect, Paint, Pt, Rect, Refusal, Refused, Shape, SheetBuilder, SheetError, Ticket};
use random::Random;
use std::{fs, path::Path};

mod random;

/// A sheet without limits, as far as two bytes hold its numbers.
#[derive(Clone)]
struct Plain {
    w: u16,
    h: u16,
    ground: [u8; 3],
    items: Vec<Vec<u8>>,
}

fn floats(values: &[f32]) -> Vec<u8> {
    values.iter().flat_map(|v| v.to_bits().to_le_bytes()).collect()
}

fn ink(c: Color) -> [u8; 4] {
    [c.r, c.g, c.b, c.a]
}

fn paint(p: &Paint) -> Vec<u8> {
    let (kind, c0, c1, values) = match *p {
        Paint::Solid(c) => (0, c, Color::rgba(0, 0, 0, 0), vec![]),
        Paint::VGrad { y0, y1, c0, c1 } => (1, c0, c1, vec![y0, y1]),
        Paint::Linear { p0, p1, c0, c1 } => (2, c0, c1, vec![p0.x, p0.y, p1.x, p1.y]),
        Paint::Radial { c, r, c0, c1 } => (3, c0, c1, vec![c.x, c.y, r]),
    };
    let zeros = vec![0; 16 - 4 * values.len()];
    [vec![kind, 0, 0, 0], ink(c0).to_vec(), ink(c1).to_vec(), floats(&values), zeros].concat()
}

fn clip(r: Rect) -> Vec<u8> {
    [vec![1, 0, 0, 0], floats(&[r.x, r.y, r.w, r.h])].concat()
}

fn shape(s: &Shape) -> Vec<u8> {
    let rounded = |rect: &Rect, rest: &[f32]| [floats(&[rect.x, rect.y, rect.w, rect.h]), floats(rest)].concat();
    let flat = |points: &[Pt]| floats(&points.iter().flat_map(|p| [p.x, p.y]).collect::<Vec<_>>());
    match s {
        Shape::Fill { rect, r, paint: p } => [vec![3, 0, 0, 0], rounded(rect, &[*r]), paint(p)].concat(),
        Shape::Stroke { rect, r, width, color } => [vec![4, 0, 0, 0], rounded(rect, &[*r, *width]), ink(*color).to_vec()].concat(),
        Shape::Line { a, b, width, color } => {
            [vec![5, 0, 0, 0], floats(&[a.x, a.y, b.x, b.y, *width]), ink(*color).to_vec()].concat()
        }
        Shape::Poly { points, paint: p } => [vec![6, 0, points.len() as u8, 0], paint(p), flat(points)].concat(),
        Shape::Shadow { rect, r, blur, color, skip_inside } => {
            [vec![7, *skip_inside as u8, 0, 0], rounded(rect, &[*r, *blur]), ink(*color).to_vec()].concat()
        }
        Shape::Polyline { points, width, color } => {
            [vec![8, 0, points.len() as u8, 0], floats(&[*width]), ink(*color).to_vec(), flat(points)].concat()
        }
    }
}

impl Plain {
    fn bytes(&self) -> Vec<u8> {
        let [w, h] = [self.w, self.h].map(u16::to_le_bytes);
        let [r, g, b] = self.ground;
        let count = (self.items.len() as u16).to_le_bytes();
        let mut sheet = vec![w[0], w[1], h[0], h[1], r, g, b, 0, count[0], count[1], 0, 0];
        let mut at = 12 + 4 * self.items.len();
        for item in &self.items {
            sheet.extend((at as u16).to_le_bytes());
            sheet.extend((item.len() as u16).to_le_bytes());
            at += item.len();
        }
        sheet.extend(self.items.concat());
        sheet
    }

    fn with(&self, item: Vec<u8>) -> Plain {
        let mut longer = self.clone();
        longer.items.push(item);
        longer
    }
}

fn start(random: &mut Random) -> (SheetBuilder, Plain) {
    let (w, h) = (1 + random.below(40), 1 + random.below(30));
    let ground = random.color();
    let plain = Plain { w: w as u16, h: h as u16, ground: [ground.r, ground.g, ground.b], items: vec![] };
    (SheetBuilder::new(w as u32, h as u32, ground).unwrap(), plain)
}

/// Adds an item to both. What the builder takes is what `Plain` writes; what it does not take, the library refuses by the same number.
fn add(b: &mut SheetBuilder, plain: &mut Plain, random: &mut Random, refused: &mut [u32; 14]) {
    let before = b.clone();
    let (added, item) = match random.below(12) {
        0..=3 => {
            let rect = random.rect();
            (b.push_clip(rect), clip(rect))
        }
        4 => (b.pop_clip(), vec![2, 0, 0, 0]),
        _ => {
            let s = random.shape();
            (b.add(&s), shape(&s))
        }
    };
    let longer = plain.with(item);
    match added {
        Ok(index) => {
            assert_eq!(index, plain.items.len());
            *plain = longer;
            assert_eq!(b.bytes(), plain.bytes());
        }
        Err(error) => {
            assert_eq!(*b, before);
            let refusal = error.refusal().expect("a refusal of the library");
            refused[refusal.number() as usize] += 1;
            let item = if matches!(refusal, Refusal::SheetLength | Refusal::Header) { 0 } else { longer.items.len() as u32 };
            assert_eq!(room(&longer.bytes()), Err(Refused { refusal, item }), "{error}");
            assert_eq!(Ticket::from_bytes(longer.bytes()).unwrap_err(), Refused { refusal, item }, "{error}");
        }
    }
}

#[test]
fn the_builder_refuses_what_the_library_refuses() {
    let mut random = Random(1);
    let mut refused = [0; 14];
    for _ in 0..600 {
        let (mut b, mut plain) = start(&mut random);
        for _ in 0..random.below(60) {
            add(&mut b, &mut plain, &mut random, &mut refused);
        }
        let ticket = Ticket::paint(&b).expect("a builder's sheet is accepted");
        assert_eq!(ticket.sheet(), b.bytes());
        assert_eq!(ticket.builder(), b);
    }
    for number in [6, 7, 13] {
        assert!(refused[number] > 10, "{refused:?}");
    }
}

#[test]
fn an_edited_ticket_is_a_fresh_one() {
    let mut random = Random(2);
    let (mut patched, mut not) = (0, 0);
    for _ in 0..200 {
        let (mut b, mut plain) = start(&mut random);
        for _ in 0..1 + random.below(24) {
            add(&mut b, &mut plain, &mut random, &mut [0; 14]);
        }
        let mut ticket = Ticket::paint(&b).unwrap();
        for _ in 0..20 {
            let before = ticket.clone();
            let shapes: Vec<_> = (0..1 + random.below(3)).map(|_| (random.below(b.items() as u64 + 1) as usize, random.shape())).collect();
            match ticket.edit(|b| shapes.iter().try_for_each(|(index, shape)| b.replace(*index, shape))) {
                Ok(altered) => {
                    patched += 1;
                    let place = |i: usize| ((i % ticket.width()) as i32, (i / ticket.width()) as i32);
                    let changed = |i: &usize| ticket.px()[*i] != before.px()[*i];
                    assert!((0..ticket.px().len()).filter(changed).map(place).all(|(x, y)| altered.area.contains(x, y)));
                }
                Err(error) => {
                    not += 1;
                    assert!(matches!(error, Error::Sheet(_)), "{error}");
                    assert_eq!((ticket.px(), ticket.sheet()), (before.px(), before.sheet()));
                }
            }
            assert_eq!(ticket.px(), Ticket::paint(&ticket.builder()).unwrap().px());
        }
    }
    assert!(patched > 1000 && not > 100, "{patched} {not}");
}

fn black(w: u32, h: u32) -> SheetBuilder {
    SheetBuilder::new(w, h, Color::BLACK).unwrap()
}

#[test]
fn sides() {
    for (w, h) in [(0, 1), (1, 0), (2049, 1), (1, 2049), (65_537, 1)] {
        assert_eq!(SheetBuilder::new(w, h, Color::BLACK), Err(SheetError::Sides { w, h }));
    }
    let ticket = Ticket::paint(&black(2048, 2048)).unwrap();
    assert_eq!((ticket.width(), ticket.height(), ticket.px().len()), (2048, 2048, 2048 * 2048));
}

#[test]
fn the_most_items() {
    let mut b = black(4, 1);
    for _ in 0..1024 {
        b.pop_clip().unwrap();
    }
    assert_eq!(b.pop_clip(), Err(SheetError::Items));
    assert_eq!(b.fill_rect(Rect::default(), Color::WHITE), Err(SheetError::Items));
    assert!(Ticket::paint(&b).is_ok());
    let plain = Plain { w: 4, h: 1, ground: [0; 3], items: vec![vec![2, 0, 0, 0]; 1025] };
    assert_eq!(Ticket::from_bytes(plain.bytes()).unwrap_err(), Refused { refusal: Refusal::Header, item: 0 });
}

#[test]
fn the_most_bytes() {
    let mut b = black(4, 1);
    let points = [Pt::new(0.5, 0.5); 64];
    for _ in 0..108 {
        b.fill_poly(&points, Color::WHITE).unwrap();
    }
    b.fill_poly(&[], Color::WHITE).unwrap();
    for _ in 0..96 {
        b.pop_clip().unwrap();
    }
    assert_eq!(b.bytes().len(), 60_000);
    assert_eq!(b.pop_clip(), Err(SheetError::Length { bytes: 60_008 }));
    assert_eq!(b.replace(108, &Shape::fill_poly(&[Pt::default()], Color::WHITE)), Err(SheetError::Length { bytes: 60_008 }));
    let mut ticket = Ticket::paint(&b).unwrap();
    assert!(ticket.replace(0, Shape::fill_poly(&[], Color::WHITE)).is_ok());
    assert_eq!(ticket.patch(vec![0; 60_001]).unwrap_err().refusal, Refusal::SheetLength);
}

#[test]
fn clips_and_points() {
    let mut b = black(4, 1);
    for _ in 0..16 {
        b.push_clip(Rect::new(0.0, 0.0, 4.0, 1.0)).unwrap();
    }
    assert_eq!(b.push_clip(Rect::default()), Err(SheetError::Clips));
    assert_eq!(b.replace(3, &Shape::ring(1.0, 1.0, 1.0, 1.0, Color::WHITE)), Err(SheetError::NotAShape { index: 3 }));
    b.pop_clip().unwrap();
    b.push_clip(Rect::default()).unwrap();
    assert_eq!(b.replace(18, &Shape::fill_rect(Rect::default(), Color::WHITE)), Err(SheetError::NoItem { index: 18, count: 18 }));
    assert_eq!(b.fill_poly(&[Pt::default(); 65], Color::WHITE), Err(SheetError::Points { count: 65 }));
    assert!(b.fill_poly(&[Pt::default(); 64], Color::WHITE).is_ok());
}

/// Circles and rings are the squares that kash-ui's wrappers make; the limit holds for those.
#[test]
fn circles_are_squares() {
    let (mut round, mut square) = (black(40, 40), black(40, 40));
    round.fill_circle(20.5, 19.25, 12.5, Color::WHITE).unwrap();
    round.ring(20.0, 20.0, 15.0, 3.0, Color::rgba(9, 90, 200, 128)).unwrap();
    square.fill_rrect(Rect::new(8.0, 6.75, 25.0, 25.0), 12.5, Color::WHITE).unwrap();
    square.stroke_rrect(Rect::new(5.0, 5.0, 30.0, 30.0), 15.0, 3.0, Color::rgba(9, 90, 200, 128)).unwrap();
    assert_eq!(round.bytes(), square.bytes());
    assert_eq!(round.fill_circle(0.0, 0.0, 4097.0, Color::WHITE), Err(SheetError::Float { field: "w", value: 8194.0 }));
    assert!(round.fill_circle(8192.0, 0.0, 4096.0, Color::WHITE).is_ok());
    let error = round.ring(f32::NAN, 0.0, 1.0, 1.0, Color::WHITE).unwrap_err();
    assert_eq!(error.to_string(), "x is NaN; it must be finite");
}

#[test]
fn pixels_of_the_document() {
    let mut b = black(2, 1);
    b.fill_rect(Rect::new(0.5, 0.0, 1.0, 1.0), Color::WHITE).unwrap();
    let ticket = Ticket::paint(&b).unwrap();
    assert_eq!(ticket.px(), [0x0080_8080; 2]);
    assert_eq!(ticket.to_ppm(), [&b"P6\n2 1\n255\n"[..], &[128; 6]].concat());
    let mut b = black(1, 1);
    b.fill_rect(Rect::new(-9.0, -9.0, 20.0, 20.0), Color::rgba(255, 0, 0, 128)).unwrap();
    assert_eq!(Ticket::paint(&b).unwrap().px(), [0x0080_0000]);
}

#[test]
fn edits_of_shapes() {
    let mut b = black(8, 1);
    let at = |x: f32| Shape::fill_rect(Rect::new(x, 0.0, 1.0, 1.0), Color::WHITE);
    b.add(&at(0.0)).unwrap();
    b.add(&at(2.0)).unwrap();
    let mut ticket = Ticket::paint(&b).unwrap();
    let refused = |refusal| Err(Error::Refused(Refused { refusal, item: 0 }));
    let altered = |x1: i32, steps: u64, grounded: u64| Ok(Altered { area: IRect::new(0, 0, x1, 1), steps, grounded });
    assert_eq!(ticket.edit(|b| b.replace(0, &at(1.0)).and(b.replace(1, &at(3.0)))), altered(4, 2, 2));
    assert_eq!(ticket.px(), [0, 0xFF_FFFF, 0, 0xFF_FFFF, 0, 0, 0, 0]);
    assert_eq!(ticket.edit(|b| b.replace(0, &at(0.0)).and(b.replace(1, &at(2.0)))), altered(4, 2, 2));
    assert_eq!(ticket.edit(|b| b.add(&at(1.0))), refused(Refusal::Difference));
    assert_eq!(ticket.edit(|b| b.replace(0, &at(0.0))), Ok(Altered::default()));
    assert_eq!(ticket.edit(|b| b.replace(7, &at(1.0))), Err(Error::Sheet(SheetError::NoItem { index: 7, count: 2 })));
    assert_eq!(ticket.replace(0, at(5.0)), altered(6, 2, 2));
    assert_eq!(ticket.px(), [0, 0, 0xFF_FFFF, 0, 0, 0xFF_FFFF, 0, 0]);

    let mut b = black(8, 1);
    for _ in 0..33 {
        b.add(&at(0.0)).unwrap();
    }
    let mut ticket = Ticket::paint(&b).unwrap();
    let moved = |n: usize, x: f32| move |b: &mut SheetBuilder| (0..n).try_for_each(|i| b.replace(i, &at(x)));
    assert_eq!(ticket.edit(moved(33, 4.0)), refused(Refusal::Many));
    assert_eq!(ticket.edit(moved(32, 4.0)), altered(5, 2, 1));
    assert_eq!(ticket.px(), Ticket::paint(&ticket.builder()).unwrap().px());
}

#[test]
fn every_number_has_its_sentence() {
    for refusal in Refusal::ALL {
        assert_eq!(Refusal::of(refusal.number()), Some(refusal));
        assert!(refusal.sentence().ends_with('.'));
    }
    let numbers: Vec<u32> = Refusal::ALL.map(Refusal::number).to_vec();
    assert_eq!(numbers, [1, 2, 3, 4, 5, 6, 7, 8, 9, 10, 11, 12, 13, 14, 15, 19, 20, 21, 22, 23]);
    assert_eq!(Refusal::of(0), None);
    assert_eq!(Refusal::of(16), Some(Refusal::Other(16)));
}

/// Any bytes: the answer is a ticket or a refusal, and measuring gives the same refusal.
#[test]
fn damaged_sheets() {
    let mut random = Random(3);
    let mut seen = [0; 14];
    for _ in 0..4000 {
        let (mut b, mut plain) = start(&mut random);
        for _ in 0..1 + random.below(6) {
            add(&mut b, &mut plain, &mut random, &mut [0; 14]);
        }
        let mut sheet = b.bytes();
        for _ in 0..random.below(3) {
            let at = random.below(sheet.len() as u64) as usize;
            sheet[at] = random.word() as u8;
        }
        if random.below(8) == 0 {
            sheet.truncate(random.below(sheet.len() as u64) as usize);
        }
        let told = room(&sheet);
        match Ticket::from_bytes(sheet) {
            Ok(ticket) => {
                seen[0] += 1;
                assert_eq!(ticket.builder().bytes(), ticket.sheet());
                assert_eq!((told.is_ok(), told), (true, ticket.builder().room()));
            }
            Err(refused) => {
                seen[refused.refusal.number() as usize] += 1;
                assert_eq!(told, Err(refused));
            }
        }
    }
    assert!([0, 1, 2, 3, 4, 5, 6].iter().all(|n| seen[*n] > 0) && seen[8] == 0 && seen[9] == 0, "{seen:?}");
}

/// The stored sheets, whose pixels are the unchanged Rust's. A ticket lends what its sheet needs, so 8 and 9 do not come.
#[test]
fn stored_sheets() {
    let folder = Path::new(env!("CARGO_MANIFEST_DIR")).join("../../oracle/stored/paintsheet");
    let mut ran = 0;
    for file in fs::read_dir(folder).unwrap().map(|entry| entry.unwrap().path()) {
        if file.extension().is_some_and(|e| e == "in") {
            let expected = fs::read_to_string(file.with_extension("out")).unwrap();
            let hex = |row: &[u32]| row.iter().map(|p| format!("{p:08X}")).collect::<Vec<_>>().join(" ") + "\n";
            match Ticket::from_bytes(fs::read(&file).unwrap()) {
                Ok(_) if expected.starts_with("refused 8 ") || expected.starts_with("refused 9 ") => {}
                Ok(ticket) => assert!(ticket.px().chunks(ticket.width()).map(hex).collect::<String>() == expected, "{}", file.display()),
                Err(refused) => assert!(refused.to_string().starts_with(expected.trim_end()), "{}", file.display()),
            }
            ran += 1;
        }
    }
    assert!(ran >= 20, "{ran}");
}
