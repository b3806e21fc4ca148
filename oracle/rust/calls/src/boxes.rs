//! What a run has seen of the boxes of accepted patches, change request 2026-09: by the boxes that the library itself returned.
use kash::geom::{IRect, Rect};
use sheets::{
    boxes::{differing, pushed, unclipped, wrong, WRONG},
    ceiling::area,
    columns::{is_column, is_narrow},
    item::EMPTY,
    Item, Sheet,
};

/// Under how many narrow clips a shape may stand, so that it counts as one under such.
const CLIPS: [&str; 3] = ["under one narrow clip", "under two narrow clips", "under three narrow clips"];

/// What a clip may leave of a pair that has a reach on the canvas: nothing of old and new, nothing of one of them.
const HIDDEN: [&str; 3] = ["hidden, old and new", "hidden, old alone", "hidden, new alone"];

#[derive(Default)]
pub struct Boxes {
    /// Shapes that differ in accepted patches, those of `CLIPS`, those under one to three clips of few columns, and those of `HIDDEN`.
    shapes: u64,
    narrow: [u64; CLIPS.len()],
    columns: u64,
    hidden: [u64; HIDDEN.len()],
    /// Accepted patches whose box is that of the reaches before any clip, those of them with a push before the last shape that differs, those
    /// whose box is smaller, and those of them whose box is empty.
    equal: u64,
    equal_pushed: u64,
    smaller: u64,
    empty: u64,
    /// The pixels of all boxes, and of those before any clip.
    pixels: [u64; 2],
    /// Patches in which each of `WRONG` gives another box.
    told: [u64; WRONG.len()],
}

/// How many pushes that pass a test are in force at each item.
fn in_force(sheet: &Sheet, test: fn(&Rect, [i32; 2]) -> bool) -> Vec<usize> {
    let sides = [sheet.w as i32, sheet.h as i32];
    let (mut saved, mut at) = (Vec::<bool>::new(), vec![]);
    for (item, _) in &sheet.items {
        at.push(saved.iter().filter(|passes| **passes).count());
        match item {
            Item::Push(rect) => saved.push(test(rect, sides)),
            Item::Pop => _ = saved.pop(),
            _ => (),
        }
    }
    at
}

/// Which of `HIDDEN` a pair is under a clip; none where the clip leaves something of both, or one has no reach on the canvas in any case.
fn hiding(reaches: [IRect; 2], clip: IRect, canvas: IRect) -> Option<usize> {
    let on_canvas = reaches.map(|reach| !reach.intersect(&canvas).is_empty());
    let seen = reaches.map(|reach| !reach.intersect(&clip).is_empty());
    match (on_canvas, seen) {
        ([true, _] | [_, true], [false, false]) => Some(0),
        ([true, _], [false, true]) => Some(1),
        ([_, true], [true, false]) => Some(2),
        _ => None,
    }
}

impl Boxes {
    fn pairs(&mut self, sheets: &[Sheet; 2]) {
        let [old, new] = sheets;
        let (narrow, columns, clips) = (in_force(new, is_narrow), in_force(new, is_column), new.clips());
        for i in differing(sheets) {
            self.shapes += 1;
            if (1..=CLIPS.len()).contains(&narrow[i]) {
                self.narrow[narrow[i] - 1] += 1;
            }
            self.columns += (1..=CLIPS.len()).contains(&columns[i]) as u64;
            if let Some(which) = hiding([old.items[i].0.reach(), new.items[i].0.reach()], clips[i], new.canvas()) {
                self.hidden[which] += 1;
            }
        }
    }

    /// An accepted patch from an old sheet to a new one, with the box that it reported.
    pub fn add(&mut self, sheets: &[Sheet; 2], reported: IRect) {
        self.pairs(sheets);
        let before = unclipped(sheets);
        if reported == before {
            self.equal += 1;
            self.equal_pushed += pushed(sheets) as u64;
        } else {
            self.smaller += 1;
            self.empty += (reported == EMPTY) as u64;
        }
        self.pixels[0] += area(reported);
        self.pixels[1] += area(before);
        for (told, other) in self.told.iter_mut().zip(wrong(sheets)) {
            *told += (other != reported) as u64;
        }
    }

    /// Prints what was seen where `told`, and what came too seldom in so many calls; answers whether anything did.
    pub fn lack(&self, calls: u64, told: bool) -> bool {
        let under: u64 = self.narrow.iter().sum();
        if told {
            println!("boxes: {} shapes differ in accepted patches, {under} of them under one to three narrow clips", self.shapes);
            println!("boxes: {} of all that differ under one to three clips of few columns", self.columns);
            for (name, times) in CLIPS.iter().zip(self.narrow).chain(HIDDEN.iter().zip(self.hidden)) {
                println!("boxes: shapes {name:40} {times:>9}");
            }
            println!("boxes: {} patches with a smaller box than before any clip, {} of them with an empty one", self.smaller, self.empty);
            println!("boxes: {} patches with the same box, {} of them after a push", self.equal, self.equal_pushed);
            println!("boxes: {} pixels, {} before any clip", self.pixels[0], self.pixels[1]);
            for (name, times) in WRONG.iter().zip(self.told) {
                println!("boxes: another with {name:40} {times:>9}");
            }
        }
        let patches = [("a smaller box", self.smaller, 10), ("the same box", self.equal, 10), ("an empty box under a clip", self.empty, 1_000)];
        let each = patches.into_iter().chain(HIDDEN.iter().zip(self.hidden).map(|(name, times)| (*name, times, 1_000)));
        let seldom = each.filter(|(_, times, one_in)| *times < calls / one_in);
        let seldom = seldom.inspect(|(name, times, one_in)| println!("{name}: {times} times, less than once in {one_in} calls")).count();
        let few = 3 * self.columns < self.shapes || self.narrow.contains(&0);
        if few {
            let (columns, narrow, shapes) = (self.columns, self.narrow, self.shapes);
            println!("{columns} of {shapes} differing shapes stand under few columns, {narrow:?} under one, two and three narrow clips");
        }
        let never = WRONG.iter().zip(self.told).filter(|(_, times)| *times == 0);
        let never = never.inspect(|(name, _)| println!("no patch has another box with {name}")).count();
        few || seldom + never > 0
    }
}
