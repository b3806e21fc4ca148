//! The box of a patch by change request 2026-09: around the reaches of the shapes that differ, each cut by the clip in force at its item. Beside
//! it the box of before that request, what a reported box must be whatever the clips are, and boxes by wrong rules, which a run must tell
//! from it.
use crate::{
    item::{around, EMPTY},
    Item, Sheet,
};
use kash::geom::IRect;

/// The places of the items whose bytes differ, in two sheets of one count.
pub fn differing([old, new]: &[Sheet; 2]) -> Vec<usize> {
    let pairs = old.items.iter().zip(&new.items).enumerate();
    pairs.filter(|(_, (a, b))| a.1 != b.1).map(|(i, _)| i).collect()
}

/// A shape's reach: of a chain one box around those of its lines.
fn whole(item: &Item) -> Vec<IRect> {
    vec![item.reach()]
}

/// The smallest box around the reaches of the shapes that differ, old and new, each cut by the clip that its sheet has at it, and to the canvas.
fn hull(sheets: &[Sheet; 2], clips: &[Vec<IRect>; 2], reaches: fn(&Item) -> Vec<IRect>) -> IRect {
    let (canvas, mut area) = (sheets[1].canvas(), EMPTY);
    for i in differing(sheets) {
        for (sheet, clips) in sheets.iter().zip(clips) {
            for reach in reaches(&sheet.items[i].0) {
                area = around(area, reach.intersect(&clips[i]).intersect(&canvas));
            }
        }
    }
    area
}

/// The clips of both sheets, each by its own pushes and pops; which are the same, and so must the clips be.
fn clips(sheets: &[Sheet; 2]) -> [Vec<IRect>; 2] {
    let clips = sheets.each_ref().map(Sheet::clips);
    assert_eq!(clips[0], clips[1], "the clips of two sheets with the same pushes and pops");
    clips
}

/// The box of a patch.
pub fn reported(sheets: &[Sheet; 2]) -> IRect {
    hull(sheets, &clips(sheets), whole)
}

/// The box by the reaches before any clip, as it was before the request.
pub fn unclipped(sheets: &[Sheet; 2]) -> IRect {
    hull(sheets, &sheets.each_ref().map(Sheet::unclipped), whole)
}

/// Whether a push stands before the last item that differs.
pub fn pushed(sheets: &[Sheet; 2]) -> bool {
    let last = differing(sheets).last().copied().unwrap_or(0);
    sheets[1].items[..last].iter().any(|(item, _)| matches!(item, Item::Push(_)))
}

/// Whether a box is four zeros, or has pixels and all of them in another.
fn within(a: IRect, b: IRect) -> bool {
    let inside = b.x0 <= a.x0 && b.y0 <= a.y0 && a.x1 <= b.x1 && a.y1 <= b.y1;
    a == EMPTY || inside && !a.is_empty()
}

/// What is wrong with the box that an accepted patch reports, whatever its clips are; nothing where it lies in that of before the request, and
/// is the same where no push stands before the last shape that differs.
pub fn fault(sheets: &[Sheet; 2], reported: IRect) -> Option<&'static str> {
    let before = unclipped(sheets);
    if !within(reported, before) {
        Some("a box that is not within that of the reaches before any clip")
    } else if !pushed(sheets) && reported != before {
        Some("a box other than that of the reaches, though no push stands before the last shape that differs")
    } else {
        None
    }
}

/// Wrong rules: each must be seen to give another box.
pub const WRONG: [&str; 4] =
    ["the clip after the next item", "the new shape's reach not cut", "a push that forgets the clip before", "each line of a chain cut"];

/// The clips of a sheet where a push forgets the clip before it: its box is cut to the canvas alone.
fn forgetful(sheet: &Sheet) -> Vec<IRect> {
    let (canvas, mut saved) = (sheet.canvas(), vec![]);
    let (mut clip, mut clips) = (canvas, vec![canvas]);
    for (item, _) in &sheet.items {
        match item {
            Item::Push(rect) => {
                saved.push(clip);
                clip = IRect::from_rect_outer(rect).intersect(&canvas);
            }
            Item::Pop => clip = saved.pop().unwrap_or(clip),
            _ => (),
        }
        clips.push(clip);
    }
    clips
}

/// The boxes by the rules of `WRONG`.
pub fn wrong(sheets: &[Sheet; 2]) -> [IRect; WRONG.len()] {
    let clips = clips(sheets);
    let last = clips[1].len() - 1;
    let next = clips.each_ref().map(|of| (0..=last).map(|i| of[(i + 2).min(last)]).collect());
    let new_whole = [clips[0].clone(), sheets[1].unclipped()];
    let forgetful = sheets.each_ref().map(forgetful);
    [hull(sheets, &next, whole), hull(sheets, &new_whole, whole), hull(sheets, &forgetful, whole), hull(sheets, &clips, Item::reaches)]
}
