//! The ceiling that change request 2026-06 sets on what an accepted patch counts: from its new sheet and the box that it reports. Reaches are cut
//! by the clip in force at their item, as change request 2026-09 has it.
use crate::{Answer, Item, Sheet};
use kash::geom::IRect;

/// The shapes of a sheet whose cut reach meets a box, a chain standing once for each of its lines whose cut reach does; and the box's area.
#[derive(Clone, Copy, Debug, PartialEq)]
pub struct Ceiling {
    pub meeting: u64,
    pub area: u64,
}

/// The pixels of a half-open box, columns times rows.
pub fn area(reported: IRect) -> u64 {
    let side = |from: i32, to: i32| (to - from).max(0) as u64;
    side(reported.x0, reported.x1) * side(reported.y0, reported.y1)
}

/// Whether a pixel lies in both boxes.
pub fn meets(reach: IRect, reported: IRect) -> bool {
    area(reach.intersect(&reported)) > 0
}

/// How many reaches of a sheet's items meet a box, each cut by a clip that its item is given. The reach of a push or a pop is empty.
pub fn meeting_under(sheet: &Sheet, clips: &[IRect], reported: IRect) -> u64 {
    let in_box = |reach: &IRect, clip: &IRect| meets(reach.intersect(clip), reported);
    let of_item = |item: &Item, clip: &IRect| item.reaches().iter().filter(|reach| in_box(reach, clip)).count() as u64;
    sheet.items.iter().zip(clips).map(|((item, _), clip)| of_item(item, clip)).sum()
}

/// How many reaches of a sheet's items meet a box, each cut by the clip in force at its item.
pub fn meeting(sheet: &Sheet, reported: IRect) -> u64 {
    meeting_under(sheet, &sheet.clips(), reported)
}

impl Ceiling {
    pub fn of(sheet: &Sheet, reported: IRect) -> Ceiling {
        Ceiling { meeting: meeting(sheet, reported), area: area(reported) }
    }

    /// The most steps of shapes that may have altered a pixel.
    pub fn steps(&self) -> u64 {
        self.meeting * self.area
    }

    /// What of an accepted patch's counts is above the ceiling; nothing where both are at most it.
    pub fn fault(&self, answer: &Answer) -> Option<&'static str> {
        if self.area == 0 && (answer.steps, answer.grounded) != (0, 0) {
            Some("counts in an empty box")
        } else if answer.steps > self.steps() {
            Some("steps above their ceiling")
        } else if answer.grounded > self.area {
            Some("grounded pixels above the area")
        } else {
            None
        }
    }
}
