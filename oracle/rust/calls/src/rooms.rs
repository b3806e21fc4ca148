//! What a run has seen of measuring: how often, and of which sorts the accepted sheets were.
use sheets::{Room, Sheet, MOST_SAVED};

#[derive(Default)]
pub struct Rooms {
    measured: u64,
    /// Paintings with just the scratch words that were told, and paintings refused with one fewer.
    pub enough: u64,
    pub fewer: u64,
    /// Accepted sheets with 16 clips saved at once, and those that end with fewer saved than at some moment.
    sixteen: u64,
    lower: u64,
    /// The most clips saved at once, and the most pixels.
    saved: usize,
    pixels: u64,
}

impl Rooms {
    /// A sheet that was measured, if it is accepted, and the room that it must have.
    pub fn measured(&mut self, sheet: Option<&Sheet>, room: &Room) {
        self.measured += 1;
        if let Some(sheet) = sheet {
            self.sixteen += (room.saved == MOST_SAVED) as u64;
            self.lower += (sheet.saved().last() < Some(&room.saved)) as u64;
            self.saved = self.saved.max(room.saved);
            self.pixels = self.pixels.max(room.pixels);
        }
    }

    /// Prints how often each sort came where `told`, and which came too seldom in so many cases; answers whether one did.
    pub fn lack(&self, cases: u64, told: bool) -> bool {
        let wanted = [
            ("painted with just enough words", self.enough, cases / 3),
            ("refused with a word fewer", self.fewer, cases / 300),
            ("with 16 clips saved", self.sixteen, cases / 3_000),
            ("with fewer clips saved at the end", self.lower, cases / 300),
        ];
        for (name, times, _) in wanted.iter().filter(|_| told) {
            println!("rooms: {name:33} {times:>9}");
        }
        let seldom = wanted.into_iter().filter(|(_, times, least)| times < least);
        seldom.inspect(|(name, times, least)| println!("sheets {name}: {times} times, less than {least}")).count() > 0
    }

    /// What was seen, and how often beside what fixed sheets showed.
    pub fn beside(&self, fixed: &Rooms) -> String {
        let sum = |of: fn(&Rooms) -> u64| of(self) + of(fixed);
        let lent = format!("{} painted with just enough words, {} refused with one fewer", sum(|r| r.enough), sum(|r| r.fewer));
        let most = format!("beside the fixed ones at most {} clips saved and {} pixels", self.saved, self.pixels);
        format!("{} sheets measured, {lent}; {most}", sum(|r| r.measured))
    }
}
