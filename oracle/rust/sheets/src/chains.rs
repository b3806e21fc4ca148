//! What a run has seen of chains: among the shapes that were painted, among the items that were refused, and in the pairs of a patch.
use crate::{float, half, item::CHAIN_WIDTH, Counted, Expected, Item, Sheet, MOST_POINTS};
use kash::geom::Pt;

/// What was counted, and how often it came.
pub type Count = (&'static str, u64);

#[derive(Default)]
pub struct Chains {
    shapes: u64,
    chains: u64,
    /// By their points: 0, 1, 2, 3 to 63, 64.
    points: [u64; 5],
    negative: u64,
    back: u64,
    /// Whose steps altered more often than there are pixels that they altered.
    twice: u64,
    /// By 4, 13, 5, by 6 for the width, by 6 for a point.
    refused: [u64; 5],
    /// Patches in which a chain became another chain, a shorter or longer one, another shape, and another shape a chain.
    pairs: [u64; 4],
}

/// Whether a line of a chain is followed by the same one back.
fn turns_back(points: &[Pt]) -> bool {
    points.windows(3).any(|p| p[0] == p[2] && p[0] != p[1])
}

impl Chains {
    /// The shapes of a sheet that was painted, and how it was counted.
    pub fn painted(&mut self, sheet: &Sheet, counted: &Counted) {
        self.twice += counted.twice;
        for (item, _) in sheet.items.iter().filter(|(item, _)| item.is_shape()) {
            self.shapes += 1;
            if let Item::Chain { width, ink, points } = item {
                self.chains += 1;
                self.points[if points.len() == MOST_POINTS { 4 } else { points.len().min(3) }] += 1;
                self.negative += (*width < 0.0) as u64;
                self.back += (ink.a == 128 && turns_back(points)) as u64;
            }
        }
    }

    /// The item for which a sheet was refused, where it is a chain.
    pub fn refused(&mut self, sheet: &[u8], expected: &Expected) {
        if expected.item == 0 {
            return;
        }
        let pair = 8 + 4 * expected.item as usize;
        let (at, length) = (half(sheet, pair), half(sheet, pair + 2));
        if length == 0 || sheet[at] != 8 {
            return;
        }
        self.refused[match expected.number {
            4 => 0,
            13 => 1,
            5 => 2,
            _ if !(float(sheet, at + CHAIN_WIDTH).abs() <= 8192.0) => 3,
            _ => 4,
        }] += 1;
    }

    /// A patch that was accepted: each sort of pair that differs in it counts once.
    pub fn patched(&mut self, old: &Sheet, new: &Sheet) {
        let differ = old.items.iter().zip(&new.items).map(|(a, b)| (&a.1, &b.1)).filter(|(a, b)| a != b);
        let mut seen = [false; 4];
        for (a, b) in differ {
            match (a[0] == 8, b[0] == 8) {
                (true, true) => (seen[0], seen[1]) = (true, seen[1] || a.len() != b.len()),
                (true, false) => seen[2] = true,
                (false, true) => seen[3] = true,
                (false, false) => (),
            }
        }
        (0..4).for_each(|i| self.pairs[i] += seen[i] as u64);
    }

    /// What paintings must have shown.
    pub fn paintings(&self) -> Vec<Count> {
        let points = ["of 0 points", "of 1 point", "of 2 points", "of 3 to 63 points", "of 64 points"];
        let refused = ["refused by 4", "refused by 13", "refused by 5", "refused by 6, width", "refused by 6, point"];
        let others = [("of negative width", self.negative), ("turning back at alpha 128", self.back), self.counted_twice()];
        points.into_iter().zip(self.points).chain(others).chain(refused.into_iter().zip(self.refused)).collect()
    }

    /// What accepted patches must have shown.
    pub fn patches(&self) -> Vec<Count> {
        let pairs = ["chain to chain", "chain to a longer or shorter one", "chain to another shape", "another shape to chain"];
        pairs.into_iter().zip(self.pairs).chain([self.counted_twice()]).collect()
    }

    fn counted_twice(&self) -> Count {
        ("with a pixel counted twice", self.twice)
    }

    /// How many of the painted shapes were chains.
    pub fn share(&self) -> String {
        format!("{} chains of {} shapes, {:.1} %", self.chains, self.shapes, 100.0 * self.chains as f64 / self.shapes.max(1) as f64)
    }
}

/// Prints counts of chains, or of patches with chains, where `told`, and answers what never came.
pub fn unseen(counts: &[Count], told: bool) -> Vec<&'static str> {
    for (name, times) in counts.iter().filter(|_| told) {
        println!("chains: {name:32} {times:>9}");
    }
    counts.iter().filter(|(_, times)| *times == 0).map(|(name, _)| *name).collect()
}
