//! Splitmix64: the same numbers from the same seed, everywhere.

/// The seed of everything that is stored: "Maldjupp" in ASCII.
pub const SEED: u64 = 0x4d61_6c64_6a75_7070;

pub struct Random(pub u64);

impl Random {
    pub fn next(&mut self) -> u64 {
        self.0 = self.0.wrapping_add(0x9e37_79b9_7f4a_7c15);
        let z = (self.0 ^ self.0 >> 30).wrapping_mul(0xbf58_476d_1ce4_e5b9);
        let z = (z ^ z >> 27).wrapping_mul(0x94d0_49bb_1331_11eb);
        z ^ z >> 31
    }
    pub fn word(&mut self) -> u32 {
        (self.next() >> 32) as u32
    }
    pub fn below(&mut self, n: u32) -> u32 {
        (self.word() as u64 * n as u64 >> 32) as u32
    }
    /// Any bit pattern.
    pub fn bits(&mut self) -> f32 {
        f32::from_bits(self.word())
    }
    /// A number from `low` up to `high`, of a size that the canvas meets.
    pub fn within(&mut self, low: f32, high: f32) -> f32 {
        low + (high - low) * (self.word() as f32 / 4294967296.0)
    }
    pub fn of<T: Copy>(&mut self, list: &[T]) -> T {
        list[self.below(list.len() as u32) as usize]
    }
}
