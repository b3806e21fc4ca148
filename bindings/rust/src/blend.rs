//! The blend of one pixel.
use crate::{raw, Refusal};

/// A pixel after a blend, as [`blend`] gives it.
#[derive(Clone, Copy, Debug, PartialEq, Eq)]
pub struct Blended {
    /// The pixel, 0x00RRGGBB; at an alpha of 0 the old one, with its uppermost byte.
    pub value: u32,
    /// Whether the value, all 32 bits, differs from the old one.
    pub altered: bool,
}

/// Blends three inks of 0 to 255 over an old pixel, source over: an alpha of 0 leaves the pixel as it is, one of 255 or more gives the inks
/// themselves, and between them each channel is the nearest to the exact mix, with an uppermost byte of 0.
///
/// Refused: [`Refusal::Ink`] for an ink over 255, whatever the alpha.
///
/// ```
/// use maldjupp::{blend, Blended, Refusal};
/// assert_eq!(blend(0, 255, 0, 0, 128)?, Blended { value: 0x0080_0000, altered: true });
/// assert_eq!(blend(0xFF12_3456, 1, 2, 3, 0)?, Blended { value: 0xFF12_3456, altered: false });
/// assert_eq!(blend(0, 256, 0, 0, 0), Err(Refusal::Ink));
/// # Ok::<(), Refusal>(())
/// ```
pub fn blend(old: u32, r: u32, g: u32, b: u32, a: u32) -> Result<Blended, Refusal> {
    let raw::Blended { number, value, altered } = raw::blend(old, r, g, b, a);
    Refusal::of(number).map_or(Ok(Blended { value, altered }), Err)
}

#[cfg(test)]
mod tests {
    use super::*;

    /// Source over by kash-ui's own lines.
    fn plain(old: u32, inks: [u32; 3], a: u32) -> u32 {
        let [r, g, b] = inks;
        if a == 0 {
            return old;
        }
        if a >= 255 {
            return r << 16 | g << 8 | b;
        }
        let channel = |ink: u32, shift: u32| (ink * a + (old >> shift & 255) * (255 - a) + 127) / 255;
        channel(r, 16) << 16 | channel(g, 8) << 8 | channel(b, 0)
    }

    #[test]
    fn values_and_altered_are_those_of_the_rust() {
        let bytes = [0, 1, 2, 63, 127, 128, 129, 200, 254, 255];
        for old in [0, 0x0012_3456, 0xFF12_3456, 0x0001_0203, 0xFF00_0000, 0x00FF_FFFF, u32::MAX, 0x0100_0000] {
            for r in bytes {
                for b in bytes {
                    for a in bytes.into_iter().chain([256, 511, 1 << 16, u32::MAX]) {
                        let value = plain(old, [r, 52, b], a);
                        assert_eq!(blend(old, r, 52, b, a), Ok(Blended { value, altered: value != old }), "{old:x} {r} {b} {a}");
                    }
                }
            }
        }
    }

    /// The starred examples of `blend`, and the uppermost byte, which counts for `altered`.
    #[test]
    fn the_examples() {
        let is = |old, inks: [u32; 3], a, value, altered| {
            assert_eq!(blend(old, inks[0], inks[1], inks[2], a), Ok(Blended { value, altered }));
        };
        is(0, [127, 0, 0], 1, 0, false);
        is(0, [128, 0, 0], 1, 0x0001_0000, true);
        is(0, [255, 0, 0], 128, 0x0080_0000, true);
        is(0xFF12_3456, [9, 9, 9], 0, 0xFF12_3456, false);
        is(0xFF00_0000, [0; 3], 1, 0, true);
        is(0x0012_3456, [0x12, 0x34, 0x56], 255, 0x0012_3456, false);
        is(0x0112_3456, [0x12, 0x34, 0x56], 255, 0x0012_3456, true);
    }

    #[test]
    fn an_ink_over_255_is_refused() {
        for ink in [256, 257, 511, 1 << 16, u32::MAX] {
            for a in [0, 1, 128, 255, 256, u32::MAX] {
                for inks in [[ink, 0, 0], [0, ink, 0], [0, 0, ink], [ink; 3]] {
                    assert_eq!(blend(0x0012_3456, inks[0], inks[1], inks[2], a), Err(Refusal::Ink));
                }
            }
        }
    }
}
