//! The cases of color: document 01's examples, every alpha, every coverage by steps, ends of every fraction; black.
use crate::Stored;
use answers::{
    color::{answer, ALTERED, BLACK, NAMES},
    random::{Random, SEED},
};

const BLEND: u32 = 1;
const BLEND_C: u32 = 2;
const MIX: u32 = 3;
const FRACTIONS: std::ops::Range<u32> = 4..8;
const HSV: u32 = 10;
const MIX_PIX: u32 = 13;

/// Document 01's starred pixels: function, inputs, pixel; and what stands in the high word, by request 2026-05 whether the pixel is another
/// than the first input.
const STARRED: [(u32, [u32; 5], u64, u64); 8] = [
    (BLEND, [0, 127, 127, 127, 1], 0, 0),
    (BLEND, [0, 128, 128, 128, 1], 0x0001_0101, ALTERED),
    (BLEND, [0, 255, 0, 0, 128], 0x0080_0000, ALTERED),
    (BLEND, [0xff12_3456, 9, 9, 9, 0], 0xff12_3456, 0),
    (BLEND, [0xff00_0000, 0, 0, 0, 1], 0, ALTERED),
    (BLEND, [0, 256, 0, 0, 0], 0, 11),
    (BLEND_C, [0, 0x80ff_ffff, 128, 0, 0], 0x0040_4040, ALTERED),
    (MIX, [0xffff_ffff, 0xffff_ffff, 0x7fc0_0000, 0, 0], 0, 0),
];

/// Fractions at the ends, just past them, and none.
const PARTS: [f32; 14] =
    [0.0, -0.0, 1.0, 0.5, 0.25, 0.99999994, 1.0000001, -1.0e-45, 1.0e-45, 2.0, -1.0, f32::INFINITY, f32::NEG_INFINITY, f32::NAN];

/// Hues at the ends of the six sectors, around the circle's end and far outside.
const HUES: [f32; 16] = [
    0.0, -0.0, 60.0, 120.0, 180.0, 240.0, 300.0, 359.99997, 360.0, -60.0, -1.0e-30, 720.5, 1.0e30, f32::INFINITY, f32::NEG_INFINITY, f32::NAN,
];

struct Cases(Vec<Vec<u32>>);

impl Cases {
    fn add(&mut self, f: u32, inputs: [u32; 5]) {
        let r = answer(f, inputs);
        let mut case = vec![f];
        case.extend(inputs);
        case.extend([r as u32, (r >> 32) as u32]);
        self.0.push(case);
    }
}

fn blends(cases: &mut Cases, random: &mut Random) {
    for a in 0..=300 {
        for _ in 0..8 {
            let byte = |random: &mut Random| {
                let any = random.below(256);
                random.of(&[0, 1, 127, 128, 254, 255, any])
            };
            let (r, g, b) = (byte(random), byte(random), byte(random));
            cases.add(BLEND, [random.word(), r, g, b, a]);
        }
        let mut inks = [255, 255, 255];
        inks[a as usize % 3] = random.of(&[256, 257, 0xffff_ffff]);
        cases.add(BLEND, [random.word(), inks[0], inks[1], inks[2], a]);
    }
    for a in 0..256 {
        for cov in [0, 1, 2, 127, 128, 129, 254, 255, 256, 0xffff_ffff, random.below(256), random.below(256)] {
            let ink = random.word() & 0x00ff_ffff | a << 24;
            cases.add(BLEND_C, [random.word(), ink, cov, 0, 0]);
        }
    }
}

fn mixes(cases: &mut Cases, random: &mut Random) {
    for _ in 0..10 {
        for t in PARTS {
            cases.add(MIX, [random.word(), random.word(), t.to_bits(), 0, 0]);
            for f in FRACTIONS {
                cases.add(f, [random.word(), t.to_bits(), 0, 0, 0]);
            }
        }
        for t in [0, 1, 127, 128, 255, 256, 257, 0xffff_ffff] {
            cases.add(MIX_PIX, [random.word(), random.word(), t, 0, 0]);
        }
    }
    for i in 0..500 {
        let t = random.within(-0.1, 1.1).to_bits();
        cases.add(MIX, [random.word(), random.word(), t, 0, 0]);
        cases.add(FRACTIONS.start + i % 4, [random.word(), t, 0, 0, 0]);
        cases.add(MIX_PIX, [random.word(), random.word(), random.below(257), 0, 0]);
    }
    for f in [8, 9, 11, 12] {
        for w in [0, 0xffff_ffff, 0x00ff_ffff, 0xff00_0000, 0x0012_3456].into_iter().chain((0..120).map(|_| random.word())) {
            cases.add(f, [w, 0, 0, 0, 0]);
        }
    }
}

fn hues(cases: &mut Cases, random: &mut Random) {
    for h in HUES {
        for s in [0.0f32, 0.5, 1.0, f32::NAN] {
            for v in [0.0f32, 0.7, 1.0, 2.0] {
                cases.add(HSV, [h.to_bits(), s.to_bits(), v.to_bits(), 0, 0]);
            }
        }
    }
    for _ in 0..500 {
        let (s, v) = (random.within(0.0, 1.0), random.within(0.0, 1.0));
        cases.add(HSV, [random.within(-720.0, 720.0).to_bits(), s.to_bits(), v.to_bits(), 0, 0]);
        cases.add(HSV, [random.word(), s.to_bits(), v.to_bits(), 0, 0]);
    }
}

pub fn stored() -> Stored {
    let mut random = Random(SEED + 1);
    let mut cases = Cases(vec![]);
    for (f, inputs, pixel, high) in STARRED {
        assert_eq!(answer(f, inputs), pixel | high << 32, "{} of {inputs:x?}", NAMES[f as usize - 1]);
        cases.add(f, inputs);
    }
    blends(&mut cases, &mut random);
    mixes(&mut cases, &mut random);
    hues(&mut cases, &mut random);
    cases.add(BLACK, [0; 5]);
    Stored { functions: 1..=NAMES.len() as u32, width: 8, cases: cases.0 }
}
