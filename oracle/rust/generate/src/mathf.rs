//! The cases of mathf: published values, edges, every exponent, and random patterns.
use crate::Stored;
use answers::{
    mathf::{answer, INPUTS, NAMES},
    random::{Random, SEED},
};

const NAN: u32 = 0x7fc0_0000;
const SQRT: u32 = 1;
const FLOOR: u32 = 2;
const CEIL: u32 = 3;
const SATURATE: u32 = 12;
const CONVERSIONS: std::ops::Range<u32> = 4..8;

/// Values that a document states. Document 01: the root of 2, floor and ceil of -0.5, saturate of NaN. IEEE 754-2019: the root of -0 is
/// -0 and of a negative number a NaN (5.4.1, 7.2); a whole number kept, and a zero's sign (5.9, 6.3). Exact squares and ends of the
/// format follow from its definition.
const PUBLISHED: [(u32, u32, u32); 24] = [
    (SQRT, 0x4000_0000, 0x3fb5_04f3),
    (SQRT, 0x8000_0000, 0x8000_0000),
    (SQRT, 0x0000_0000, 0x0000_0000),
    (SQRT, 0xbf80_0000, NAN),
    (SQRT, 0xff80_0000, NAN),
    (SQRT, 0x8000_0001, NAN),
    (SQRT, 0x7f80_0000, 0x7f80_0000),
    (SQRT, NAN, NAN),
    (SQRT, 0x4080_0000, 0x4000_0000),
    (SQRT, 0x4110_0000, 0x4040_0000),
    (SQRT, 0x0000_0001, 0x1a35_04f3),
    (SQRT, 0x007f_ffff, 0x1fff_ffff),
    (SQRT, 0x0080_0000, 0x2000_0000),
    (SQRT, 0x3f7f_ffff, 0x3f7f_ffff),
    (SQRT, 0x3f80_0001, 0x3f80_0000),
    (SQRT, 0x7f7f_ffff, 0x5f7f_ffff),
    (FLOOR, 0xbf00_0000, 0xbf80_0000),
    (FLOOR, 0x8000_0000, 0x8000_0000),
    (FLOOR, 0x8000_0001, 0xbf80_0000),
    (FLOOR, 0x4b00_0000, 0x4b00_0000),
    (CEIL, 0xbf00_0000, 0x8000_0000),
    (CEIL, 0x0000_0001, 0x3f80_0000),
    (CEIL, 0x8000_0000, 0x8000_0000),
    (SATURATE, NAN, NAN),
];

/// Both zeros, the ends of subnormal and normal numbers, small fractions, ends of integer types, infinities and a NaN.
const EDGES: [f32; 24] = [
    0.0, -0.0, 1.0e-45, -1.0e-45, 1.1754942e-38, 1.1754944e-38, -1.1754944e-38, 0.5, -0.5, 0.99999994, 1.0, -1.0, 1.5, -1.5,
    255.0, 8388607.5, -8388608.0, 16777216.0, 2147483648.0, f32::MAX, f32::MIN, f32::INFINITY, f32::NEG_INFINITY, f32::NAN,
];

/// Whole numbers at which a conversion or a rounding changes its way.
const TURNS: [f32; 15] = [
    0.0, 1.0, 2.0, 127.0, 128.0, 255.0, 256.0, 65536.0, 4194304.0, 8388608.0, 16777216.0, 2147483648.0, 4294967296.0,
    9223372036854775808.0, 18446744073709551616.0,
];

struct Cases(Vec<Vec<u32>>);

impl Cases {
    fn add(&mut self, f: u32, inputs: &[f32]) {
        let at = |i: usize| inputs.get(i).copied().unwrap_or(0.0);
        let (a, b, c) = (at(0), at(1), at(2));
        let r = answer(f, a, b, c);
        self.0.push(vec![f, a.to_bits(), b.to_bits(), c.to_bits(), r as u32, (r >> 32) as u32]);
    }
}

/// A number just under, at and just over each turn, and halfway to the next, either way.
fn around() -> Vec<f32> {
    TURNS.iter().flat_map(|t| [t.next_down(), *t, t.next_up(), t + 0.5]).flat_map(|x| [x, -x]).collect()
}

/// Every exponent of a sign, with the ends and the middle of the significand and `more` random ones.
fn exponents(random: &mut Random, sign: u32, more: usize) -> Vec<f32> {
    let mut all = vec![];
    for e in 0..256 {
        let mut significands = vec![0, 1, 0x40_0000, 0x7f_ffff];
        significands.extend((0..more).map(|_| random.word() >> 9));
        all.extend(significands.iter().map(|s| f32::from_bits(sign << 31 | e << 23 | s)));
    }
    all
}

/// The significands of each parity of exponent whose root is nearest to the middle of two floats: the hardest to round.
fn hard_roots(most: usize) -> Vec<f32> {
    let mut all = vec![];
    for e in [127u32, 128] {
        let mut found: Vec<(u64, u32)> = (0..1u32 << 23)
            .map(|s| {
                let m = ((s | 1 << 23) as u64) << (23 + (e + 1) % 2);
                let q = m.isqrt();
                let middle = q * q + q;
                (m.abs_diff(middle), e << 23 | s)
            })
            .filter(|(distance, _)| *distance < 4096)
            .collect();
        found.sort();
        all.extend(found.iter().take(most).map(|(_, b)| f32::from_bits(*b)));
    }
    all
}

/// The functions of so many inputs.
fn with_inputs(n: usize) -> impl Iterator<Item = u32> {
    (1..=NAMES.len()).filter(move |f| INPUTS[f - 1] == n).map(|f| f as u32)
}

fn one_input(cases: &mut Cases, random: &mut Random) {
    let (up, down) = (exponents(random, 0, 3), exponents(random, 1, 0));
    for x in up.iter().chain(&hard_roots(64)).chain(down.iter().step_by(8)) {
        cases.add(SQRT, &[*x]);
    }
    for f in [FLOOR, CEIL] {
        for x in up.iter().step_by(2).chain(&down).chain(&around()) {
            cases.add(f, &[*x]);
        }
    }
    for f in CONVERSIONS {
        for x in up.iter().skip(1).step_by(4).chain(down.iter().step_by(2)).chain(&around()) {
            cases.add(f, &[*x]);
        }
    }
    for f in with_inputs(1) {
        for x in EDGES {
            cases.add(f, &[x]);
        }
        for _ in 0..64 {
            cases.add(f, &[random.bits()]);
            cases.add(f, &[random.within(-2.0, 2.0)]);
        }
    }
}

fn two_inputs(cases: &mut Cases, random: &mut Random) {
    for f in with_inputs(2) {
        for a in EDGES {
            for b in EDGES {
                cases.add(f, &[a, b]);
            }
        }
        for _ in 0..64 {
            cases.add(f, &[random.bits(), random.bits()]);
        }
    }
}

fn three_inputs(cases: &mut Cases, random: &mut Random) {
    for f in with_inputs(3) {
        for _ in 0..400 {
            cases.add(f, &[random.of(&EDGES), random.of(&EDGES), random.of(&EDGES)]);
        }
        for _ in 0..100 {
            cases.add(f, &[random.bits(), random.bits(), random.bits()]);
        }
        for _ in 0..300 {
            let edge = random.within(-300.0, 300.0);
            cases.add(f, &[edge, edge + random.within(0.0, 300.0), random.within(-600.0, 600.0)]);
        }
        for _ in 0..200 {
            cases.add(f, &[random.within(-8192.0, 8192.0), random.within(-8192.0, 8192.0), random.within(-0.5, 1.5)]);
        }
    }
}

pub fn stored() -> Stored {
    let mut random = Random(SEED);
    let mut cases = Cases(vec![]);
    for (f, x, want) in PUBLISHED {
        cases.add(f, &[f32::from_bits(x)]);
        assert_eq!(cases.0.last().unwrap()[4], want, "{} of {x:#010x}", NAMES[f as usize - 1]);
    }
    one_input(&mut cases, &mut random);
    two_inputs(&mut cases, &mut random);
    three_inputs(&mut cases, &mut random);
    Stored { functions: 1..=NAMES.len() as u32, width: 6, cases: cases.0 }
}
