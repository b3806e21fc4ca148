//! Edges of change request 2026-05: what calls count, worked out by hand from its words; of patches also the ceiling of 2026-06.
use crate::{
    called,
    fixed::{fill, made, push, red, width, with, RED},
    fixed_ceilings,
    fixed_chains::{chain, rows, HALF, ONCE},
    fixed_clips, fixed_frames,
    Ceiling, MOST_SIDE,
};

/// A painting, or a patch where there is an old sheet, on px in rows of so many words and without scratch; what it counts, and the ceiling of
/// an accepted patch.
pub struct Count {
    pub name: &'static str,
    pub old: Option<Vec<u8>>,
    pub new: Vec<u8>,
    pub pitch: usize,
    pub before: Vec<u32>,
    pub steps: u64,
    pub grounded: u64,
    pub ceiling: Option<Ceiling>,
}

pub const WHITE: [u8; 4] = [255; 4];
const RED_PIXEL: u32 = 0x00ff_0000;

/// A canvas of 4 × 1, its ground black.
fn row(items: Vec<Vec<u8>>) -> Vec<u8> {
    made(4, 1, items).bytes()
}

fn whole(rgba: [u8; 4]) -> Vec<u8> {
    fill(0.0, 0.0, 4.0, 1.0, rgba)
}

/// Paintings: of fills, on pixels that the ground alters or not, and then of other items on black, which the ground does not alter.
fn paintings() -> Vec<Count> {
    let mut all = vec![];
    let mut add = |name, new: Vec<u8>, before: &[u32], steps, grounded| {
        all.push(Count { name, old: None, pitch: width(&new), new, before: before.to_vec(), steps, grounded, ceiling: None });
    };
    // The ground alters every pixel that was not black with a high byte of 0; then the fill alters the first.
    add("red", red(0.0), &[0xffff_ffff; 4], 1, 4);
    add("red_on_black", red(0.0), &[0; 4], 1, 0);
    add("red_on_black_with_a_high_byte", red(0.0), &[0x0100_0000; 4], 1, 4);
    add("red_on_red", red(0.0), &[RED_PIXEL, 0, 0, 0], 1, 1);
    add("half_covered", made(2, 1, vec![fill(0.5, 0.0, 1.0, 1.0, WHITE)]).bytes(), &[0, 7], 2, 1);
    add("nothing", made(1, 1, vec![]).bytes(), &[7], 0, 1);
    // Refused by 8, three pixels being lent.
    add("refused", red(0.0), &[7; 3], 0, 0);
    let mut on_black = |name, items: Vec<Vec<u8>>, steps| add(name, row(items), &[0; 4], steps, 0);
    // Columns 0 and 1, then 1 and 2: the second red fill finds one of its two red.
    let two = |second: [u8; 4]| vec![fill(0.0, 0.0, 2.0, 1.0, RED), fill(1.0, 0.0, 2.0, 1.0, second)];
    on_black("red_then_red", two(RED), 2 + 1);
    on_black("red_then_white", two(WHITE), 2 + 2);
    // Document 01's starred blends: at alpha 1 on black an ink of 127 leaves 0, one of 128 leaves 1.
    on_black("ink_127_at_alpha_1", vec![whole([127, 127, 127, 1])], 0);
    on_black("ink_128_at_alpha_1", vec![whole([128, 128, 128, 1])], 4);
    on_black("black", vec![whole([0, 0, 0, 255])], 0);
    on_black("under_a_clip", vec![push(1.0, 0.0, 2.0, 1.0), whole(RED)], 2);
    // Lines over columns 0 and 1, then 1 to 3: at alpha 128 each alters column 1; an opaque second one finds it red.
    let joint = |rgba: [u8; 4]| chain(&[0.5, 0.5, 1.5, 0.5, 3.5, 0.5], 1.0, rgba);
    on_black("joint", vec![joint(HALF)], 2 + 3);
    on_black("opaque_joint", vec![joint(RED)], 2 + 2);
    on_black("joint_alone_under_a_clip", vec![push(1.0, 0.0, 1.0, 1.0), joint(HALF)], 1 + 1);
    // Over columns 0 to 2, and back.
    on_black("there_and_back", vec![chain(&[0.5, 0.5, 2.5, 0.5, 0.5, 0.5], 1.0, HALF)], 3 + 3);
    on_black("chain_of_1_point", vec![chain(&[0.5, 0.5], 1.0, HALF)], 0);
    // 63 lines over two pixels each.
    add("chain_of_64_points", made(8, 8, vec![chain(&rows(64), 1.0, HALF)]).bytes(), &[0; 64], 126, 0);
    all
}

/// Patches on 4 × 1, each on the pixels of its old sheet but for the second; with M and area.
fn patches() -> Vec<Count> {
    let mut all = vec![];
    let mut add = |name, old: Vec<u8>, new: Vec<u8>, before: [u32; 4], steps, grounded, [meeting, area]: [u64; 2]| {
        let ceiling = Some(Ceiling { meeting, area });
        all.push(Count { name, old: Some(old), new, pitch: 4, before: before.to_vec(), steps, grounded, ceiling });
    };
    // Of columns 0 to 2 the ground alters the first, the fill the last.
    add("red_moved", red(0.0), red(2.0), [RED_PIXEL, 0, 0, 0], 1, 1, [1, 3]);
    // Whatever the pixels are, an empty box has none to alter.
    add("no_difference", red(0.0), red(0.0), [7; 4], 0, 0, [0, 0]);
    add("differing_off_the_canvas", red(-9.0), red(9.0), [0; 4], 0, 0, [0, 0]);
    // The old sheet's fill does not meet the box, or it alone does.
    add("red_come", red(-9.0), red(3.0), [0; 4], 1, 0, [1, 1]);
    add("red_gone", red(0.0), red(9.0), [RED_PIXEL, 0, 0, 0], 0, 1, [0, 1]);
    // Of two fills the second moves from column 1 to 2: what the first alters lies outside the box, columns 1 and 2, which it touches.
    let two = |x: f32| row(vec![fill(0.0, 0.0, 1.0, 1.0, RED), fill(x, 0.0, 1.0, 1.0, RED)]);
    add("second_moved", two(1.0), two(2.0), [RED_PIXEL, RED_PIXEL, 0, 0], 1, 1, [1, 2]);
    // The whole canvas is the box of a fill that cannot be seen.
    add("unseen", row(vec![whole([9, 9, 9, 0])]), row(vec![whole([8, 8, 8, 0])]), [0; 4], 0, 0, [1, 4]);
    // A line over columns 0 and 1 gets a second one, over 1 to 3; the box is the whole canvas.
    let trace = |points: &[f32]| row(vec![chain(points, 1.0, HALF)]);
    let points = [0.5, 0.5, 1.5, 0.5, 3.5, 0.5];
    add("trace_grown", trace(&points[..4]), trace(&points), [ONCE, ONCE, 0, 0], 2 + 3, 2, [2, 4]);
    // Refused by 10: the ground is another.
    let (old, new) = (Some(red(0.0)), with(red(0.0), 4, 1));
    all.push(Count { name: "refused", old, new, pitch: 4, before: vec![RED_PIXEL, 0, 0, 0], steps: 0, grounded: 0, ceiling: None });
    all
}

pub fn counts() -> Vec<Count> {
    [paintings(), patches(), fixed_ceilings::patches(), fixed_clips::counts(), fixed_frames::counts()].into_iter().flatten().collect()
}

/// On the largest canvas 1,020 fills, red and white in turn, and after every 255th a chain of three lines that are wider than the canvas: each
/// halves every channel. So each pixel is altered at 1,020 + 4 × 3 steps, which are more than 32 bits count.
pub fn busiest() -> Vec<u8> {
    let (side, middle) = (MOST_SIDE as f32, MOST_SIDE as f32 / 2.0);
    let ends = [middle, middle, middle + 1.0, middle];
    let halving = || chain(&[ends, ends].concat(), 8192.0, [0, 0, 0, 128]);
    let fills = (0..1_020).map(|i| fill(0.0, 0.0, side, side, [RED, WHITE][i % 2])).collect::<Vec<_>>();
    let items = fills.chunks(255).flat_map(|part| [part, &[halving()]].concat()).collect();
    made(MOST_SIDE as u16, MOST_SIDE as u16, items).bytes()
}

/// The steps of the busiest sheet.
pub const BUSIEST: u64 = 1_032 * 2_048 * 2_048;
const _: () = assert!(BUSIEST > 1 << 32);

/// Holds the counting to these numbers before anything is compared with it.
pub fn check() {
    for count in counts() {
        let answer = called(count.old.as_deref(), &count.new, count.pitch, count.before.len(), 0).on(&count.before).answer;
        assert_eq!((answer.steps, answer.grounded), (count.steps, count.grounded), "{}", count.name);
    }
}
