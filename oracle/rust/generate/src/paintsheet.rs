//! Sheets for the program `paintsheet`, each with what it must print.
use answers::random::{Random, SEED};
use sheets::{
    fixed::{self, fill, made, polygon, RED},
    make,
    orders::{
        self,
        Step::{Fill, Pop, Push},
    },
    text::{text, AT_HAND},
    Sheet,
};
use std::{fs, path::Path};

/// What is seen of a small clip order: nothing, the fill, or what the clip leaves of it.
const NOTHING: &str = "00000000 00000000 00000000 00000000
00000000 00000000 00000000 00000000
00000000 00000000 00000000 00000000
00000000 00000000 00000000 00000000
";
const WHOLE: &str = "00FFFFFF 00FFFFFF 00FFFFFF 00000000
00FFFFFF 00FFFFFF 00FFFFFF 00000000
00FFFFFF 00FFFFFF 00FFFFFF 00000000
00000000 00000000 00000000 00000000
";
const CUT: &str = "00000000 00000000 00000000 00000000
00000000 00FFFFFF 00FFFFFF 00000000
00000000 00FFFFFF 00FFFFFF 00000000
00000000 00000000 00000000 00000000
";

/// Some small clip orders, named by their numbers.
fn clip_orders() -> Vec<(String, Vec<u8>, &'static str)> {
    let orders = [
        (vec![], NOTHING),
        (vec![Fill], WHOLE),
        (vec![Push, Fill], CUT),
        (vec![Pop, Fill], WHOLE),
        (vec![Push, Pop, Fill], WHOLE),
        (vec![Fill, Push, Pop], WHOLE),
        (vec![Push, Push, Pop, Fill], CUT),
        (vec![Pop, Push, Push, Pop, Pop, Fill], WHOLE),
        (vec![Fill; 6], WHOLE),
    ];
    orders.into_iter().map(|(order, known)| (format!("order_{}", orders::number(&order)), orders::sheet(&order), known)).collect()
}

fn cases() -> Vec<(String, Vec<u8>, &'static str)> {
    let mut all = vec![];
    let refused = |number: u32| match number {
        1 => "refused 1 at 0\n",
        2 => "refused 2 at 0\n",
        3 => "refused 3 at 0\n",
        4 => "refused 4 at 1\n",
        5 => "refused 5 at 1\n",
        6 => "refused 6 at 2\n",
        7 => "refused 7 at 17\n",
        8 => "refused 8 at 0\n",
        9 => "refused 9 at 0\n",
        13 => "refused 13 at 1\n",
        _ => "",
    };
    // Those of document 01 whose number does not hang on what is lent.
    for p in fixed::alone().into_iter().filter(|p| p.number != 8 && p.number != 9 && p.name != "largest") {
        let known = match p.name {
            "red" => "00FF0000 00000000 00000000 00000000\n",
            "half_covered" => "00808080 00808080\n",
            "empty" => "00000000\n",
            _ => refused(p.number),
        };
        all.push((p.name.to_string(), p.sheet, known));
    }
    let mut add = |name: &str, sheet: Vec<u8>, known| all.push((name.to_string(), sheet, known));
    add("red_patched", fixed::red(2.0), "00000000 00000000 00FF0000 00000000\n");
    add("px_16384", made(128, 128, vec![fill(0.5, 0.5, 127.0, 127.0, RED)]).bytes(), "");
    add("px_16512", made(129, 128, vec![]).bytes(), refused(8));
    add("largest", made(2048, 2048, vec![]).bytes(), refused(8));
    add("before_9", made(2048, 9, vec![polygon(&[0.0, 0.0, 200.0, 0.0, 200.0, 200.0], RED)]).bytes(), refused(8));
    let mut wrong = made(2048, 2048, vec![fill(0.0, 0.0, 1.0, 1.0, RED)]);
    wrong.items[0][0] = 9;
    add("before_8", wrong.bytes(), refused(4));
    add("scratch", made(4, 4, vec![polygon(&[0.0, 0.0, 200.0, 0.0, 200.0, 200.0], RED)]).bytes(), refused(9));
    // Two rows of 8,191 cells and 2 words: 16,384; a column more is 16,386.
    let level = |x: f32| made(4, 4, vec![polygon(&[0.0, 0.0, x, 0.0, x, 0.0], RED), fill(1.0, 1.0, 2.0, 2.0, RED)]).bytes();
    assert_eq!(Sheet::read(&level(8187.0)).unwrap().need(), AT_HAND);
    add("scratch_16384", level(8187.0), "");
    add("scratch_16386", level(8188.0), refused(9));
    for i in 0..4 {
        let mut random = Random(SEED + 20 + i);
        add(&format!("random_{i}"), make::on(&mut random, [16, 12], 12, 8).bytes(), "");
    }
    all.extend(clip_orders());
    all
}

/// Writes NAME.in and NAME.out of each case, and the first as stdin and stdout of the program where its crate is there.
pub fn write(folder: &Path, program: &Path) {
    fs::create_dir_all(folder).unwrap();
    let cases = cases();
    for (i, (name, sheet, known)) in cases.iter().enumerate() {
        let out = text(sheet, AT_HAND);
        assert!(known.is_empty() || out == *known, "{name} prints {out}");
        let name = match out.split(' ').collect::<Vec<_>>()[..] {
            ["refused", number, ..] => format!("refused_{number}_{name}"),
            _ => name.clone(),
        };
        fs::write(folder.join(format!("{name}.in")), sheet).unwrap();
        fs::write(folder.join(format!("{name}.out")), &out).unwrap();
        if i == 0 && program.exists() {
            fs::write(program.join("stdin"), sheet).unwrap();
            fs::write(program.join("stdout"), &out).unwrap();
        }
    }
    println!("{}: {} cases", folder.display(), cases.len());
}
