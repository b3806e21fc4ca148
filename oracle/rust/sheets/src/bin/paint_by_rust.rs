//! Paints the sheet on standard input with the unchanged Rust and prints what `paintsheet` prints; with the word `large`, canvases of
//! every size.
use sheets::{text::*, MOST_SIDE};
use std::{env, io::Read};

fn main() {
    let large = env::args().nth(1).is_some_and(|word| word == "large");
    let mut bytes = vec![];
    std::io::stdin().read_to_end(&mut bytes).expect("standard input");
    print!("{}", text(&bytes, if large { MOST_SIDE * MOST_SIDE } else { AT_HAND }));
}
