//! Images of a round cut after each store of its commit, and what a recall screen shows of each.
//!
//! `model-cuts DIR` writes cut-K.img, cut after K stores, and cut-K.txt, what `examples/recall_host.c` prints of it; and
//! wide-K of the same round as a wide transaction.

use std::path::{Path, PathBuf};
use std::{env, fs, io};

use model::calls::{begin, begin_wide, commit, run, step, write, Patch};
use model::layout::{Sizes, LINES};
use model::mount::{format, recall};
use model::refusal::Answer;
use model::state::State;

const SIZES: Sizes = Sizes { p: 2, s: 2, j: 4, l: 0 };
const WIDE: Sizes = Sizes { l: 4, ..SIZES };

/// A page's lines beyond these are not shown.
const SHOWN: usize = 4;

/// A round's texts by page and line.
type Round = [(u64, u64, &'static str); 4];

const LAST: Round =
    [(0, 0, "CREDITS 0100"), (0, 1, "BET 5"), (1, 0, "BONUS 6"), (1, 63, "REELS CHERRY BELL BELL")];
const NEXT: Round =
    [(0, 0, "CREDITS 0120"), (0, 2, "WIN 20"), (1, 0, "BONUS 7"), (1, 63, "REELS SEVEN SEVEN SEVEN")];

fn main() -> io::Result<()> {
    let Some(folder) = env::args().nth(1).map(PathBuf::from) else {
        eprintln!("model-cuts DIR");
        std::process::exit(2);
    };
    cut(&folder.join("cut"), SIZES, begin)?;
    cut(&folder.join("wide"), WIDE, begin_wide)
}

/// The second round, begun by a call, cut after each store of its commit.
fn cut(path: &Path, sizes: Sizes, beginning: fn(&mut State, u64) -> Answer<u64>) -> io::Result<()> {
    let mut image = vec![0; sizes.image_length()];
    let mut state = taken(format(sizes, &mut image));
    taken(begin(&mut state, 0));
    play(&mut state, &mut image, &LAST);
    let stores = taken(commit(&mut state, &image, 0));
    taken(run(&mut state, &mut image, stores));
    taken(beginning(&mut state, 0));
    play(&mut state, &mut image, &NEXT);
    let stores = taken(commit(&mut state, &image, 0));
    keep(path, 0, &image)?;
    for made in 1..=stores {
        taken(step(&mut state, &mut image));
        keep(path, made, &image)?;
    }
    Ok(())
}

/// None of these calls is turned back.
fn taken<T>(answer: Answer<T>) -> T {
    answer.unwrap_or_else(|refusal| panic!("turned back: {refusal:?}"))
}

/// Writer 0 writes a round's texts.
fn play(state: &mut State, image: &mut [u8], round: &Round) {
    for &(page, line, text) in round {
        let patch = Patch { offset: 0, length: text.len() as u64, data: text.as_bytes() };
        let stores = taken(write(state, image, (0, page, line), patch));
        taken(run(state, image, stores));
    }
}

fn keep(path: &Path, made: u64, image: &[u8]) -> io::Result<()> {
    let path = path.display();
    fs::write(format!("{path}-{made}.img"), image)?;
    fs::write(format!("{path}-{made}.txt"), screen(image))
}

/// For each page the first few lines that are not all zero.
fn screen(image: &[u8]) -> String {
    let mut printed = String::new();
    for page in 0..SIZES.p {
        let lines = (0..LINES).map(|line| (line, recalled(page, line, image)));
        for (line, bytes) in lines.filter(|(_, bytes)| *bytes != [0; 64]).take(SHOWN) {
            printed += &format!("page {page} line {line} {}\n", text(bytes));
        }
    }
    printed
}

fn recalled(page: u64, line: u64, image: &[u8]) -> [u8; 64] {
    let mut target = [0; 64];
    taken(recall(page, line, image, &mut target));
    target
}

/// Printable characters as they are, dots for others.
fn text(bytes: [u8; 64]) -> String {
    bytes.map(|byte| if (32..127).contains(&byte) { char::from(byte) } else { '.' }).iter().collect()
}
