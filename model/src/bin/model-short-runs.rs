//! Every short run: `model-short-runs` reads n, a digit 0 to 3, and lists every sequence of n calls on a fresh image.
//!
//! A line has the calls' numbers, their answers, the stores after which the last call is cut, and the first bytes of lines 0 and 1 of page 0 as the
//! reference machine keeps them; what recall shows is held to it.

use std::io::{self, Read, Write};

use model::calls::{abort, begin, checkpoint, commit, consolidate, run, write, Patch};
use model::layout::Sizes;
use model::mount::{format, mount, recall};
use model::refusal::Answer;
use model::state::State;

const SIZES: Sizes = Sizes { p: 1, s: 1, j: 1, l: 0 };

#[derive(Clone, Copy)]
enum Call {
    Begin(u64),
    Mark { writer: u64, line: u64 },
    Commit(u64),
    Abort(u64),
    Consolidate,
    Checkpoint,
}

use Call::*;

const CALLS: [Call; 12] = [
    Begin(0),
    Begin(1),
    Mark { writer: 0, line: 0 },
    Mark { writer: 0, line: 1 },
    Mark { writer: 1, line: 0 },
    Mark { writer: 1, line: 1 },
    Commit(0),
    Commit(1),
    Abort(0),
    Abort(1),
    Consolidate,
    Checkpoint,
];

/// The store, and beside it the bytes as a plain reference: those committed, and each writer's own.
#[derive(Clone)]
struct Run {
    state: State,
    image: Vec<u8>,
    pages: [u8; 2],
    sheets: [[Option<u8>; 2]; 2],
}

fn main() -> io::Result<()> {
    let mut input = Vec::new();
    io::stdin().read_to_end(&mut input)?;
    let text = match input.as_slice() {
        [digit @ b'0'..=b'3'] | [digit @ b'0'..=b'3', b'\n'] => listing(digit - b'0'),
        _ => "?\n".to_string(),
    };
    io::stdout().write_all(text.as_bytes())
}

fn listing(n: u8) -> String {
    let mut text = String::new();
    extend(&mut text, n, &mut Vec::new(), &mut Vec::new(), &Run::fresh());
    text
}

/// All sequences that go on from these calls, n more, depth first: that is the order of their number lists.
fn extend(text: &mut String, n: u8, calls: &mut Vec<u64>, answers: &mut Vec<u64>, run: &Run) {
    if n == 0 && calls.is_empty() {
        line(text, calls, answers, 0, run);
    }
    if n == 0 {
        return;
    }
    for (i, call) in CALLS.iter().enumerate() {
        let mut asked = run.clone();
        let answer = asked.ask(*call);
        calls.push(i as u64 + 1);
        answers.push(answer.map_or_else(|refusal| refusal.number().into(), |_| 0));
        let needed = answer.unwrap_or(0);
        if n == 1 {
            for cut in 0..=needed {
                let mut stopped = asked.clone();
                stopped.store(cut, needed, answer.is_ok(), *call);
                line(text, calls, answers, cut, &stopped);
            }
        } else {
            asked.store(needed, needed, answer.is_ok(), *call);
            extend(text, n - 1, calls, answers, &asked);
        }
        calls.pop();
        answers.pop();
    }
}

fn line(text: &mut String, calls: &[u64], answers: &[u64], cut: u64, run: &Run) {
    let shown = run.shown();
    assert_eq!(shown, run.pages, "recall and the reference after {calls:?}, cut {cut}");
    let bytes = shown.map(u64::from);
    let numbers: Vec<String> =
        calls.iter().chain(answers).chain([&cut]).chain(&bytes).map(u64::to_string).collect();
    text.push_str(&numbers.join(","));
    text.push('\n');
}

impl Run {
    fn fresh() -> Run {
        let mut image = vec![0; SIZES.image_length()];
        let state = format(SIZES, &mut image).expect("legal sizes");
        Run { state, image, pages: [0; 2], sheets: [[None; 2]; 2] }
    }

    fn ask(&mut self, call: Call) -> Answer<u64> {
        let Run { state, image, .. } = self;
        match call {
            Begin(writer) => begin(state, writer),
            Mark { writer, line } => {
                let data = [writer as u8 + 1];
                write(state, image, (writer, 0, line), Patch { offset: 0, length: 1, data: &data })
            }
            Commit(writer) => commit(state, image, writer),
            Abort(writer) => abort(state, writer),
            Consolidate => consolidate(state, image, 0),
            Checkpoint => checkpoint(state, image),
        }
    }

    /// So many of the stores that the call needs; with all of them the reference does what the call does.
    fn store(&mut self, made: u64, needed: u64, taken: bool, call: Call) {
        if needed > 0 {
            assert_eq!(run(&mut self.state, &mut self.image, made), Ok(made));
        }
        if !taken || made < needed {
            return;
        }
        match call {
            Mark { writer, line } => self.sheets[writer as usize][line as usize] = Some(writer as u8 + 1),
            Commit(writer) => {
                let sheet = std::mem::take(&mut self.sheets[writer as usize]);
                for (byte, own) in self.pages.iter_mut().zip(sheet) {
                    *byte = own.unwrap_or(*byte);
                }
            }
            Abort(writer) => self.sheets[writer as usize] = [None; 2],
            Begin(_) | Consolidate | Checkpoint => {}
        }
    }

    fn shown(&self) -> [u8; 2] {
        mount(&self.image).expect("every mount is taken");
        [0, 1].map(|line| {
            let mut target = [0; 64];
            recall(0, line, &self.image, &mut target).expect("a line of page 0");
            target[0]
        })
    }
}
