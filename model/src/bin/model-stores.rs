//! Every store of a list of calls, for `tests/stores.sh`, which holds the stores of the compiled library to it.
//!
//! `model-stores ORDER < calls` reads a call a line, a letter and numbers: F sizes; B, A, V writer; W writer, page, line, offset, length, first
//! byte; C, I, J, Z writer; D page; X; P; K kind, meter, amount; M; and T k, by which the next call's operation is cut after k stores and the image
//! mounted. What is then pending is run to its end. Of each call it prints the line's number, the letter, the answer, where
//! the stores went, those before a cut left out, and a hash of the image. Where they went: with `ordered` as they were made; with `grouped`
//! those between two stores that decide (words 3 to 6 of the header) as a set. A store that decides is printed with its value.

use std::collections::BTreeSet;
use std::io::Read;
use std::{env, io};

use model::calls::{self, Patch};
use model::image::word;
use model::layout::Sizes;
use model::meters::{fixed_moduli, Asked};
use model::mount::{format, mount};
use model::plan::plan;
use model::refusal::Answer;
use model::script::lines;
use model::state::State;

fn main() -> io::Result<()> {
    let grouped = match env::args().nth(1).as_deref() {
        Some("grouped") => true,
        Some("ordered") => false,
        _ => {
            eprintln!("model-stores grouped|ordered < calls");
            std::process::exit(2);
        }
    };
    let mut input = vec![];
    io::stdin().read_to_end(&mut input)?;
    let mut machine = Machine { state: State::empty(Sizes::default()), image: vec![], cut: None };
    for (number, line) in (1..).zip(lines::lines(&input)) {
        let (letter, numbers) = lines::letter_and_numbers(line, 20).expect("a letter and numbers");
        let answer = machine.ask(letter, &numbers);
        machine.power(letter);
        let trace = machine.finish();
        let row = answer.map_or_else(|refusal| refusal.number(), |_| 0);
        let places = if grouped { trace.grouped() } else { trace.ordered() };
        println!("{number} {} {row}{places} {:016x}", char::from(letter), hash(&machine.image));
    }
    Ok(())
}

struct Machine {
    state: State,
    image: Vec<u8>,
    /// The next operation is cut after so many stores.
    cut: Option<u64>,
}

impl Machine {
    fn ask(&mut self, letter: u8, n: &[u64]) -> Answer<u64> {
        let Machine { state, image, cut } = self;
        match (letter, n) {
            (b'F', &[p, s, j, l]) => {
                let sizes = Sizes { p, s, j, l };
                *image = vec![0; sizes.image_length()];
                *state = format(sizes, image)?;
                Ok(0)
            }
            (b'M', []) => {
                *state = mount(image)?;
                Ok(0)
            }
            (b'B', &[w]) => calls::begin(state, w),
            (b'A', &[w]) => calls::abort(state, w),
            (b'V', &[w]) => calls::begin_wide(state, w),
            (b'W', &[w, p, l, offset, length, first]) => {
                let data: Vec<u8> = (0..length).map(|i| ((first + 7 * i) % 200) as u8).collect();
                calls::write(state, image, (w, p, l), Patch { offset, length, data: &data })
            }
            (b'C', &[w]) => calls::commit(state, image, w),
            (b'I', &[w]) => calls::prepare(state, image, w),
            (b'J', &[w]) => calls::confirm(state, image, w),
            (b'Z', &[w]) => calls::withdraw(state, image, w),
            (b'D', &[page]) => calls::consolidate(state, image, page),
            (b'X', []) => calls::free_slot(state, image),
            (b'P', []) => calls::checkpoint(state, image),
            (b'K', &[kind, meter, amount]) => {
                calls::event(state, image, Asked { kind, meter, amount }, &fixed_moduli())
            }
            (b'T', &[k]) => {
                *cut = Some(k);
                Ok(0)
            }
            _ => panic!("no such call: {letter}"),
        }
    }

    /// Cuts the power where the line before asked for it.
    fn power(&mut self, letter: u8) {
        if letter == b'T' {
            return;
        }
        if let Some(k) = self.cut.take() {
            calls::run(&mut self.state, &mut self.image, k).expect("an operation is pending");
            self.state = mount(&self.image).expect("every mount is taken");
        }
    }

    /// Runs what is pending to its end.
    fn finish(&mut self) -> Trace {
        let mut trace = Trace(vec![]);
        while let Some(pending) = &self.state.pending {
            let store = plan(&self.state, &pending.operation)[pending.made as usize];
            let at = store.at / 8;
            calls::step(&mut self.state, &mut self.image).expect("an operation is pending");
            trace.0.push((at, word(&self.image, 8 * at)));
        }
        trace
    }
}

/// The word and the value of each store.
struct Trace(Vec<(usize, u64)>);

fn decides(at: usize) -> bool {
    (3..=6).contains(&at)
}

impl Trace {
    fn ordered(&self) -> String {
        let mut text = String::new();
        let mut next = None;
        for &(at, value) in &self.0 {
            if decides(at) {
                text += &format!(" {at}={value}");
                next = None;
            } else if next == Some(at) {
                next = Some(at + 1);
                text = text.rsplit_once('-').expect("a range").0.to_string() + &format!("-{at}");
            } else {
                next = Some(at + 1);
                text += &format!(" {at}-{at}");
            }
        }
        text
    }

    fn grouped(&self) -> String {
        let mut sorted = vec![];
        let mut group = BTreeSet::new();
        for &(at, value) in &self.0 {
            if decides(at) {
                sorted.extend(std::mem::take(&mut group).into_iter().map(|at| (at, 0)));
                sorted.push((at, value));
            } else {
                group.insert(at);
            }
        }
        sorted.extend(group.into_iter().map(|at| (at, 0)));
        Trace(sorted).ordered()
    }
}

fn hash(bytes: &[u8]) -> u64 {
    bytes.iter().fold(0xcbf29ce484222325, |hash, &byte| (hash ^ u64::from(byte)).wrapping_mul(0x100000001b3))
}
