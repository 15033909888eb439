//! Program probe, second form: every call on any state and any bytes. docs/PROBE.md is its protocol; the headings below are
//! its headings.

mod edit;
mod show;

pub use show::pending_numbers;

use super::{lines, BUFFER, OTHER_FORM};
use crate::calls::{self, Patch};
use crate::layout::Sizes;
use crate::meters::{fixed_moduli, Asked, METERS};
use crate::mount::{ask_format, mount, recall};
use crate::refusal::Answer;
use crate::state::State;

const DIGITS: usize = 20;

/// The program between two lines.
#[derive(Clone)]
pub struct Session {
    buffer: Vec<u8>,
    /// How many of the buffer's first bytes the calls are lent.
    lent: usize,
    state: State,
    moduli: Vec<u64>,
    /// How many of the moduli events are lent.
    moduli_lent: usize,
    line: u64,
}

/// What a taken line prints: a count and a last field.
type Printed = (u64, String);

impl Default for Session {
    fn default() -> Session {
        let mut state = State::empty(Sizes::default());
        // "at first every number 0": last positions too
        state.last.fill(Some(0));
        let moduli = fixed_moduli();
        Session { buffer: vec![0; BUFFER], lent: BUFFER, state, moduli, moduli_lent: METERS, line: 0 }
    }
}

impl Session {
    pub fn state(&self) -> &State {
        &self.state
    }

    pub fn buffer(&self) -> &[u8] {
        &self.buffer
    }

    pub fn lent(&self) -> usize {
        self.lent
    }

    pub fn moduli(&self) -> &[u64] {
        &self.moduli[..self.moduli_lent]
    }

    /// One line's turn: the line that it prints, with its newline.
    pub fn turn(&mut self, line: &[u8]) -> String {
        self.line += 1;
        let parsed = lines::letter_and_numbers(line, DIGITS);
        let turned = parsed.and_then(|(letter, numbers)| Some((letter, self.perform(letter, &numbers)?)));
        let number = self.line;
        match turned {
            None => format!("{number},{OTHER_FORM},{OTHER_FORM},0,-\n"),
            Some((letter, Ok((count, last)))) => {
                format!("{number},{},0,{count},{last}\n", char::from(letter))
            }
            Some((letter, Err(refusal))) => {
                format!("{number},{},{},0,-\n", char::from(letter), refusal.number())
            }
        }
    }

    /// None for a line of another form.
    fn perform(&mut self, letter: u8, numbers: &[u64]) -> Option<Answer<Printed>> {
        match letter {
            b'L' | b'Y' | b'U' | b'T' | b'O' | b'Q' | b'm' | b'k' => {
                self.set(letter, numbers).map(|()| plain(Ok(0)))
            }
            b'G' | b'H' => self.show(letter, numbers).map(|last| Ok((0, last))),
            b'F' | b'M' => self.replace_state(letter, numbers).map(plain),
            b'R' | b'E' => self.read(letter, numbers),
            b'l' => self.load(numbers),
            b'n' => self.tell(numbers),
            b'b' | b'a' | b'v' | b'w' | b'c' | b'd' | b'p' => self.call_in_place(letter, numbers).map(plain),
            _ => self.call(letter, numbers).map(plain),
        }
    }

    /// What is shown.
    fn show(&self, letter: u8, numbers: &[u64]) -> Option<String> {
        match (letter, numbers) {
            (b'G', []) => Some(show::state(&self.state)),
            (b'H', []) => Some(show::hash(&self.buffer).to_string()),
            _ => None,
        }
    }

    /// Format, asked for, and mount; a taken one replaces the state.
    fn replace_state(&mut self, letter: u8, numbers: &[u64]) -> Option<Answer<u64>> {
        let lent = &self.buffer[..self.lent];
        let answer = match (letter, numbers) {
            (b'F', &[p, s, j]) => ask_format(Sizes { p, s, j, l: 0 }, lent),
            (b'F', &[p, s, j, l]) => ask_format(Sizes { p, s, j, l }, lent),
            (b'M', []) => mount(lent).map(|state| (state, 0)),
            _ => return None,
        };
        Some(answer.map(|(state, needed)| {
            self.state = state;
            needed
        }))
    }

    /// Read and recall, into a target of t bytes.
    fn read(&self, letter: u8, numbers: &[u64]) -> Option<Answer<Printed>> {
        let &t = numbers.last().filter(|&&t| t <= 128)?;
        let mut target = vec![0; t as usize];
        let lent = &self.buffer[..self.lent];
        let answer = match (letter, numbers) {
            (b'R', &[writer, page, line, _]) => {
                calls::read(&self.state, lent, (writer, page, line), &mut target)
            }
            (b'E', &[page, line, _]) => recall(page, line, lent, &mut target),
            _ => return None,
        };
        Some(answer.map(|()| (0, show::hash(&target[..64]).to_string())))
    }

    /// Load: "its text is the n bytes of the buffer from at on, whatever length is lent".
    fn load(&mut self, numbers: &[u64]) -> Option<Answer<Printed>> {
        let &[at, n] = numbers else { return None };
        let end = at.checked_add(n).filter(|&end| end <= BUFFER as u64)?;
        let text = &self.buffer[at as usize..end as usize];
        let loaded = calls::load(&self.state, &self.buffer[..self.lent], text);
        Some(loaded.map(|moduli| {
            let bytes: Vec<u8> = moduli.iter().flat_map(|modulus| modulus.to_le_bytes()).collect();
            (self.moduli, self.moduli_lent) = (moduli, METERS);
            (0, show::hash(&bytes).to_string())
        }))
    }

    /// Next store: its word's number, and 1 where it decides.
    fn tell(&self, numbers: &[u64]) -> Option<Answer<Printed>> {
        let told = numbers.is_empty().then(|| calls::next_store(&self.state, &self.buffer[..self.lent]))?;
        Some(told.map(|(word, decides)| (word, u64::from(decides).to_string())))
    }

    /// The other calls: the stores needed or, for step and run, made.
    fn call(&mut self, letter: u8, numbers: &[u64]) -> Option<Answer<u64>> {
        let moduli = &self.moduli[..self.moduli_lent];
        let (state, lent) = (&mut self.state, &mut self.buffer[..self.lent]);
        Some(match (letter, numbers) {
            (b'B', &[writer]) => calls::begin(state, writer),
            (b'A', &[writer]) => calls::abort(state, writer),
            (b'V', &[writer]) => calls::begin_wide(state, writer),
            (b'W', &[writer, page, line, offset, length, ref data @ ..]) => {
                let data = lines::data(data)?;
                calls::write(state, lent, (writer, page, line), Patch { offset, length, data: &data })
            }
            (b'C', &[writer]) => calls::commit(state, lent, writer),
            (b'D', &[page]) => calls::consolidate(state, lent, page),
            (b'X', &[]) => calls::free_slot(state, lent),
            (b'P', &[]) => calls::checkpoint(state, lent),
            (b'I', &[writer]) => calls::prepare(state, lent, writer),
            (b'J', &[writer]) => calls::confirm(state, lent, writer),
            (b'Z', &[writer]) => calls::withdraw(state, lent, writer),
            (b'K', &[kind, meter, amount]) => {
                calls::event(state, lent, Asked { kind, meter, amount }, moduli)
            }
            (b'S', &[]) => calls::step(state, lent),
            (b'N', &[k]) => calls::run(state, lent, k),
            _ => return None,
        })
    }

    /// The calls in place: "with a run of all stores behind it, and the same answers"; the stores made.
    fn call_in_place(&mut self, letter: u8, numbers: &[u64]) -> Option<Answer<u64>> {
        let asked = self.call(letter.to_ascii_uppercase(), numbers)?;
        Some(asked.and_then(|needed| match needed {
            0 => Ok(0),
            _ => calls::run(&mut self.state, &mut self.buffer[..self.lent], needed),
        }))
    }
}

fn plain(answer: Answer<u64>) -> Answer<Printed> {
    answer.map(|count| (count, "-".to_string()))
}

/// The whole program: what it prints for an input.
pub fn probe(input: &[u8]) -> Vec<u8> {
    let mut session = Session::default();
    let mut printed = String::new();
    for line in lines::lines(input) {
        printed.push_str(&session.turn(line));
    }
    printed.into_bytes()
}
