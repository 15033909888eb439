//! Program powerhit: calls as lines, each operation run to its end or to a cut.

use super::{lines, BUFFER, OTHER_FORM};
use crate::calls::{self, Patch};
use crate::layout::Sizes;
use crate::mount::{ask_format, mount};
use crate::plan::plan;
use crate::refusal::{Answer, Refusal};
use crate::state::State;

pub const HEADING: &str = "line,call,answer,stores,byte\n";
const DIGITS: usize = 9;

#[derive(Debug, PartialEq, Eq)]
enum Command {
    Format(Sizes),
    Begin(u64),
    Commit(u64),
    Abort(u64),
    Write { place: (u64, u64, u64), offset: u64, length: u64, data: Vec<u8> },
    Read { place: (u64, u64, u64), offset: u64 },
    Consolidate(u64),
    Checkpoint,
    Mount,
    Cut(u64),
}

/// A line's command and letter, or none for a line of another form.
fn parse(line: &[u8]) -> Option<(char, Command)> {
    let (letter, numbers) = lines::letter_and_numbers(line, DIGITS)?;
    let command = match (letter, numbers.as_slice()) {
        (b'F', &[p, s, j]) => Command::Format(Sizes { p, s, j, l: 0 }),
        (b'B', &[writer]) => Command::Begin(writer),
        (b'C', &[writer]) => Command::Commit(writer),
        (b'A', &[writer]) => Command::Abort(writer),
        (b'W', &[writer, page, line, offset, length, ref data @ ..]) => {
            Command::Write { place: (writer, page, line), offset, length, data: lines::data(data)? }
        }
        (b'R', &[writer, page, line, offset]) => Command::Read { place: (writer, page, line), offset },
        (b'D', &[page]) => Command::Consolidate(page),
        (b'P', &[]) => Command::Checkpoint,
        (b'X', &[]) => Command::Mount,
        (b'K', &[k]) => Command::Cut(k),
        _ => return None,
    };
    Some((char::from(letter), command))
}

/// The program between two lines.
#[derive(Clone)]
pub struct Session {
    buffer: Vec<u8>,
    /// None before a taken F, and after one whose cut left nothing that mounts.
    state: Option<State>,
    /// A K not yet used.
    cut: Option<u64>,
    line: u64,
    /// Where the stores of the last line went, one after the other.
    stored: Stored,
}

/// Byte addresses of stores, and the sizes of the state that made them.
#[derive(Clone, Default)]
pub struct Stored {
    pub sizes: Sizes,
    pub at: Vec<usize>,
}

/// What a line of a right form prints behind its letter: 0 or the row that turned it back, stores made and, for a read, the byte.
struct Printed {
    answer: u8,
    stores: u64,
    byte: Option<u8>,
}

impl Printed {
    fn taken(stores: u64, byte: Option<u8>) -> Printed {
        Printed { answer: 0, stores, byte }
    }

    fn turned_back(refusal: Refusal, stores: u64) -> Printed {
        Printed { answer: refusal.number(), stores, byte: None }
    }
}

impl Default for Session {
    fn default() -> Session {
        Session { buffer: vec![0; BUFFER], state: None, cut: None, line: 0, stored: Stored::default() }
    }
}

impl Session {
    pub fn state(&self) -> Option<&State> {
        self.state.as_ref()
    }

    pub fn stored(&self) -> &Stored {
        &self.stored
    }

    pub fn buffer(&self) -> &[u8] {
        &self.buffer
    }

    /// One line's turn: the line that it prints, with its newline.
    pub fn turn(&mut self, line: &[u8]) -> String {
        self.line += 1;
        self.stored = Stored::default();
        let turned = parse(line).and_then(|(letter, command)| Some((letter, self.perform(command)?)));
        let number = self.line;
        let Some((letter, Printed { answer, stores, byte })) = turned else {
            return format!("{number},{OTHER_FORM},{OTHER_FORM},0,-\n");
        };
        let byte = byte.map_or("-".to_string(), |byte| byte.to_string());
        format!("{number},{letter},{answer},{stores},{byte}\n")
    }

    /// None where there is no state and this is not an F.
    fn perform(&mut self, command: Command) -> Option<Printed> {
        if let Command::Format(sizes) = command {
            return Some(self.format(sizes));
        }
        let state = self.state.as_mut()?;
        let asked = match command {
            Command::Cut(k) => {
                self.cut = Some(k);
                Ok(0)
            }
            Command::Mount => return Some(self.mount(0)),
            Command::Read { place, offset } => return Some(self.read(place, offset)),
            operation => ask(state, &self.buffer, operation),
        };
        Some(asked.map_or_else(|refusal| Printed::turned_back(refusal, 0), |needed| self.run(needed)))
    }

    /// An F that is turned back leaves everything as it is, a K not yet used too.
    fn format(&mut self, sizes: Sizes) -> Printed {
        match ask_format(sizes, &self.buffer) {
            Err(refusal) => Printed::turned_back(refusal, 0),
            Ok((state, needed)) => {
                self.state = Some(state);
                self.run(needed)
            }
        }
    }

    fn read(&self, place: (u64, u64, u64), offset: u64) -> Printed {
        let state = self.state.as_ref().expect("an F was taken");
        let mut target = [0; 64];
        if let Err(refusal) = calls::read(state, &self.buffer, place, &mut target) {
            return Printed::turned_back(refusal, 0);
        }
        match usize::try_from(offset).ok().and_then(|offset| target.get(offset)) {
            Some(&byte) => Printed::taken(0, Some(byte)),
            None => Printed::turned_back(Refusal::BadArgument, 0),
        }
    }

    /// Runs a taken operation to its end or, under a K, to the cut and the mount that follows.
    fn run(&mut self, needed: u64) -> Printed {
        if needed == 0 {
            return Printed::taken(0, None);
        }
        let state = self.state.as_mut().expect("an F was taken");
        let cut = self.cut.take();
        let operation = &state.pending.as_ref().expect("stores are needed").operation;
        let at = plan(state, operation).iter().map(|store| store.at).collect();
        self.stored = Stored { sizes: state.sizes, at };
        let made = calls::run(state, &mut self.buffer, cut.unwrap_or(needed));
        let made = made.expect("an operation was taken just now");
        self.stored.at.truncate(made as usize);
        match cut {
            Some(_) => self.mount(made),
            None => Printed::taken(made, None),
        }
    }

    /// The mount of a line that made so many stores. Where it is turned back, no state is left.
    fn mount(&mut self, stores: u64) -> Printed {
        let mounted = mount(&self.buffer);
        let printed = match &mounted {
            Ok(_) => Printed::taken(stores, None),
            Err(refusal) => Printed::turned_back(*refusal, stores),
        };
        self.state = mounted.ok();
        printed
    }
}

/// Begin, abort and the calls that ask for an operation: the stores needed.
fn ask(state: &mut State, image: &[u8], command: Command) -> Answer<u64> {
    match command {
        Command::Begin(writer) => calls::begin(state, writer),
        Command::Commit(writer) => calls::commit(state, image, writer),
        Command::Abort(writer) => calls::abort(state, writer),
        Command::Write { place, offset, length, data } => {
            calls::write(state, image, place, Patch { offset, length, data: &data })
        }
        Command::Consolidate(page) => calls::consolidate(state, image, page),
        Command::Checkpoint => calls::checkpoint(state, image),
        Command::Format(_) | Command::Read { .. } | Command::Mount | Command::Cut(_) => {
            unreachable!("these ask for no operation")
        }
    }
}

/// The whole program: what it prints for an input.
pub fn powerhit(input: &[u8]) -> Vec<u8> {
    let mut session = Session::default();
    let mut printed = HEADING.to_string();
    for line in lines::lines(input) {
        printed.push_str(&session.turn(line));
    }
    printed.into_bytes()
}
