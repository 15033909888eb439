//! Slot and journal sizes tried: `model-trials` reads a setting `P,S,J` and up to 1,000 rounds, and prints the rounds done and abandoned and
//! the stores by what they were for.
//!
//! Each store is put down by the place that it goes to, so that nothing leans on how many stores a call needs; and what recall shows at the
//! end is held to bytes kept plainly beside the store.

use std::io::{self, Read, Write};

use model::calls::{abort, begin, checkpoint, commit, free_slot, run, write, Patch};
use model::layout::{Sizes, HEAD_AT, TAIL_AT};
use model::mount::{format, mount, recall};
use model::plan::plan;
use model::refusal::{Answer, Refusal};
use model::script::lines::{lines, number};
use model::state::{Operation, State};

const BUFFER: usize = 65_536;
const ROUNDS: usize = 1_000;

fn main() -> io::Result<()> {
    let mut input = Vec::new();
    io::stdin().read_to_end(&mut input)?;
    let mut input_lines = lines(&input).into_iter();
    let text = match input_lines.next().and_then(Trial::new) {
        Some(mut trial) => {
            for (i, line) in input_lines.take(ROUNDS).enumerate() {
                trial.round(i as u64 + 1, line);
            }
            trial.hold_to_pages();
            trial.result()
        }
        None => "?\n".to_string(),
    };
    io::stdout().write_all(text.as_bytes())
}

struct Trial {
    state: State,
    image: Vec<u8>,
    done: u64,
    abandoned: u64,
    data: u64,
    journal: u64,
    copies: u64,
    tables: u64,
    /// Byte 0 of line 0 of each page, as the rounds done leave it.
    pages: Vec<u8>,
}

fn numbers(line: &[u8]) -> Option<Vec<u64>> {
    line.split(|&byte| byte == b',').map(|field| number(field, 9)).collect()
}

impl Trial {
    fn new(line: &[u8]) -> Option<Trial> {
        let &[p, s, j] = numbers(line)?.as_slice() else { return None };
        let mut image = vec![0; BUFFER];
        let state = format(Sizes { p, s, j, l: 0 }, &mut image).ok()?;
        let pages = vec![0; p as usize];
        Some(Trial { state, image, done: 0, abandoned: 0, data: 0, journal: 0, copies: 0, tables: 0, pages })
    }

    fn round(&mut self, n: u64, line: &[u8]) {
        let pages = numbers(line).filter(|pages| (1..=64).contains(&pages.len()));
        let byte = (n % 256) as u8;
        let Some(pages) = pages else {
            self.abandoned += 1;
            return;
        };
        begin(&mut self.state, 0).expect("writer 0 is closed");
        let written = pages.iter().all(|&page| self.put(page, byte));
        if written {
            self.roomy(|trial| commit(&mut trial.state, &trial.image, 0)).expect("an empty journal has room");
            self.done += 1;
            for page in pages {
                self.pages[page as usize] = byte;
            }
        } else {
            abort(&mut self.state, 0).expect("writer 0 is open");
            self.abandoned += 1;
        }
    }

    /// Whether the page could be written.
    fn put(&mut self, page: u64, byte: u8) -> bool {
        match self.made(|trial| trial.write(page, byte)) {
            Ok(()) => true,
            Err(Refusal::NoFreeSlot) => match self.roomy(|trial| free_slot(&mut trial.state, &trial.image)) {
                Ok(()) => {
                    self.made(|trial| trial.write(page, byte)).expect("a slot was made free");
                    true
                }
                Err(refusal) => {
                    assert_eq!(refusal, Refusal::NoSlotToFree);
                    false
                }
            },
            Err(refusal) => {
                assert_eq!(refusal, Refusal::BadArgument);
                false
            }
        }
    }

    fn write(&mut self, page: u64, byte: u8) -> Answer<u64> {
        write(&mut self.state, &self.image, (0, page, 0), Patch { offset: 0, length: 1, data: &[byte] })
    }

    /// A call; on 19 a checkpoint, and the call again.
    fn roomy(&mut self, call: impl Fn(&mut Trial) -> Answer<u64>) -> Answer<()> {
        match self.made(&call) {
            Err(Refusal::JournalFull) => {
                self.made(|trial| checkpoint(&mut trial.state, &trial.image))
                    .expect("a checkpoint is always taken");
                self.made(&call)
            }
            other => other,
        }
    }

    /// A call and its stores, each put down by where it goes.
    fn made(&mut self, call: impl Fn(&mut Trial) -> Answer<u64>) -> Answer<()> {
        let needed = call(self)?;
        if needed == 0 {
            return Ok(());
        }
        let operation = self.state.pending.as_ref().expect("stores are left").operation.clone();
        for store in plan(&self.state, &operation) {
            self.put_down(store.at, &operation);
        }
        assert_eq!(run(&mut self.state, &mut self.image, needed), Ok(needed));
        Ok(())
    }

    fn put_down(&mut self, at: usize, operation: &Operation) {
        let sizes = self.state.sizes;
        let journal = sizes.record_word(0, 0)..sizes.record_word(0, 0) + 32 * sizes.j as usize;
        let tables = sizes.page_word(0)..sizes.slot_word(sizes.s, 0);
        let kind = if at >= sizes.frames_start() as usize {
            match operation {
                Operation::Write(_) => &mut self.data,
                _ => &mut self.copies,
            }
        } else if at == HEAD_AT || journal.contains(&at) {
            &mut self.journal
        } else {
            assert!(at == TAIL_AT || tables.contains(&at), "a store at byte {at}");
            &mut self.tables
        };
        *kind += 1;
    }

    /// What a mount and recall show is what the rounds done wrote.
    fn hold_to_pages(&self) {
        mount(&self.image).expect("every mount is taken");
        for (page, &byte) in self.pages.iter().enumerate() {
            for line in 0..64 {
                let mut target = [0; 64];
                recall(page as u64, line, &self.image, &mut target).expect("a line of a page");
                let mut expected = [0; 64];
                if line == 0 {
                    expected[0] = byte;
                }
                assert_eq!(target, expected, "page {page}, line {line}");
            }
        }
    }

    fn result(&self) -> String {
        let Trial { done, abandoned, data, journal, copies, tables, .. } = self;
        format!("{done},{abandoned},{data},{journal},{copies},{tables}\n")
    }
}
