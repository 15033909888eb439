//! Rounds wider than the slots: request L14 of document 02, each rule below the words that it is read from.

use crate::image::word;
use crate::layout::{Sizes, COUNT_AT, LINES, MOST_ENTRIES};
use crate::plan::{copies, put, Store};
use crate::refusal::{row, Answer, Refusal::*};
use crate::state::{State, WideWrite};

/// The entries in use. With a writer they are its transaction's; without one, those whose copying a mount found begun.
#[derive(Clone, Debug, PartialEq, Eq)]
pub struct Wide {
    pub writer: Option<u64>,
    pub used: u64,
    /// Of each entry its first word. Those past the used ones are never read.
    pub keys: [u64; MOST_ENTRIES],
}

impl Default for Wide {
    fn default() -> Wide {
        Wide { writer: None, used: 0, keys: [0; MOST_ENTRIES] }
    }
}

/// "page × 64 + line, then the line"
pub fn key(page: u64, line: u64) -> u64 {
    page * LINES + line
}

impl Wide {
    pub fn is_by(&self, writer: u64) -> bool {
        self.writer == Some(writer)
    }

    /// The keys of the entries used, however large a number that is.
    pub fn keys_used(&self) -> &[u64] {
        &self.keys[..self.used.min(MOST_ENTRIES as u64) as usize]
    }

    /// The entry of a line, if it has one.
    pub fn entry_of(&self, page: u64, line: u64) -> Option<u64> {
        self.keys_used().iter().position(|&used| used == key(page, line)).map(|entry| entry as u64)
    }

    // "word 6 above L, or among the entries it counts one outside P or a line twice, is row 6, in a state row 8"

    pub fn above(&self, sizes: Sizes) -> bool {
        self.used > sizes.l
    }

    pub fn one_outside(&self, sizes: Sizes) -> bool {
        self.keys_used().iter().any(|key| key / LINES >= sizes.p)
    }

    pub fn a_line_twice(&self) -> bool {
        let keys = self.keys_used();
        (0..keys.len()).any(|i| keys[..i].contains(&keys[i]))
    }
}

/// What a mount finds of a wide commit in an image of layout 2: "recall shows the entry", and
/// "Mount of a non-zero word 6 returns a state with that copying pending from the first entry". Row 6.
pub fn found(image: &[u8], sizes: Sizes) -> Answer<Wide> {
    let mut wide = Wide::default();
    if sizes.l == 0 {
        return Ok(wide);
    }
    wide.used = word(image, COUNT_AT);
    row(BadRecord, wide.above(sizes))?;
    for entry in 0..wide.used {
        wide.keys[entry as usize] = word(image, sizes.entry_word(entry, 0));
    }
    row(BadRecord, wide.one_outside(sizes) || wide.a_line_twice())?;
    Ok(wide)
}

/// "With L = 0 a wide begin is 28, with any writer open it is 29". Behind row 11.
pub fn begin_rows(state: &State) -> Answer<()> {
    row(NoWideRounds, state.sizes.l == 0)?;
    row(OtherOpen, state.writers.iter().any(|writer| writer.open))
}

/// "as is any begin, event or prepare while a wide one is open"
pub fn beside_row(state: &State) -> Answer<()> {
    row(OtherOpen, state.wide.writer.is_some())
}

/// "begun in the state alone"
pub fn begin(state: &mut State, writer: u64) {
    state.writers[writer as usize].open = true;
    state.wide = Wide { writer: Some(writer), ..Wide::default() };
}

/// "a new line with all L entries used is 30, after 13". There is no slot to look for, "so never 15".
pub fn write_row(state: &State, page: u64, line: u64) -> Answer<()> {
    let new = state.wide.entry_of(page, line).is_none();
    row(EntriesUsed, new && state.wide.used >= state.sizes.l)
}

/// "stores each line as an entry (no slot, so never 15), nine words rising, using its entry again on a rewrite"
pub fn write_plan(state: &State, write: &WideWrite) -> Vec<Store> {
    let entry = state.wide.entry_of(write.page, write.line).unwrap_or(state.wide.used);
    let at = state.sizes.entry_word(entry, 0);
    let line = (0..8).map(|i| word(&write.finished, 8 * i));
    let words = std::iter::once(key(write.page, write.line)).chain(line);
    words.enumerate().map(|(i, value)| put(at + 8 * i, value)).collect()
}

pub fn complete_write(state: &mut State, write: &WideWrite) {
    let wide = &mut state.wide;
    if wide.entry_of(write.page, write.line).is_none() {
        wide.keys[wide.used as usize] = key(write.page, write.line);
        wide.used += 1;
    }
}

/// "Its commit of n lines stores n in word 6, then each line, in entry order, over its committed copy, then 0 in word 6:
/// 8n + 2 stores, none if n is 0."
pub fn copying_plan(state: &State) -> Vec<Store> {
    if state.wide.used == 0 {
        return vec![];
    }
    let mut stores = vec![put(COUNT_AT, state.wide.used)];
    for (entry, key) in (0..).zip(state.wide.keys_used()) {
        let (page, line) = (key / LINES, key % LINES);
        let to = state.sizes.line_start(state.committed_frame(page, line), line);
        stores.extend(copies(state.sizes.entry_word(entry, 1), to));
    }
    stores.push(put(COUNT_AT, 0));
    stores
}

/// A commit's end, or an abort: no wide transaction is left, and its writer, if it has one, is closed.
pub fn close(state: &mut State) {
    if let Some(writer) = state.wide.writer {
        state.close(writer);
    }
    state.wide = Wide::default();
}
