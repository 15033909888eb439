//! This store: every store of its calls, by the model's plans.

use std::collections::BTreeSet;

use model::calls::{begin, begin_wide, checkpoint, commit, free_slot, run, write, Patch};
use model::layout::{Sizes, COUNT_AT, LAYOUT_AT};
use model::mount::format;
use model::plan::plan;
use model::refusal::{Answer, Refusal};
use model::state::State;

use crate::scheme::{Line, Scheme, Traffic, LINE, WORD};

const WRITER: u64 = 0;

pub struct Store {
    state: State,
    image: Vec<u8>,
    /// The round's number from 1 on, which fills its lines, so that each one changes.
    round: u64,
    /// Lines of memory stored to since the last fence.
    dirty: BTreeSet<usize>,
    traffic: Traffic,
}

impl Store {
    /// A fresh store. What format stores is not counted.
    pub fn of(sizes: Sizes) -> Store {
        let mut image = vec![0; sizes.image_length()];
        let state = taken(format(sizes, &mut image));
        Store { state, image, round: 0, dirty: BTreeSet::new(), traffic: Traffic::default() }
    }

    fn put_line(&mut self, (page, line): Line) {
        let data = self.round.to_le_bytes().repeat(8);
        let ask = |store: &mut Store| {
            let patch = Patch { offset: 0, length: 64, data: &data };
            write(&mut store.state, &store.image, (WRITER, page, line), patch)
        };
        if ask(self) == Err(Refusal::NoFreeSlot) {
            self.free_slot();
            taken(ask(self));
        }
        self.finish();
    }

    fn free_slot(&mut self) {
        if free_slot(&mut self.state, &self.image) == Err(Refusal::JournalFull) {
            self.empty_journal();
            taken(free_slot(&mut self.state, &self.image));
        }
        self.finish();
    }

    fn empty_journal(&mut self) {
        taken(checkpoint(&mut self.state, &self.image));
        self.finish();
    }

    /// Makes what is pending, as the header's badgerdross_finish does: a store that decides stands alone between two fences.
    fn finish(&mut self) {
        let operation = self.state.pending.as_ref().expect("stores are left").operation.clone();
        let stores = plan(&self.state, &operation);
        for store in &stores {
            let at = store.at;
            if decides(at) {
                self.fence();
            }
            self.traffic.bytes += WORD;
            self.dirty.insert(at / LINE as usize);
            if decides(at) {
                self.fence();
            }
        }
        let made = taken(run(&mut self.state, &mut self.image, u64::MAX));
        assert_eq!(made, stores.len() as u64);
    }

    fn fence(&mut self) {
        self.traffic.lines += self.dirty.len() as u64;
        self.traffic.fences += 1;
        self.dirty.clear();
    }
}

/// Layout, head, tail and the count of entries: a mount goes by what such a store changes.
fn decides(at: usize) -> bool {
    (LAYOUT_AT..=COUNT_AT).contains(&at)
}

fn taken<T>(answer: Answer<T>) -> T {
    answer.unwrap_or_else(|refusal| panic!("turned back: {refusal:?}"))
}

impl Scheme for Store {
    /// A wide round where the sizes have entries. On 15 a slot is freed, on 19 the journal emptied.
    fn play(&mut self, lines: &[Line]) {
        self.round += 1;
        let open = if self.state.sizes.l == 0 { begin } else { begin_wide };
        taken(open(&mut self.state, WRITER));
        for &line in lines {
            self.put_line(line);
        }
        if commit(&mut self.state, &self.image, WRITER) == Err(Refusal::JournalFull) {
            self.empty_journal();
            taken(commit(&mut self.state, &self.image, WRITER));
        }
        self.finish();
    }

    fn traffic(&self) -> Traffic {
        self.traffic
    }
}

#[cfg(test)]
mod tests {
    use super::*;

    /// Journal from byte 64 + 8 x 2 + 24 x 2 = 128 on, so that the records of a round fill one line.
    const SMALL: Sizes = Sizes { p: 2, s: 2, j: 4, l: 0 };

    #[test]
    fn a_round_is_two_lines_two_records_and_head() {
        let mut store = Store::of(SMALL);
        store.play(&[(0, 0), (1, 0)]);
        // 8 + 8 + 4 + 4 + 1 words
        assert_eq!(store.traffic(), Traffic { bytes: 200, lines: 2 + 1 + 1, fences: 2 });
    }

    #[test]
    fn a_full_journal_is_checkpointed_first() {
        let mut store = Store::of(SMALL);
        for line in 0..3 {
            store.play(&[(0, line), (1, line)]);
        }
        // two slots' three words at bytes 80 to 127, then tail
        let checkpoint = Traffic { bytes: 56, lines: 1 + 1, fences: 2 };
        assert_eq!(store.traffic().bytes, 3 * 200 + checkpoint.bytes);
        // the third round's lines are written back by the checkpoint's first fence
        assert_eq!(store.traffic().lines, 3 * 4 + checkpoint.lines);
        assert_eq!(store.traffic().fences, 3 * 2 + checkpoint.fences);
    }

    #[test]
    fn a_page_without_a_slot_consolidates_another() {
        let mut store = Store::of(Sizes { p: 2, s: 1, j: 4, l: 0 });
        store.play(&[(0, 0)]);
        store.play(&[(1, 0)]);
        // two rounds of 13 words; a copied line, the page's word, a record and head: 14
        assert_eq!(store.traffic().bytes, 8 * (13 + 14 + 13));
        assert_eq!(store.traffic().fences, 2 + 2 + 2);
    }

    #[test]
    fn a_wide_round_stores_entries_then_lines_in_place() {
        let mut store = Store::of(Sizes { p: 3, s: 1, j: 1, l: 3 });
        store.play(&[(0, 0), (1, 0), (2, 0)]);
        // 3 entries of 9 words, in 4 lines; count; 3 lines; count
        assert_eq!(store.traffic(), Traffic { bytes: 8 * (27 + 26), lines: 4 + 1 + 3 + 1, fences: 4 });
    }
}
