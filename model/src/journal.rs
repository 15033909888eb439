//! Positions in the journal and the records that sit there.

use crate::image::word;
use crate::layout::Sizes;
use crate::slots::Slot;

/// Row 5 turned round: head and tail below 2J, and at most J live.
pub fn bounds_hold(sizes: Sizes, head: u64, tail: u64) -> bool {
    head < 2 * sizes.j && tail < 2 * sizes.j && live_count(sizes, head, tail) <= sizes.j
}

/// (head − tail) mod 2J, for head and tail below 2J.
pub fn live_count(sizes: Sizes, head: u64, tail: u64) -> u64 {
    (2 * sizes.j + head - tail) % (2 * sizes.j)
}

/// The position n after another. Positions go round at 2J.
pub fn position_after(sizes: Sizes, position: u64, n: u64) -> u64 {
    (position + n) % (2 * sizes.j)
}

/// The live positions from tail on, for bounds that hold.
pub fn live_positions(sizes: Sizes, head: u64, tail: u64) -> Vec<u64> {
    (0..live_count(sizes, head, tail)).map(|i| position_after(sizes, tail, i)).collect()
}

/// A slot's new words, and the position of its transaction's first record.
#[derive(Clone, Copy, Debug, PartialEq, Eq)]
pub struct Record {
    pub first: u64,
    pub slot_number: u64,
    pub slot: Slot,
}

impl Record {
    pub fn words(self) -> [u64; 4] {
        let [page, frames, bitmap] = self.slot.words();
        [self.first + (self.slot_number << 32), page, frames, bitmap]
    }

    /// The record at a position, whatever its words are.
    pub fn read(image: &[u8], sizes: Sizes, position: u64) -> Record {
        let at = |i| word(image, sizes.record_word(position, i));
        let slot = Slot::from_words([at(1), at(2), at(3)]);
        Record { first: at(0) & 0xffff_ffff, slot_number: at(0) >> 32, slot }
    }
}

/// Row 6 turned round, for the live record at a position, given the live one before it, if any.
pub fn record_holds(sizes: Sizes, position: u64, record: Record, before: Option<Record>) -> bool {
    let own = record.first == position;
    let continues = before.is_some_and(|b| record.first == b.first && record.slot_number > b.slot_number);
    record.slot_number < sizes.s && (own || continues) && record.slot.has_shape(sizes)
}

#[cfg(test)]
mod tests {
    use super::*;

    const SIZES: Sizes = Sizes { p: 3, s: 3, j: 3, l: 0 };

    #[test]
    fn head_below_tail_goes_round() {
        assert_eq!(live_positions(SIZES, 1, 4), vec![4, 5, 0]);
        assert!(bounds_hold(SIZES, 1, 4));
        assert!(!bounds_hold(SIZES, 2, 4), "four live");
    }

    #[test]
    fn an_empty_and_a_full_journal_share_a_place_but_not_a_position() {
        for tail in 0..6 {
            let full = position_after(SIZES, tail, 3);
            assert_eq!(live_count(SIZES, tail, tail), 0);
            assert_eq!(live_count(SIZES, full, tail), 3);
            assert_eq!(SIZES.record_word(full, 0), SIZES.record_word(tail, 0));
            assert_ne!(full, tail);
        }
    }

    #[test]
    fn first_is_the_own_position_or_the_predecessors_with_a_higher_slot() {
        let record = |first, slot_number| Record { first, slot_number, slot: Slot::free(0) };
        let holds = |r, b| record_holds(SIZES, 4, r, b);
        assert!(holds(record(4, 0), None));
        assert!(!holds(record(3, 0), None), "nothing before it");
        assert!(holds(record(3, 1), Some(record(3, 0))));
        assert!(!holds(record(3, 1), Some(record(3, 1))), "same slot");
        assert!(!holds(record(3, 1), Some(record(3, 2))), "lower slot");
        assert!(!holds(record(2, 1), Some(record(3, 0))), "another first");
        assert!(holds(record(4, 0), Some(record(3, 2))), "a new transaction");
        assert!(!holds(record(4, 3), None), "slot S");
    }
}
