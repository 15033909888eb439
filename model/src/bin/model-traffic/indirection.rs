//! Lines written out of place, found by the memory's own indirection table: source document 000 (EHOU).

use std::collections::HashSet;

use crate::scheme::{Line, Scheme, Traffic, WORD};

/// Section III-C: an address is mapped to a device address. The text gives no width of a table entry: the device address is taken as a word.
const ENTRY: u64 = WORD;

/// Section IV-A, Table I: 8,192 sets of 16 ways. Fewer lines than that are played, so that nothing is evicted and the overflow log
/// (III-C) stays empty.
const CACHED: usize = 8192 * 16;

#[derive(Default)]
pub struct Indirection {
    /// The lines whose entry is committed in the table's cache and not yet in the table.
    committed: HashSet<Line>,
    traffic: Traffic,
}

impl Scheme for Indirection {
    fn play(&mut self, lines: &[Line]) {
        for &line in lines {
            // Section III-A: the line goes to a free block.
            self.traffic.add_lines(1);
            // Section III-B, Figure 4: an entry is written to the table when a later round overwrites its line. It is one write of its own.
            if !self.committed.insert(line) {
                self.traffic.bytes += ENTRY;
                self.traffic.lines += 1;
            }
        }
        assert!(self.committed.len() <= CACHED, "the table's cache overflows");
        // Section III-B: a commit turns bits in the cache, which outlives a cut. The text names no fence: that the lines
        // have reached the memory by then (tx_end, IV-A) is counted as one.
        self.traffic.fences += 1;
    }

    fn traffic(&self) -> Traffic {
        self.traffic
    }
}

#[cfg(test)]
mod tests {
    use super::*;

    #[test]
    fn an_overwritten_line_writes_its_old_entry() {
        let mut scheme = Indirection::default();
        scheme.play(&[(0, 0), (1, 0)]);
        assert_eq!(scheme.traffic(), Traffic { bytes: 128, lines: 2, fences: 1 });
        // line 0 of page 0 again: two lines and one entry
        scheme.play(&[(0, 0), (1, 1)]);
        assert_eq!(scheme.traffic(), Traffic { bytes: 128 + 136, lines: 2 + 3, fences: 2 });
    }
}
