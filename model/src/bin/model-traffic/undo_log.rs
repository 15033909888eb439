//! A hardware undo log: source document 003 (ATOM).

use crate::scheme::{Line, Scheme, Traffic};

/// Section IV-C, "Log Record Organization": a record is seven lines of old values and one header line with their addresses.
pub const ENTRIES_OF_RECORD: u64 = 7;

#[derive(Default)]
pub struct UndoLog(Traffic);

impl Scheme for UndoLog {
    fn play(&mut self, lines: &[Line]) {
        let lines = lines.len() as u64;
        // Section III-B: a line's old value is logged once, on the first write.
        self.0.add_lines(lines);
        // Section IV-C: a header is written when its record is full, or before a line that it names is.
        self.0.add_lines(lines.div_ceil(ENTRIES_OF_RECORD));
        // Section III-A, Figure 2(b): the modified lines are flushed in place, which is waited for, before Atomic_End. That the log
        // goes first is kept by the memory controller (III-C), and the log is cleared in its registers (IV-C): neither is a fence or a write.
        self.0.add_lines(lines);
        self.0.fences += 1;
    }

    fn traffic(&self) -> Traffic {
        self.0
    }
}

#[cfg(test)]
mod tests {
    use super::*;

    #[test]
    fn two_lines_are_two_entries_a_header_and_two_lines() {
        let mut scheme = UndoLog::default();
        scheme.play(&[(0, 0), (1, 0)]);
        assert_eq!(scheme.traffic(), Traffic { bytes: 320, lines: 5, fences: 1 });
    }

    #[test]
    fn forty_lines_need_six_headers() {
        let mut scheme = UndoLog::default();
        scheme.play(&(0..40).map(|page| (page, 0)).collect::<Vec<_>>());
        assert_eq!(scheme.traffic(), Traffic { bytes: 5504, lines: 40 + 6 + 40, fences: 1 });
    }
}
