//! Asynchronous undo logging: source document 002 (ASAP).

use crate::scheme::{Line, Scheme, Traffic};
use crate::undo_log::ENTRIES_OF_RECORD;

/// What becomes of the log's writes. Section 5.1, "LPO dropping": one that is still queued when its round commits is dropped, so that the queue's
/// speed decides; these are the bounds.
#[derive(Clone, Copy, PartialEq, Eq)]
pub enum LogWrites {
    Sent,
    Dropped,
}

pub struct Asynchronous {
    log_writes: LogWrites,
    traffic: Traffic,
}

impl Asynchronous {
    pub fn with(log_writes: LogWrites) -> Asynchronous {
        Asynchronous { log_writes, traffic: Traffic::default() }
    }
}

impl Scheme for Asynchronous {
    fn play(&mut self, lines: &[Line]) {
        let lines = lines.len() as u64;
        if self.log_writes == LogWrites::Sent {
            // Section 4.6.1: the first write to a line logs its old value.
            self.traffic.add_lines(lines);
            // Section 5.5: a header, one line (6.2), leaves its queue when its record is full; the last one stays there and dies with the
            // commit. How many entries fill a record the text does not say; it names 003's log as the same.
            self.traffic.add_lines(lines / ENTRIES_OF_RECORD);
        }
        // Section 4.6.2: every line of the round is written in place, once.
        self.traffic.add_lines(lines);
        // Section 5.2: asap_fence after the round, which is to be durable.
        self.traffic.fences += 1;
    }

    fn traffic(&self) -> Traffic {
        self.traffic
    }
}

#[cfg(test)]
mod tests {
    use super::*;

    fn played(log_writes: LogWrites, pages: u64) -> Traffic {
        let mut scheme = Asynchronous::with(log_writes);
        scheme.play(&(0..pages).map(|page| (page, 0)).collect::<Vec<_>>());
        scheme.traffic()
    }

    #[test]
    fn two_lines_are_two_entries_and_two_lines() {
        assert_eq!(played(LogWrites::Sent, 2), Traffic { bytes: 256, lines: 4, fences: 1 });
        assert_eq!(played(LogWrites::Dropped, 2), Traffic { bytes: 128, lines: 2, fences: 1 });
    }

    #[test]
    fn forty_lines_fill_five_records() {
        assert_eq!(played(LogWrites::Sent, 40), Traffic { bytes: 5440, lines: 40 + 5 + 40, fences: 1 });
        assert_eq!(played(LogWrites::Dropped, 40), Traffic { bytes: 2560, lines: 40, fences: 1 });
    }
}
