//! Speculative logging in software: source document 001 (SpecPMT).

use crate::scheme::{Line, Scheme, Traffic, LINE, WORD};

/// Section 4.1: a record starts with its size and its checksum, which also says that it is committed. The text gives no widths: words are taken.
const METADATA: u64 = 2 * WORD;
/// Section 4.1: an entry is the address, the size and the value of what was written.
const ENTRY: u64 = 2 * WORD + LINE;

/// When written lines go to their places. Section 3: they need not, since recovery replays the log.
#[derive(Clone, Copy, PartialEq, Eq)]
pub enum Data {
    /// The variant SpecSPMT-DP of section 7.1: with each commit.
    AtCommit,
    /// SpecSPMT: when the cache evicts them, which is not counted.
    Later,
}

pub struct Speculative {
    data: Data,
    /// Where the next record goes: section 4.1, records are appended one behind the other.
    tail: u64,
    traffic: Traffic,
}

impl Speculative {
    pub fn with(data: Data) -> Speculative {
        Speculative { data, tail: 0, traffic: Traffic::default() }
    }
}

impl Scheme for Speculative {
    fn play(&mut self, lines: &[Line]) {
        let lines = lines.len() as u64;
        let record = METADATA + ENTRY * lines;
        let end = self.tail + record;
        self.traffic.bytes += record;
        self.traffic.lines += end.div_ceil(LINE) - self.tail / LINE;
        self.tail = end;
        if self.data == Data::AtCommit {
            self.traffic.add_lines(lines);
        }
        // Section 3 and Figure 2: one fence a transaction, before it commits.
        self.traffic.fences += 1;
    }

    fn traffic(&self) -> Traffic {
        self.traffic
    }
}

#[cfg(test)]
mod tests {
    use super::*;

    #[test]
    fn a_round_of_two_lines_logs_176_bytes() {
        let mut scheme = Speculative::with(Data::Later);
        scheme.play(&[(0, 0), (1, 0)]);
        assert_eq!(scheme.traffic(), Traffic { bytes: 176, lines: 3, fences: 1 });
        // bytes 176 to 351: the first one lies in the third line, the last in the sixth
        scheme.play(&[(0, 1), (1, 1)]);
        assert_eq!(scheme.traffic(), Traffic { bytes: 352, lines: 3 + 4, fences: 2 });
    }

    #[test]
    fn with_each_commit_the_lines_go_out_too() {
        let mut scheme = Speculative::with(Data::AtCommit);
        scheme.play(&(0..40).map(|page| (page, 0)).collect::<Vec<_>>());
        // 16 + 40 x 80 bytes of log, in 51 lines
        assert_eq!(scheme.traffic(), Traffic { bytes: 3216 + 2560, lines: 51 + 40, fences: 1 });
    }
}
