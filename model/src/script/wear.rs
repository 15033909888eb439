//! Program wear_by_frame: over many powerhit inputs, parted by lines `=`, where the stores went (document 02, L12).
//!
//! Every store is put down by its address, and a line copy is counted where eight stores of one operation went to the
//! eight words of one line, one behind the other.

use super::lines;
use super::powerhit::{Session, Stored};
use crate::layout::{FRAME, HEADER, LINE, WORD};

/// More frames do not fit into the buffer.
const FRAMES: usize = 15;

#[derive(Default)]
struct Wear {
    copies: [u64; FRAMES],
    frames: u64,
    header: u64,
    tables: u64,
    journal: u64,
    padding: u64,
    others: u64,
    writes: u64,
}

impl Wear {
    /// The stores of one line.
    fn put_down(&mut self, stored: &Stored, by_write: bool) {
        let stores = stored.at.len() as u64;
        if by_write {
            self.writes += stores;
        } else {
            self.others += stores;
        }
        let mut rising = 0;
        for (i, &at) in stored.at.iter().enumerate() {
            *self.part(stored, at) += 1;
            let Some(in_frames) = (at as u64).checked_sub(stored.sizes.frames_start()) else { continue };
            let follows = i > 0 && stored.at[i - 1] + WORD as usize == at;
            rising = match in_frames % LINE {
                0 => 1,
                _ if follows && rising > 0 => rising + 1,
                _ => 0,
            };
            if rising == LINE / WORD {
                self.copies[(in_frames / FRAME) as usize] += 1;
            }
        }
    }

    fn part(&mut self, stored: &Stored, at: usize) -> &mut u64 {
        let sizes = stored.sizes;
        let (pages, journal) = (HEADER as usize, sizes.record_word(0, 0));
        let padding = journal + 4 * WORD as usize * sizes.j as usize;
        if at < pages {
            &mut self.header
        } else if at < journal {
            &mut self.tables
        } else if at < padding {
            &mut self.journal
        } else if at < sizes.frames_start() as usize {
            &mut self.padding
        } else {
            &mut self.frames
        }
    }

    fn numbers(&self) -> Vec<u64> {
        let Wear { copies, frames, header, tables, journal, padding, others, writes } = self;
        let sums = [frames, header, tables, journal, padding, others, writes].map(|sum| *sum);
        copies.iter().copied().chain(sums).collect()
    }
}

/// The whole program: what it prints for an input.
pub fn wear(input: &[u8]) -> Vec<u8> {
    let mut wear = Wear::default();
    let mut session = Session::default();
    for line in lines::lines(input) {
        if line == b"=" {
            session = Session::default();
            continue;
        }
        session.turn(line);
        wear.put_down(session.stored(), line.first() == Some(&b'W'));
    }
    wear.numbers().iter().map(|number| format!("{number}\n")).collect::<String>().into_bytes()
}
