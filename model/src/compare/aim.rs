//! Arguments that make sense for the state at hand, mostly; and some just out of range.

use super::rng::Rng;
use crate::layout::Sizes;
use crate::script::BUFFER;
use crate::slots::lines_of;
use crate::state::{State, WRITERS};

/// Sizes that fit the buffer: mostly small ones, some that fill it.
pub fn sizes(rng: &mut Rng) -> Sizes {
    match rng.below(10) {
        0 => snug(rng),
        1 => {
            let (p, s) = (rng.between(1, 8), rng.between(1, 6));
            Sizes { p, s, j: rng.between(s, 40), l: 0 }
        }
        _ => small(rng),
    }
}

pub fn small(rng: &mut Rng) -> Sizes {
    let (p, s) = (rng.between(1, 4), rng.between(1, 3));
    Sizes { p, s, j: rng.between(s, 5), l: 0 }
}

/// As many journal places as 14 or 15 frames leave room for.
fn snug(rng: &mut Rng) -> Sizes {
    let frames = rng.between(14, 15);
    let s = rng.between(1, 13);
    let mut sizes = Sizes { p: frames - s, s, j: 256, l: 0 };
    while sizes.image_length() > BUFFER {
        sizes.j -= 1;
    }
    sizes
}

/// Sizes that format turns back: one out of its range, or just too large for the buffer.
pub fn bad_sizes(rng: &mut Rng, huge: u64) -> Sizes {
    let mut sizes = sizes(rng);
    match rng.below(9) {
        0 => sizes.p = rng.pick(&[0, 1025, huge]),
        1 => sizes.s = rng.pick(&[0, 17, huge]),
        2 => sizes.j = rng.pick(&[0, 257, huge]),
        3 => sizes.j = sizes.s - 1,
        4 => sizes = Sizes { p: 0, s: 17, j: 0, l: 0 },
        5 => sizes = Sizes { p: 1024, s: 16, j: 256, l: 0 },
        6 => sizes = Sizes { p: 15, s: 1, j: rng.between(1, 256), l: 0 },
        _ => {
            sizes = snug(rng);
            sizes.j += 1;
        }
    }
    sizes
}

/// A few lines more often than the others, so that writers meet.
pub fn line(rng: &mut Rng) -> u64 {
    if rng.percent(80) {
        rng.pick(&[0, 0, 0, 1, 1, 2, 31, 32, 62, 63])
    } else {
        rng.below(64)
    }
}

/// A set of lines: none, all, few, most, or about half.
pub fn mask(rng: &mut Rng) -> u64 {
    let ones = |n: u32| if n == 0 { 0 } else { u64::MAX >> (64 - n) };
    match rng.below(8) {
        0 => 0,
        1 => u64::MAX,
        2 => 1 << line(rng),
        3 => rng.number() & rng.number() & rng.number() & rng.number(),
        4 => rng.number() | rng.number() | rng.number(),
        5 => rng.number(),
        _ => ones(rng.pick(&[31, 32, 32, 33, 33, 34])).rotate_left(rng.below(64) as u32),
    }
}

/// Choices of arguments beside a state; `huge` is the largest number that the program reads.
pub struct Aim<'a> {
    pub rng: &'a mut Rng,
    pub state: &'a State,
    pub huge: u64,
}

impl Aim<'_> {
    /// A writer, mostly an open one if `open`, else mostly a closed one.
    pub fn writer(&mut self, open: bool) -> u64 {
        if self.rng.percent(2) {
            return self.rng.pick(&[4, 5, self.huge]);
        }
        let fitting: Vec<u64> = (0..WRITERS as u64).filter(|&w| self.state.is_open(w) == open).collect();
        if fitting.is_empty() || self.rng.percent(8) {
            return self.rng.below(WRITERS as u64);
        }
        // The first few writers more often, so that some stay closed.
        fitting[self.rng.below(fitting.len().min(2) as u64) as usize]
    }

    /// A page, one with a slot as often as `slotted` percent.
    pub fn page(&mut self, slotted: u64) -> u64 {
        let p = self.state.sizes.p.clamp(1, 1024);
        if self.rng.percent(2) {
            return self.rng.pick(&[p, p + 1, self.huge]);
        }
        let pages: Vec<u64> =
            self.state.slots_used().iter().map(|slot| slot.page).filter(|&page| page < p).collect();
        if !pages.is_empty() && self.rng.percent(slotted) {
            return self.rng.pick(&pages);
        }
        self.rng.below(p)
    }

    /// A page and a line of it: one with an entry in half the cases, if there is any.
    pub fn entry_place(&mut self) -> (u64, u64) {
        let used = self.state.wide.keys_used();
        if !used.is_empty() && self.rng.percent(50) {
            let key = self.rng.pick(used);
            return (key / 64, key % 64);
        }
        (self.page(50), self.line())
    }

    /// A page and a line that a writer holds, if there is any.
    pub fn held_place(&mut self) -> Option<(u64, u64)> {
        let slots = 0..self.state.slot_count();
        let held = |slot: usize| self.state.writers.iter().fold(0, |all, writer| all | writer.held[slot]);
        let places: Vec<(u64, u64)> = slots
            .flat_map(|slot| lines_of(held(slot)).into_iter().map(move |line| (slot, line)))
            .map(|(slot, line)| (self.state.slots[slot].page, line))
            .collect();
        (!places.is_empty()).then(|| self.rng.pick(&places))
    }

    /// A line, now and then out of range.
    pub fn line(&mut self) -> u64 {
        if self.rng.percent(2) {
            self.rng.pick(&[64, 65, self.huge])
        } else {
            line(self.rng)
        }
    }

    /// Offset and length that do not fit a line.
    pub fn bad_span(&mut self) -> (u64, u64) {
        let huge = self.huge;
        self.rng.pick(&[(0, 0), (64, 1), (0, 65), (63, 2), (64, 0), (huge, 1), (1, huge), (huge, huge)])
    }

    /// Offset and length, mostly within the line.
    pub fn span(&mut self) -> (u64, u64) {
        if self.rng.percent(5) {
            return self.bad_span();
        }
        let offset = self.rng.pick(&[0, 0, 1, 7, 8, 31, 60, 63]);
        let most = 64 - offset;
        let length = match self.rng.below(4) {
            0 => 1,
            1 => most,
            _ => self.rng.between(1, most.min(9)),
        };
        (offset, length)
    }

    /// A call that both programs have, by its letter; `reopened` percent of the begins are mostly by an open writer.
    pub fn call(&mut self, letter: u8, reopened: u64) -> String {
        match letter {
            b'B' => {
                let open = self.rng.percent(reopened);
                format!("B,{}", self.writer(open))
            }
            b'C' | b'A' => format!("{},{}", char::from(letter), self.writer(true)),
            b'W' => {
                let writer = self.writer(true);
                self.write(writer)
            }
            b'D' => format!("D,{}", self.page(85)),
            _ => char::from(letter).to_string(),
        }
    }

    /// A write's line by a given writer.
    pub fn write(&mut self, writer: u64) -> String {
        let (page, line) = (self.page(40), self.line());
        let span = self.span();
        self.write_at((writer, page, line), span)
    }

    pub fn write_at(
        &mut self,
        (writer, page, line): (u64, u64, u64),
        (offset, length): (u64, u64),
    ) -> String {
        let bytes = match self.rng.below(30) {
            0 => length.saturating_sub(1),
            1 => length.saturating_add(1),
            2 => 64,
            3 => 0,
            _ => length,
        };
        let mut said = format!("W,{writer},{page},{line},{offset},{length}");
        // One byte over and over, out of two, in a third of the writes: some of them change nothing.
        let one = self.rng.percent(33).then(|| self.rng.pick(&[0, 0, 7]));
        for _ in 0..bytes.min(64) {
            said.push_str(&format!(",{}", one.unwrap_or_else(|| self.rng.below(256))));
        }
        said
    }
}
