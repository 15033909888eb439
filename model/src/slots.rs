//! A slot: a page with two frames, and which of the two has the committed copy of each line.

use crate::layout::Sizes;

pub const FREE_PAGE: u64 = u64::MAX;
pub const FREE_ORIGINAL: u64 = u32::MAX as u64;

/// A slot's numbers as they stand; they may have no proper shape until that was asked.
#[derive(Clone, Copy, Debug, Default, PartialEq, Eq)]
pub struct Slot {
    pub page: u64,
    pub original: u64,
    pub spare: u64,
    pub bitmap: u64,
}

impl Slot {
    pub fn free(spare: u64) -> Slot {
        Slot { page: FREE_PAGE, original: FREE_ORIGINAL, spare, bitmap: 0 }
    }

    pub fn from_words(words: [u64; 3]) -> Slot {
        let [page, frames, bitmap] = words;
        Slot { page, original: frames & 0xffff_ffff, spare: frames >> 32, bitmap }
    }

    /// Page; original + 2^32 × spare; committed bitmap. For a slot of a proper shape.
    pub fn words(self) -> [u64; 3] {
        [self.page, self.original + (self.spare << 32), self.bitmap]
    }

    pub fn is_owning(self, sizes: Sizes) -> bool {
        let frames = sizes.frames();
        self.page < sizes.p && self.original < frames && self.spare < frames && self.original != self.spare
    }

    pub fn is_free(self, sizes: Sizes) -> bool {
        self == Slot::free(self.spare) && self.spare < sizes.frames()
    }

    pub fn has_shape(self, sizes: Sizes) -> bool {
        self.is_owning(sizes) || self.is_free(sizes)
    }

    /// The frame with the committed copy of a line.
    pub fn committed_frame(self, line: u64) -> u64 {
        if has_line(self.bitmap, line) {
            self.spare
        } else {
            self.original
        }
    }

    /// The frame that is not the committed one; a writer's own copy of a held line is there.
    pub fn other_frame(self, line: u64) -> u64 {
        if has_line(self.bitmap, line) {
            self.original
        } else {
            self.spare
        }
    }
}

/// Whether a line (0 to 63) is in a set of lines kept as a mask.
pub fn has_line(mask: u64, line: u64) -> bool {
    (mask >> line) & 1 == 1
}

/// The lines of a mask, rising.
pub fn lines_of(mask: u64) -> Vec<u64> {
    (0..64).filter(|&line| has_line(mask, line)).collect()
}

/// Whether the spares and the map's entries together name each frame once.
pub fn each_frame_once(slots: &[Slot], map: &[u64], sizes: Sizes) -> bool {
    let mut named = vec![0; sizes.frames() as usize];
    for frame in slots.iter().map(|slot| slot.spare).chain(map[..sizes.p as usize].iter().copied()) {
        match named.get_mut(usize::try_from(frame).expect("a frame's number is a word")) {
            Some(count) => *count += 1,
            None => return false,
        }
    }
    named.iter().all(|&count| count == 1)
}

/// The slot that owns a page, if any.
pub fn slot_owning(slots: &[Slot], sizes: Sizes, page: u64) -> Option<usize> {
    slots.iter().position(|slot| slot.is_owning(sizes) && slot.page == page)
}

/// Whether some page is in two slots.
pub fn page_twice(slots: &[Slot], sizes: Sizes) -> bool {
    let owning: Vec<u64> = slots.iter().filter(|slot| slot.is_owning(sizes)).map(|slot| slot.page).collect();
    (0..owning.len()).any(|i| owning[..i].contains(&owning[i]))
}

#[cfg(test)]
mod tests {
    use super::*;

    const SIZES: Sizes = Sizes { p: 2, s: 2, j: 2, l: 0 };

    #[test]
    fn the_words_of_a_slot_come_back() {
        let slot = Slot { page: 1, original: 3, spare: 2, bitmap: 9 };
        assert_eq!(slot.words(), [1, 3 + (2 << 32), 9]);
        assert_eq!(Slot::from_words(slot.words()), slot);
        assert_eq!(Slot::free(2).words(), [u64::MAX, 12_884_901_887, 0]);
    }

    #[test]
    fn shapes() {
        let shaped = |page, original, spare, bitmap| Slot { page, original, spare, bitmap }.has_shape(SIZES);
        assert!(shaped(1, 0, 3, u64::MAX));
        assert!(!shaped(2, 0, 3, 0), "page P");
        assert!(!shaped(1, 4, 3, 0) && !shaped(1, 0, 4, 0), "frame F");
        assert!(!shaped(1, 3, 3, 0), "one frame for both");
        assert!(shaped(FREE_PAGE, FREE_ORIGINAL, 3, 0));
        assert!(!shaped(FREE_PAGE, FREE_ORIGINAL, 4, 0), "spare F");
        assert!(!shaped(FREE_PAGE, FREE_ORIGINAL, 3, 1), "a bitmap in a free slot");
        assert!(!shaped(FREE_PAGE, 0, 3, 0), "an original in a free slot");
        assert!(!shaped(FREE_PAGE - 1, FREE_ORIGINAL, 3, 0));
    }

    #[test]
    fn a_set_bit_means_the_spare_is_committed() {
        let slot = Slot { page: 0, original: 5, spare: 7, bitmap: 1 << 63 };
        assert_eq!((slot.committed_frame(63), slot.other_frame(63)), (7, 5));
        assert_eq!((slot.committed_frame(0), slot.other_frame(0)), (5, 7));
        assert_eq!(lines_of(slot.bitmap | 1), vec![0, 63]);
    }
}
