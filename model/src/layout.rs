//! Where each word of an image lies.

pub const WORD: u64 = 8;
pub const LINE: u64 = 64;
pub const LINES: u64 = 64;
pub const FRAME: u64 = LINE * LINES;
pub const HEADER: u64 = 8 * WORD;

/// Byte addresses of the header's words.
pub const P_AT: usize = 0;
pub const S_AT: usize = 8;
pub const J_AT: usize = 16;
pub const LAYOUT_AT: usize = 24;
pub const HEAD_AT: usize = 32;
pub const TAIL_AT: usize = 40;
/// Words 6 and 7, read under layout 2 alone (document 02, L14): the entries that a wide commit still copies, and L.
pub const COUNT_AT: usize = 48;
pub const ENTRIES_AT: usize = 56;

pub const LAYOUT: u64 = 1;
pub const WIDE_LAYOUT: u64 = 2;

/// An entry: a word for its page and line, and the line.
pub const ENTRY: u64 = WORD + LINE;

pub const MOST_PAGES: usize = 1024;
pub const MOST_SLOTS: usize = 16;
pub const MOST_ENTRIES: usize = 64;

/// P pages, S slots, J journal places and L entries. Any numbers until `in_range` was asked; the other
/// functions are for sizes in range.
#[derive(Clone, Copy, Debug, Default, PartialEq, Eq)]
pub struct Sizes {
    pub p: u64,
    pub s: u64,
    pub j: u64,
    pub l: u64,
}

impl Sizes {
    pub fn in_range(self) -> bool {
        (1..=1024).contains(&self.p)
            && (1..=16).contains(&self.s)
            && (self.s..=256).contains(&self.j)
            && self.l <= 64
    }

    /// The layout of an image of these sizes.
    pub fn layout(self) -> u64 {
        if self.l == 0 {
            LAYOUT
        } else {
            WIDE_LAYOUT
        }
    }

    /// F, the number of frames.
    pub fn frames(self) -> u64 {
        self.p + self.s
    }

    pub fn page_word(self, page: u64) -> usize {
        (HEADER + page * WORD) as usize
    }

    /// Word i (0 to 2) of a slot in the slot table.
    pub fn slot_word(self, slot: u64, i: u64) -> usize {
        (HEADER + self.p * WORD + (3 * slot + i) * WORD) as usize
    }

    /// Word i (0 to 3) of the record at a position; position q sits at place q mod J.
    pub fn record_word(self, position: u64, i: u64) -> usize {
        let place = position % self.j;
        (HEADER + self.p * WORD + self.s * 3 * WORD + (4 * place + i) * WORD) as usize
    }

    /// The frames start at the first multiple of 64 behind the journal.
    pub fn frames_start(self) -> u64 {
        let tables = HEADER + self.p * WORD + self.s * 3 * WORD + self.j * 4 * WORD;
        tables.div_ceil(64) * 64
    }

    /// The first byte of a line in a frame.
    pub fn line_start(self, frame: u64, line: u64) -> usize {
        (self.frames_start() + frame * FRAME + line * LINE) as usize
    }

    /// Word i (0 to 8) of an entry; the entries follow the frames.
    pub fn entry_word(self, entry: u64, i: u64) -> usize {
        (self.frames_start() + self.frames() * FRAME + entry * ENTRY + i * WORD) as usize
    }

    pub fn image_length(self) -> usize {
        self.entry_word(self.l, 0)
    }
}

#[cfg(test)]
mod tests {
    use super::*;

    #[test]
    fn the_small_image_of_document_01() {
        let sizes = Sizes { p: 2, s: 1, j: 2, l: 0 };
        assert_eq!(sizes.frames_start(), 192);
        assert_eq!(sizes.image_length(), 12_480);
        assert_eq!(sizes.line_start(2, 0), 8_384);
    }

    #[test]
    fn ranges_have_both_ends() {
        let ok = |p, s, j| Sizes { p, s, j, l: 0 }.in_range();
        let entries = |l| Sizes { p: 1, s: 1, j: 1, l }.in_range();
        assert!(entries(0) && entries(1) && entries(64) && !entries(65) && !entries(u64::MAX));
        assert!(ok(1, 1, 1) && ok(1024, 16, 256) && ok(1, 16, 16));
        assert!(!ok(0, 1, 1) && !ok(1025, 1, 1));
        assert!(!ok(1, 0, 0) && !ok(1, 0, 1) && !ok(1, 17, 17));
        assert!(!ok(1, 2, 1) && !ok(1, 1, 0) && !ok(1, 1, 257));
        assert!(!ok(u64::MAX, u64::MAX, u64::MAX));
    }

    #[test]
    fn tables_that_end_on_64_bytes_need_no_padding() {
        // 64 + 8 + 24 + 32 = 128.
        assert_eq!(Sizes { p: 1, s: 1, j: 1, l: 0 }.frames_start(), 128);
        assert_eq!(Sizes { p: 2, s: 1, j: 1, l: 0 }.frames_start(), 192);
    }

    #[test]
    fn entries_of_nine_words_follow_the_frames() {
        let sizes = Sizes { p: 2, s: 1, j: 2, l: 3 };
        assert_eq!((sizes.frames_start(), sizes.layout()), (192, 2));
        assert_eq!((sizes.entry_word(0, 0), sizes.entry_word(1, 8)), (12_480, 12_616));
        assert_eq!(sizes.image_length(), 12_480 + 3 * 72);
    }
}
