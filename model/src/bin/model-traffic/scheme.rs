//! What a scheme of making a round atomic writes to memory, counted.

/// A line of a page, by their numbers.
pub type Line = (u64, u64);

/// A line of memory or of the cache, in bytes.
pub const LINE: u64 = 64;
pub const WORD: u64 = 8;

/// What reached the memory, and what was waited for.
#[derive(Clone, Copy, Debug, Default, PartialEq, Eq)]
pub struct Traffic {
    /// Bytes stored, whole lines where the scheme stores nothing smaller.
    pub bytes: u64,
    /// Lines of 64 bytes written back, each once between two fences.
    pub lines: u64,
    pub fences: u64,
}

impl Traffic {
    /// Lines that are written whole.
    pub fn add_lines(&mut self, lines: u64) {
        self.bytes += LINE * lines;
        self.lines += lines;
    }
}

pub trait Scheme {
    /// One atomic round, durable when it returns: each of these lines, all different, is written whole.
    fn play(&mut self, lines: &[Line]);

    /// Of all rounds since the start.
    fn traffic(&self) -> Traffic;
}
