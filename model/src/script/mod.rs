//! The programs powerhit, probe and wear_by_frame, as functions from the bytes read to the bytes printed.

pub mod lines;
pub mod powerhit;
pub mod probe;
pub mod wear;

/// The programs work on a buffer of this many bytes.
pub const BUFFER: usize = 65_536;

/// The letter in front of each line, and of each printed line of another form.
pub const OTHER_FORM: char = '?';
