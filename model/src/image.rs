//! Reading and writing the words and lines of a lent buffer.

use crate::layout::LINE;

/// The word at a byte address, little-endian.
pub fn word(image: &[u8], at: usize) -> u64 {
    let mut bytes = [0; 8];
    bytes.copy_from_slice(&image[at..at + 8]);
    u64::from_le_bytes(bytes)
}

pub fn put_word(image: &mut [u8], at: usize, value: u64) {
    image[at..at + 8].copy_from_slice(&value.to_le_bytes());
}

/// The 64 bytes of the line that starts at a byte address.
pub fn line(image: &[u8], at: usize) -> [u8; LINE as usize] {
    let mut bytes = [0; LINE as usize];
    bytes.copy_from_slice(&image[at..at + LINE as usize]);
    bytes
}
