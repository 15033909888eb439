//! The meters of document 02, "Meters on the store" and "A venue's own moduli": which events there are, what each does to the numbers, and a table of
//! moduli as text.

use std::ops::RangeInclusive;

use crate::refusal::{row, Answer, Refusal::*};

/// Meter 0 is credit; the events 1 to 4 move it and the meter of their own number, a count (5) moves one of 5 to 23.
pub const CREDIT: u64 = 0;
pub const COUNT: u64 = 5;
pub const METERS: usize = 24;

/// The moduli of a host that loads none.
pub fn fixed_moduli() -> Vec<u64> {
    let counts = [(5, 100_000_000), (10, 1_000_000), (9, 10_000)];
    counts.iter().flat_map(|&(n, modulus)| vec![modulus; n]).collect()
}

pub const RANGE: RangeInclusive<u64> = 100..=1_000_000_000_000;

/// Row 26 of an event.
pub fn moduli_fit(moduli: &[u64]) -> bool {
    moduli.len() == METERS && moduli.iter().all(|modulus| RANGE.contains(modulus))
}

/// The moduli of a text: rows 25 and 26, line by line.
pub fn read_moduli(text: &[u8]) -> Answer<Vec<u64>> {
    let mut rest = text;
    let mut moduli = vec![];
    for meter in 0..METERS {
        let end = rest.iter().position(|&byte| byte == b'\n').ok_or(BadTableLine)?;
        let start = format!("{meter},");
        let digits = rest[..end].strip_prefix(start.as_bytes()).ok_or(BadTableLine)?;
        moduli.push(modulus(digits)?);
        rest = &rest[end + 1..];
    }
    row(BadTableLine, !rest.is_empty())?;
    Ok(moduli)
}

/// A decimal without leading zeros, of any length; 13 digits hold every modulus.
fn modulus(digits: &[u8]) -> Answer<u64> {
    let plain = digits == b"0"
        || (digits.first().is_some_and(|&first| first != b'0') && digits.iter().all(u8::is_ascii_digit));
    row(BadTableLine, !plain)?;
    row(ModulusOutOfRange, digits.len() > 13)?;
    let value = digits.iter().fold(0, |value, digit| 10 * value + u64::from(digit - b'0'));
    row(ModulusOutOfRange, !RANGE.contains(&value))?;
    Ok(value)
}

/// An event as it is asked for. The meter matters to a count alone.
#[derive(Clone, Copy, Debug, PartialEq, Eq)]
pub struct Asked {
    pub kind: u64,
    pub meter: u64,
    pub amount: u64,
}

impl Asked {
    /// The meters that it moves, credit first; none if there is no such event.
    pub fn meters(self) -> Vec<u64> {
        match self.kind {
            1..=4 => vec![CREDIT, self.kind],
            COUNT if (5..=23).contains(&self.meter) => vec![self.meter],
            _ => vec![],
        }
    }

    /// The new number of one of its meters, or none if the amount is out of range there.
    pub fn moved(self, meter: u64, stored: u64, moduli: &[u64]) -> Option<u64> {
        let (stored, amount) = (i128::from(stored), i128::from(self.amount));
        let modulus = i128::from(moduli[meter as usize]);
        if meter != CREDIT {
            return (amount < modulus).then_some(((stored + amount) % modulus) as u64);
        }
        let sign = if self.kind == 1 || self.kind == 4 { 1 } else { -1 };
        let credit = stored + sign * amount;
        (0..modulus).contains(&credit).then_some(credit as u64)
    }
}
