//! Texts for load, and the lines that put them into the buffer.

use crate::compare::rng::Rng;
use crate::meters::METERS;
use crate::refusal::Refusal;
use crate::script::BUFFER;

/// 24 lines `meter,modulus`, right or with some damage.
pub fn any(rng: &mut Rng) -> Vec<u8> {
    let mut lines: Vec<String> = (0..METERS).map(|meter| format!("{meter},{}", modulus(rng))).collect();
    for _ in 0..rng.pick(&[0, 0, 1, 1, 2]) {
        damage(rng, &mut lines);
    }
    let mut text = lines.iter().map(|line| format!("{line}\n")).collect::<String>().into_bytes();
    match rng.below(12) {
        0 => drop(text.pop()),
        1 => text.push(rng.pick(b"\n0,")),
        2 => text.truncate(rng.below(text.len() as u64 + 1) as usize),
        _ => {}
    }
    text
}

/// A text that the row says something of, if it is one of load's own.
pub fn for_row(rng: &mut Rng, row: u8) -> Vec<u8> {
    loop {
        let text = any(rng);
        let read = crate::meters::read_moduli(&text).err().map(Refusal::number);
        if read == (row == 25 || row == 26).then_some(row) {
            return text;
        }
    }
}

fn modulus(rng: &mut Rng) -> u64 {
    rng.pick(&[100, 101, 10_000, 1_000_000, 100_000_000, 1_000_000_000_000])
}

fn damage(rng: &mut Rng, lines: &mut Vec<String>) {
    let at = rng.below(lines.len() as u64) as usize;
    let line = lines[at].clone();
    let (meter, modulus) = line.split_once(',').unwrap_or((&line, ""));
    let changed = match rng.below(14) {
        0 => format!("{meter},0{modulus}"),
        1 => format!("0{meter},{modulus}"),
        2 => format!("{meter}, {modulus}"),
        3 => format!("{meter},{modulus},"),
        4 => format!("{meter},"),
        5 => format!("{meter},+{modulus}"),
        6 => format!("{meter},{modulus}\r"),
        7 => format!("{}{modulus}", at + 1),
        8 => format!("{meter},99"),
        9 => format!("{meter},0"),
        10 => format!("{meter},1000000000001"),
        11 => format!("{meter},{}", rng.pick(&["18446744073709551716", "100000000000000000000000000000"])),
        12 => {
            lines.remove(at);
            return;
        }
        _ => {
            lines.insert(at, line);
            return;
        }
    };
    lines[at] = changed;
}

/// Where a text goes: behind an image, or at the buffer's end where there is no room.
pub fn start(text: &[u8], behind: usize) -> usize {
    behind.next_multiple_of(8).min(BUFFER - 8 * text.len().div_ceil(8))
}

/// The lines U that put a text there.
pub fn put(text: &[u8], start: usize) -> Vec<String> {
    let words = text.chunks(8).enumerate().map(|(i, chunk)| {
        let mut word = [0; 8];
        word[..chunk.len()].copy_from_slice(chunk);
        format!("U,{},{}", start / 8 + i, u64::from_le_bytes(word))
    });
    words.collect()
}

/// A byte of a text to be changed, often the first digit of a modulus, and to what.
pub fn other_byte(rng: &mut Rng, text: &[u8]) -> Option<(usize, u8)> {
    let firsts: Vec<usize> = (1..text.len()).filter(|&at| text[at - 1] == b',').collect();
    if !firsts.is_empty() && rng.percent(60) {
        return Some((rng.pick(&firsts), rng.pick(b"00012,\n")));
    }
    (!text.is_empty()).then(|| (rng.below(text.len() as u64) as usize, rng.pick(b"0149,\n\r +")))
}
