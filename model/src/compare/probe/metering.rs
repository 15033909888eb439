//! The meters, the moduli that events are lent, and loads.

use super::asked::HUGE;
use super::scribe::Scribe;
use super::text;
use crate::image::word;
use crate::meters::{fixed_moduli, read_moduli, METERS, RANGE};
use crate::state::State;

/// A text for a row, then the same text with single bytes changed.
pub fn load(scribe: &mut Scribe, state: &State, row: u8) {
    let text = text::for_row(&mut scribe.rng, row);
    let start = text::start(&text, state.sizes.image_length());
    scribe.say_all(text::put(&text, start));
    if let Ok(moduli) = read_moduli(&text) {
        clear_meters(scribe, state);
        let line = scribe.rng.below(24);
        let stored = moduli[line as usize] - if row == 27 { 0 } else { 1 };
        scribe.say(format!("U,{},{stored}", meter_word(state, line)));
    }
    let load = format!("l,{start},{}", text.len());
    scribe.say(&load);
    for _ in 0..scribe.rng.between(2, 6) {
        let Some((at, byte)) = text::other_byte(&mut scribe.rng, &text) else { return };
        scribe.say(format!("Y,{},{byte}", start + at));
        scribe.say(&load);
        scribe.say(format!("Y,{},{}", start + at, text[at]));
    }
}

/// Zero in every committed meter that is not.
fn clear_meters(scribe: &mut Scribe, state: &State) {
    for line in 0..24 {
        let at = meter_word(state, line);
        if word(scribe.session.buffer(), 8 * at) != 0 {
            scribe.say(format!("U,{at},0"));
        }
    }
}

/// The word of a committed meter.
fn meter_word(state: &State, line: u64) -> usize {
    state.sizes.line_start(state.committed_frame(0, line), line) / 8
}

/// Numbers in the committed meters: small ones, and some at the ends of what events and loads take.
pub fn set_meters(scribe: &mut Scribe, state: &State, row: u8) {
    let least = if row == 0 { 0 } else { 1 };
    for _ in 0..scribe.rng.between(least, 4) {
        let line = scribe.rng.pick(&[0, 0, 0, 1, 2, 3, 4, 5, 14, 15, 23]);
        let near = 100_000_000 - scribe.rng.pick(&[1, 1, 2, 99, 100]);
        let value =
            scribe.rng.pick(&[0, 1, 99, 100, 250, 9_999, 999_999, near, near, near, 100_000_000, HUGE]);
        scribe.say(format!("U,{},{value}", meter_word(state, line)));
    }
}

/// Credit just below the upper end that L2's table gives it.
pub fn set_credit(scribe: &mut Scribe, state: &State) {
    let below = scribe.rng.pick(&[0, 1, 1, 2, 99, 100]);
    scribe.say(format!("U,{},{}", meter_word(state, 0), 100_000_000 - below));
}

/// Now and then other moduli, at the ends of their range, and fewer of them; mostly right ones again where row 26 is not wanted.
pub fn set_moduli(scribe: &mut Scribe, row: u8) {
    if row != 26 && scribe.rng.percent(90) {
        mend_moduli(scribe);
    }
    let percent = if row == 26 { 60 } else { 8 };
    if scribe.rng.percent(percent) {
        let i = scribe.rng.below(24);
        let value = scribe.rng.pick(&[99, 100, 100, 150, 1_000_000_000_000, 1_000_000_000_001, 0, HUGE]);
        scribe.say(format!("m,{i},{value}"));
    }
    if scribe.rng.percent(percent / 3) {
        let n = scribe.rng.pick(&[0, 23, 24]);
        scribe.say(format!("k,{n}"));
    }
}

/// All 24 moduli lent, those out of range replaced by L2's.
fn mend_moduli(scribe: &mut Scribe) {
    if scribe.session.moduli().len() != METERS {
        scribe.say(format!("k,{METERS}"));
    }
    for (i, modulus) in fixed_moduli().into_iter().enumerate() {
        if !RANGE.contains(&scribe.session.moduli()[i]) {
            scribe.say(format!("m,{i},{modulus}"));
        }
    }
}
