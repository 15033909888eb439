//! Lines that call, with arguments for the state at hand.

use super::pending;
use crate::compare::aim::{self, Aim};
use crate::compare::rng::Rng;
use crate::layout::Sizes;
use crate::state::State;

pub const HUGE: u64 = u64::MAX;

/// The calls that take a state, but load, and how often each is made.
const CALLS: &[(u64, char)] = &[
    (7, 'B'),
    (4, 'A'),
    (3, 'V'),
    (12, 'W'),
    (8, 'C'),
    (7, 'D'),
    (4, 'X'),
    (5, 'P'),
    (4, 'I'),
    (3, 'J'),
    (2, 'Z'),
    (7, 'K'),
    (8, 'R'),
    (4, 'S'),
    (4, 'N'),
    (4, 'n'),
    (3, 'b'),
    (2, 'a'),
    (2, 'v'),
    (8, 'w'),
    (5, 'c'),
    (4, 'd'),
    (3, 'p'),
];

/// Any call that takes a state.
pub fn any(rng: &mut Rng, state: &State) -> String {
    let letter = rng.weighted(CALLS);
    line(rng, state, letter)
}

/// A call by its letter. A letter in place is its capital's line in lower case.
pub fn line(rng: &mut Rng, state: &State, letter: char) -> String {
    if "bavwcdp".contains(letter) {
        return line(rng, state, letter.to_ascii_uppercase()).to_ascii_lowercase();
    }
    let mut aim = Aim { rng, state, huge: HUGE };
    match letter {
        'B' | 'V' => {
            let open = aim.rng.percent(15);
            format!("{letter},{}", aim.writer(open))
        }
        'A' | 'C' | 'I' => {
            let open = aim.rng.percent(80);
            format!("{letter},{}", aim.writer(open))
        }
        'J' | 'Z' => {
            let prepared = state.prepared.filter(|_| aim.rng.percent(75));
            format!("{letter},{}", prepared.unwrap_or_else(|| aim.writer(true)))
        }
        'W' => write(&mut aim),
        'D' => format!("D,{}", aim.page(85)),
        'K' => {
            let asked = pending::event(aim.rng);
            format!("K,{},{},{}", asked.kind, asked.meter, asked.amount)
        }
        'R' => {
            let open = aim.rng.percent(60);
            let writer = aim.writer(open);
            let (page, line) = place(&mut aim);
            format!("R,{writer},{page},{line},{}", target(aim.rng))
        }
        'E' => {
            let (page, line) = place(&mut aim);
            format!("E,{page},{line},{}", target(aim.rng))
        }
        'N' => {
            let some = aim.rng.below(40);
            format!("N,{}", aim.rng.pick(&[0, 1, 3, 8, some, HUGE]))
        }
        _ => letter.to_string(),
    }
}

/// A place that tells copies apart: an entry's, a held line's, or any.
fn place(aim: &mut Aim) -> (u64, u64) {
    match aim.rng.below(3) {
        0 => aim.entry_place(),
        1 => aim.held_place().unwrap_or((0, 0)),
        _ => (aim.page(50), aim.line()),
    }
}

fn write(aim: &mut Aim) -> String {
    let writer = aim.writer(true);
    let (page, line) = place(aim);
    let span = aim.span();
    aim.write_at((writer, page, line), span)
}

fn target(rng: &mut Rng) -> u64 {
    if rng.percent(5) {
        rng.pick(&[0, 1, 63])
    } else {
        rng.pick(&[64, 64, 65, 128])
    }
}

/// A format, of a right size or of a wrong one.
pub fn format(rng: &mut Rng, wrong: bool) -> String {
    let mut sizes = if wrong { aim::bad_sizes(rng, HUGE) } else { aim::sizes(rng) };
    if rng.percent(40) {
        sizes.l = rng.pick(&[0, 1, 3, 5, 64]);
    }
    if wrong && rng.percent(15) {
        sizes.l = rng.pick(&[65, HUGE]);
    }
    format_line(sizes)
}

pub fn format_line(sizes: Sizes) -> String {
    let Sizes { p, s, j, l } = sizes;
    match l {
        0 => format!("F,{p},{s},{j}"),
        _ => format!("F,{p},{s},{j},{l}"),
    }
}
