//! Scripts for probe: the calls on states and images that are right, nearly right, or broken.
//!
//! - `asked`: lines that call, with arguments for the state at hand
//! - `right`, `broken`, `pending`: whole states, those that one clause of row 8 breaks, and pending operations
//! - `setting`: the lines that make one state of another
//! - `images`: whole images and their damage
//! - `metering`, `text`: meters and moduli, and texts for load
//! - `rounds`: runs from a format on, and their cuts
//! - `scenes`: a part of a script for each target of `reach`
//! - `scribe`: a script as it grows

mod asked;
mod broken;
mod images;
mod metering;
mod pending;
mod right;
mod rounds;
mod scenes;
mod scribe;
mod setting;
mod text;

use super::malform::malform;
use super::reach::targets;
use super::rng::Rng;
use crate::validity::is_broken;
pub use pending::left_open;
use scribe::Scribe;

const DIGITS: usize = 20;

#[derive(Clone, Copy)]
enum Part {
    Target,
    Play,
    EditState,
    PastPlaces,
    Malformed,
    Wholesale,
}

/// How many targets each script is led to, so that 600 scripts are led to each one three times.
const TARGETS: u64 = 2;

/// Script number `index`: a part for each of the targets whose turn it is, then parts of every sort.
pub fn script(rng: Rng, index: u64, limit: usize) -> Vec<u8> {
    let mut scribe = Scribe::new(rng);
    if scribe.rng.percent(95) {
        format(&mut scribe);
    }
    let all = targets();
    for turn in TARGETS * index..TARGETS * (index + 1) {
        scenes::reach(&mut scribe, all[(turn % all.len() as u64) as usize]);
    }
    while scribe.length() < limit {
        part(&mut scribe);
    }
    scribe.part(None, |draft| {
        draft.say("G");
        draft.say("H");
    });
    scribe.script()
}

fn format(scribe: &mut Scribe) {
    scribe.ask_format(false);
    scribe.finish();
}

fn part(scribe: &mut Scribe) {
    use Part::*;
    let choices =
        [(35, Target), (30, Play), (10, EditState), (6, PastPlaces), (7, Malformed), (6, Wholesale)];
    match scribe.rng.weighted(&choices) {
        Target => {
            let all = targets();
            let target = scribe.rng.pick(&all);
            scenes::reach(scribe, target);
        }
        Play => drop(scribe.part(None, |draft| {
            draft.mend();
            rounds::play(draft);
        })),
        EditState => drop(scribe.part(None, edit_state)),
        PastPlaces => drop(scribe.part(None, past_places)),
        Malformed => drop(scribe.part(None, malformed)),
        Wholesale => drop(scribe.part(None, |draft| {
            rounds::history(draft, true);
            rounds::play(draft);
        })),
    }
}

/// One number of the state changed, or a copy of another one of its sort, calls on that, and the old number again.
fn edit_state(scribe: &mut Scribe) {
    let state = scribe.state().clone();
    let numbers = setting::numbers(&state, &state);
    let field = scribe.rng.below(19);
    let like: Vec<setting::Number> = numbers.iter().copied().filter(|number| number.0 == field).collect();
    let (f, i, old) = if like.is_empty() { scribe.rng.pick(&numbers) } else { scribe.rng.pick(&like) };
    let another = scribe.rng.pick(&numbers).2;
    let mut new = scribe.rng.pick(&[old.wrapping_add(1), old.wrapping_sub(1), another, 0, 1, 2, 64]);
    new = match f {
        7 | 8 => new & 0xffff_ffff,
        11 => 1 - old,
        13 => new & 0xffff,
        // keys past the used ones are nobody's to read, so that the number of entries does not grow here
        16 => new.min(old),
        _ => new,
    };
    scribe.say(format!("T,{f},{i},{new}"));
    for _ in 0..scribe.rng.between(1, 4) {
        scribe.ask_any();
    }
    scribe.say("G");
    if is_broken(scribe.state()) && f != 16 {
        scribe.say(format!("T,{f},{i},{old}"));
    }
}

/// Numbers in places past S and entries past P, calls that must leave them, and a look at them under a larger S and P.
fn past_places(scribe: &mut Scribe) {
    scribe.mend();
    let sizes = scribe.state().sizes;
    if sizes.s >= 16 || sizes.p >= 1_000 {
        return;
    }
    for _ in 0..scribe.rng.between(1, 4) {
        let (place, value) = (scribe.rng.between(sizes.s, 15), scribe.rng.number());
        let writer = scribe.rng.below(4);
        let line = match scribe.rng.below(5) {
            0 => format!("T,13,{},{}", scribe.rng.between(sizes.p, sizes.p + 3), value % 65_536),
            1 => format!("T,7,{place},{}", value % (1 << 32)),
            2 => format!("T,12,{},{value}", 16 * writer + place),
            _ => format!("T,{},{place},{value}", scribe.rng.pick(&[6, 9, 10])),
        };
        scribe.say(line);
    }
    for _ in 0..scribe.rng.between(1, 5) {
        scribe.ask_any();
        scribe.finish();
    }
    let (s, p) = (scribe.state().sizes.s, scribe.state().sizes.p);
    for line in ["T,1,0,16".to_string(), format!("T,0,0,{}", p + 4), "G".to_string(), "B,0".to_string()] {
        scribe.say(line);
    }
    scribe.say(format!("T,1,0,{s}"));
    scribe.say(format!("T,0,0,{p}"));
}

/// Lines of another form, and lines with numbers at the ends of their ranges or just past them.
fn malformed(scribe: &mut Scribe) {
    for _ in 0..scribe.rng.between(1, 4) {
        let state = scribe.state().clone();
        let line =
            if scribe.rng.percent(50) { edge(&mut scribe.rng) } else { asked::any(&mut scribe.rng, &state) };
        if scribe.rng.percent(40) {
            scribe.say(line);
        } else {
            let line = malform(&mut scribe.rng, line.as_bytes(), DIGITS);
            scribe.say(line);
        }
    }
    scribe.say("G");
}

/// A line that sets something, with numbers at the ends of their ranges.
fn edge(rng: &mut Rng) -> String {
    let huge = u64::MAX;
    match rng.below(14) {
        0 => format!("L,{}", rng.pick(&[65_536, 65_537])),
        1 => format!("Y,{},{}", rng.pick(&[0, 65_535, 65_536]), rng.pick(&[0, 255, 256])),
        2 => format!("U,{},{}", rng.pick(&[8_191, 8_192]), rng.number()),
        3 => format!("T,{},{},{}", rng.pick(&[6, 9, 10, 12]), rng.pick(&[15, 16, 63, 64]), rng.below(3)),
        4 => format!("T,{},15,{}", rng.between(7, 8), rng.pick(&[(1 << 32) - 1, 1 << 32, huge])),
        5 => format!("T,{},{},0", rng.pick(&[0, 5, 14, 15, 18, 19]), rng.pick(&[1, huge])),
        6 => format!("T,13,{},{}", rng.pick(&[1_023, 1_024]), rng.pick(&[65_535, 65_536])),
        7 => format!("T,17,{},0", rng.pick(&[64, huge])),
        8 => format!("T,11,{},{}", rng.pick(&[4, 3]), rng.pick(&[2, huge])),
        9 => format!("O,{},0,0,0,0,0,0", rng.pick(&[11, 12, huge])),
        10 => format!("Q,{},{}", rng.pick(&[63, 64, 127, 128]), rng.pick(&[0, 255, 256])),
        11 => format!("m,{},{}", rng.pick(&[23, 24]), rng.pick(&[100, 1_000_000])),
        12 => format!("k,{}", rng.pick(&[24, 25])),
        _ => format!("l,{},{}", rng.pick(&[65_536, 65_535, huge]), rng.pick(&[0, 1, 2])),
    }
}
