//! Scripts for powerhit: game rounds with cuts and mounts, formats that are cut, and in some of them lines of another form.

use super::aim::{self, Aim};
use super::malform::malform;
use super::rng::Rng;
use super::scribe;
use crate::script::powerhit::Session;
use crate::state::WRITERS;

type Scribe = scribe::Scribe<Session>;

const HUGE: u64 = 999_999_999;
const DIGITS: usize = 9;

#[derive(Clone, Copy)]
enum Action {
    Round,
    Call,
    Fill,
    Format,
    CutFormat,
}

pub fn script(rng: Rng, limit: usize) -> Vec<u8> {
    let mut scribe = Scribe::new(rng, limit);
    let damaged = scribe.rng.percent(35);
    if damaged && scribe.rng.percent(50) {
        before_format(&mut scribe);
    }
    format(&mut scribe, 3);
    while !scribe.full() {
        if damaged && scribe.rng.percent(12) {
            broken_line(&mut scribe);
            continue;
        }
        // a format that was cut left nothing, or none was taken: not too many of the lines that follow are `?`
        if scribe.session.state().is_none() && scribe.rng.percent(40) {
            format(&mut scribe, 20);
            continue;
        }
        let choices = [
            (30, Action::Round),
            (66, Action::Call),
            (3, Action::Fill),
            (1, Action::Format),
            (3, Action::CutFormat),
        ];
        match scribe.rng.weighted(&choices) {
            Action::Round => round(&mut scribe),
            Action::Call => call(&mut scribe),
            Action::Fill => fill(&mut scribe),
            Action::Format => format(&mut scribe, 40),
            Action::CutFormat => cut_format(&mut scribe),
        }
    }
    scribe.finish()
}

fn before_format(scribe: &mut Scribe) {
    for _ in 0..scribe.rng.between(1, 4) {
        let line = any_call(scribe);
        scribe.say(line);
    }
}

fn format(scribe: &mut Scribe, percent_bad: u64) {
    let bad = scribe.rng.percent(percent_bad);
    let sizes = if bad { aim::bad_sizes(&mut scribe.rng, HUGE) } else { aim::sizes(&mut scribe.rng) };
    scribe.say(format!("F,{},{},{}", sizes.p, sizes.s, sizes.j));
}

/// A K, now and then an F that is turned back and leaves it, an F, and a look at what is left.
fn cut_format(scribe: &mut Scribe) {
    let sizes = aim::sizes(&mut scribe.rng);
    let words = sizes.image_length() as u64 / 8;
    let k = match scribe.rng.below(4) {
        0 => scribe.rng.pick(&[0, 0, 1, 2, 3, 4, 5, 8]),
        1 => scribe.rng.pick(&[words - 1, words, words, words + 1, words + 1, words + 2, HUGE]),
        _ => scribe.rng.below(words + 2),
    };
    scribe.say(format!("K,{k}"));
    if scribe.rng.percent(15) {
        format(scribe, 100);
    }
    scribe.say(format!("F,{},{},{}", sizes.p, sizes.s, sizes.j));
    for _ in 0..scribe.rng.below(4) {
        call(scribe);
    }
}

fn broken_line(scribe: &mut Scribe) {
    let line = any_call(scribe);
    let line = malform(&mut scribe.rng, line.as_bytes(), DIGITS);
    scribe.say(line);
}

fn call(scribe: &mut Scribe) {
    let line = any_call(scribe);
    scribe.say(line);
}

/// One call with arguments that mostly make sense here.
fn any_call(scribe: &mut Scribe) -> String {
    let state = scribe.state();
    let mut aim = Aim { rng: &mut scribe.rng, state: &state, huge: HUGE };
    let choices = [
        (10, b'B'),
        (14, b'C'),
        (4, b'A'),
        (20, b'W'),
        (20, b'R'),
        (14, b'D'),
        (9, b'P'),
        (3, b'X'),
        (5, b'K'),
    ];
    let letter = aim.rng.weighted(&choices);
    match letter {
        b'R' => read(&mut aim),
        b'K' => cut(&mut aim),
        _ => aim.call(letter, 20),
    }
}

fn read(aim: &mut Aim) -> String {
    let open = aim.rng.percent(50);
    let (writer, page, line) = (aim.writer(open), aim.page(50), aim.line());
    let offset = if aim.rng.percent(3) {
        aim.rng.pick(&[64, 65, HUGE])
    } else {
        aim.rng.pick(&[0, 0, 1, 7, 8, 31, 60, 63])
    };
    format!("R,{writer},{page},{line},{offset}")
}

fn cut(aim: &mut Aim) -> String {
    let k = match aim.rng.below(10) {
        0 => HUGE,
        1 => aim.rng.below(300),
        _ => aim.rng.below(15),
    };
    format!("K,{k}")
}

/// A writer who begins if needed, and what the round then does: writes, perhaps a cut, an end, a look.
fn round(scribe: &mut Scribe) {
    let writer = scribe.rng.below(WRITERS as u64);
    if !scribe.state().is_open(writer) {
        scribe.say(format!("B,{writer}"));
    }
    for _ in 0..scribe.rng.between(1, 4) {
        let state = scribe.state();
        let line = Aim { rng: &mut scribe.rng, state: &state, huge: HUGE }.write(writer);
        scribe.say(line);
    }
    if scribe.rng.percent(25) {
        let state = scribe.state();
        let line = cut(&mut Aim { rng: &mut scribe.rng, state: &state, huge: HUGE });
        scribe.say(line);
    }
    let end = scribe.rng.weighted(&[(80, "C"), (12, "A"), (4, "P"), (4, "X")]);
    scribe.say(if matches!(end, "P" | "X") { end.to_string() } else { format!("{end},{writer}") });
    for _ in 0..scribe.rng.below(3) {
        let state = scribe.state();
        let line = read(&mut Aim { rng: &mut scribe.rng, state: &state, huge: HUGE });
        scribe.say(line);
    }
}

/// Many lines of one page in one transaction, so that a consolidation copies either way.
fn fill(scribe: &mut Scribe) {
    let page = scribe.rng.below(scribe.state().sizes.p.max(1));
    let writer = scribe.rng.below(WRITERS as u64);
    let count = scribe.rng.pick(&[31, 32, 32, 33, 33, 34, 63, 64]);
    let from = scribe.rng.below(64);
    for line in ["X".to_string(), "P".to_string(), format!("B,{writer}")] {
        scribe.say(line);
    }
    for i in 0..count {
        let state = scribe.state();
        let place = (writer, page, (from + i) % 64);
        let line = Aim { rng: &mut scribe.rng, state: &state, huge: HUGE }.write_at(place, (i % 64, 1));
        scribe.say(line);
    }
    scribe.say(format!("C,{writer}"));
    if scribe.rng.percent(40) {
        let k = scribe.rng.pick(&[0, 1, 5, 8, 100, 247, 248, 249, 252, 253, 254, 255, 256, 257, 261, 262]);
        scribe.say(format!("K,{k}"));
    }
    scribe.say(format!("D,{page}"));
    for i in [0, 1, count / 2, count - 1, 63] {
        scribe.say(format!("R,{writer},{page},{},{}", (from + i) % 64, i % 64));
    }
}
