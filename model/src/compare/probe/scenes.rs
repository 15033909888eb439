//! A part of a script for each target.

use super::asked;
use super::right::{self, Taste, ANY};
use super::scribe::Scribe;
use super::{broken, images, metering, pending, rounds, setting};
use crate::compare::reach::{targets, Target};
use crate::layout::LINES;
use crate::mount::mount;
use crate::script::BUFFER;
use crate::state::State;
use crate::validity::Clause;

/// A part that reaches a target. What it cannot reach is seen in the count.
pub fn reach(scribe: &mut Scribe, target: Target) {
    scribe.part(Some(target), |draft| match target {
        Target::Answer('F', row) => format(draft, row),
        Target::Answer(call @ ('M' | 'E'), row) => mounted(draft, call, row),
        Target::Answer(call, 8) => {
            let clause = any_clause(draft);
            break_state(draft, clause, Some(call));
        }
        Target::Answer(call, row) => call_on_state(draft, call, row),
        Target::Clause(clause) => break_state(draft, clause, None),
        Target::Store(kind, stage, at) => rounds::at_store(draft, kind, stage, at),
        Target::Returned(stage, at) => rounds::at_returned(draft, stage, at),
    });
}

fn any_clause(scribe: &mut Scribe) -> Clause {
    let clause = |target| match target {
        Target::Clause(clause) => Some(clause),
        _ => None,
    };
    let clauses: Vec<Clause> = targets().into_iter().filter_map(clause).collect();
    scribe.rng.pick(&clauses)
}

/// Another lent length.
fn lend(scribe: &mut Scribe, length: usize) {
    if scribe.session.lent() != length {
        scribe.say(format!("L,{length}"));
    }
}

/// A state that a clause breaks, and calls that meet it.
fn break_state(scribe: &mut Scribe, clause: Clause, call: Option<char>) {
    let state = broken::state(&mut scribe.rng, clause);
    set(scribe, &state);
    scribe.say("G");
    for i in 0..scribe.rng.between(1, 3) {
        match call {
            Some('l') => scribe.say("l,0,0"),
            Some(call) if i == 0 => scribe.ask(call),
            _ => scribe.ask_any(),
        }
    }
    // a short buffer is asked for behind row 8
    if scribe.rng.percent(10) {
        lend(scribe, 0);
        scribe.say("S");
        lend(scribe, BUFFER);
    }
}

fn set(scribe: &mut Scribe, state: &State) {
    let lines = setting::lines(scribe.state(), state);
    scribe.say_all(lines);
}

/// Some bytes of the pending operation's finished lines.
fn set_finished(scribe: &mut Scribe) {
    for _ in 0..scribe.rng.between(1, 3) {
        let (i, value) = (scribe.rng.below(128), scribe.rng.below(256));
        scribe.say(format!("Q,{i},{value}"));
    }
}

fn format(scribe: &mut Scribe, row: u8) {
    let line = asked::format(&mut scribe.rng, row != 0);
    let short = row == 4 && scribe.rng.percent(50);
    let length = scribe.rng.pick(&[0, 64, 12_479, 12_480]);
    lend(scribe, if short { length } else { BUFFER });
    scribe.say(line);
    for _ in 0..scribe.rng.below(4) {
        scribe.ask_format(true);
    }
    for lent in [12_479, 12_480] {
        lend(scribe, lent);
        scribe.say("F,2,1,2");
    }
    scribe.say("G");
    lend(scribe, BUFFER);
    if row == 0 {
        for line in ["n", "S", "N,3", "n", "H"] {
            scribe.say(line);
        }
        scribe.finish();
    }
    scribe.say("H");
}

/// An image that mounts or that a row turns back, mounted or recalled.
fn mounted(scribe: &mut Scribe, call: char, row: u8) {
    images::right_image(scribe);
    let damaged = (2..=7).contains(&row);
    for _ in 0..scribe.rng.between(2, 7) {
        let undo = if damaged || scribe.rng.percent(30) { images::damage(scribe) } else { vec![] };
        mount_and_recall(scribe, call, row);
        scribe.say_all(undo);
    }
    rounds::recalls(scribe);
}

fn mount_and_recall(scribe: &mut Scribe, call: char, row: u8) {
    if row == 1 || row == 4 || scribe.rng.percent(30) {
        let whole = mount(scribe.session.buffer()).map_or(BUFFER, |state| state.sizes.image_length());
        let length = scribe.rng.pick(&[0, 63, 64, whole - 1, whole, whole]);
        lend(scribe, length);
    }
    scribe.ask(call);
    scribe.say(if call == 'M' { "E,0,0,64" } else { "M" });
    scribe.say("G");
    lend(scribe, BUFFER);
}

/// A right state that gives room for a row, a call on it, and what that leaves.
fn call_on_state(scribe: &mut Scribe, call: char, row: u8) {
    let taste = match row {
        28 => Taste { wide: 0, ..ANY },
        29 | 30 => Taste { wide: 80, ..ANY },
        23 | 24 => Taste { wide: 5, prepared: 70, full_journal: 20 },
        19 => Taste { wide: 0, prepared: 0, full_journal: 80 },
        _ if call == 'J' || call == 'Z' => Taste { wide: 5, prepared: 60, full_journal: 20 },
        _ => ANY,
    };
    let mut state = right::state(&mut scribe.rng, taste);
    let stepping = "SNn".contains(call) && row != 10;
    if row == 9 || stepping || row == 4 && scribe.rng.percent(30) {
        let kind = scribe.rng.between(1, 9);
        pending::set(&mut scribe.rng, &mut state, kind);
    }
    set(scribe, &state);
    images::mark_frames(scribe, state.sizes);
    metering::set_meters(scribe, &state, row);
    if call == 'K' && scribe.rng.percent(50) {
        metering::set_credit(scribe, &state);
    }
    if stepping {
        set_finished(scribe);
    }
    if row == 4 {
        lend(scribe, state.sizes.image_length() - 1);
    } else if scribe.rng.percent(20) {
        lend(scribe, state.sizes.image_length());
    }
    metering::set_moduli(scribe, row);
    match call {
        'l' => metering::load(scribe, &state, row),
        _ => {
            scribe.ask(call);
        }
    }
    lend(scribe, BUFFER);
    aftermath(scribe);
    volley(scribe, call);
}

/// What a call left: the state, some of its stores and their cut, or its end.
fn aftermath(scribe: &mut Scribe) {
    scribe.say("G");
    if scribe.state().pending.is_some() {
        for _ in 0..scribe.rng.below(4) {
            let line = scribe.rng.pick(&["n", "S", "N,1", "N,4", "N,0", "H"]);
            scribe.say(line);
        }
        if scribe.rng.percent(80) {
            scribe.finish();
            scribe.say("G");
        }
    }
    scribe.say("H");
}

/// More calls, many of the same letter; most of them are turned back and leave the state as it is.
fn volley(scribe: &mut Scribe, call: char) {
    for _ in 0..scribe.rng.between(2, 7) {
        if call != 'l' && scribe.rng.percent(40) {
            scribe.ask(call);
        } else {
            scribe.ask_any();
        }
        if scribe.rng.percent(80) {
            scribe.finish();
        }
        read_entry(scribe);
    }
    scribe.say("G");
    scribe.say("H");
}

/// A read of a line that has an entry, by any writer.
fn read_entry(scribe: &mut Scribe) {
    let used = scribe.state().wide.keys_used().to_vec();
    if !used.is_empty() && scribe.rng.percent(50) {
        let (writer, key) = (scribe.rng.below(4), scribe.rng.pick(&used));
        scribe.say(format!("R,{writer},{},{},64", key / LINES, key % LINES));
    }
}
