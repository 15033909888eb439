//! Runs from a format on, as a host makes them: rounds, cuts, and each kind of operation brought to a store of interest.

use super::asked::{self, HUGE};
use super::right;
use super::scribe::Scribe;
use crate::compare::aim::Aim;
use crate::compare::reach::{At, Stage};
use crate::plan::plan;
use crate::slots::lines_of;

/// A fresh image, and a few calls on it, each run to its end.
pub fn history(scribe: &mut Scribe, wide: bool) {
    let sizes = right::sizes(&mut scribe.rng, wide);
    scribe.say(asked::format_line(sizes));
    scribe.finish();
    for _ in 0..scribe.rng.below(4) {
        match scribe.rng.below(4) {
            0 => {
                scribe.ask('K');
                scribe.finish();
            }
            1 => scribe.say("p"),
            _ => round(scribe),
        }
    }
}

/// A transaction in place, mostly committed.
pub fn round(scribe: &mut Scribe) {
    let writer = scribe.rng.below(4);
    scribe.say(format!("b,{writer}"));
    writes(scribe, writer);
    let end = scribe.rng.weighted(&[(80, 'c'), (10, 'a'), (10, 'b')]);
    scribe.say(format!("{end},{writer}"));
}

fn writes(scribe: &mut Scribe, writer: u64) {
    for _ in 0..scribe.rng.between(1, 3) {
        let state = scribe.state().clone();
        let mut aim = Aim { rng: &mut scribe.rng, state: &state, huge: HUGE };
        let (page, line) = (aim.rng.below(state.sizes.p.max(1)), aim.rng.below(3) * 31);
        let span = aim.span();
        let line = aim.write_at((writer, page, line), span).to_ascii_lowercase();
        scribe.say(line);
    }
}

/// Asks for an operation of a kind on a run of its own, if the draws let it come to that.
fn ask(scribe: &mut Scribe, kind: u64) {
    let wide = kind == 8 || kind == 9;
    history(scribe, wide);
    let writer = scribe.rng.below(4);
    let begin = if wide { 'v' } else { 'b' };
    if matches!(kind, 1 | 2 | 6 | 7 | 8 | 9) {
        scribe.say(format!("{begin},{writer}"));
    }
    if matches!(kind, 2 | 6 | 7 | 9) || wide && scribe.rng.percent(50) {
        writes(scribe, writer);
    }
    match kind {
        1 | 8 => {
            let state = scribe.state().clone();
            let mut aim = Aim { rng: &mut scribe.rng, state: &state, huge: HUGE };
            let line = aim.write(writer);
            scribe.say(line);
        }
        2 | 9 => scribe.say(format!("C,{writer}")),
        3 => consolidate(scribe),
        4 => scribe.say("P"),
        5 => scribe.ask('K'),
        6 => scribe.say(format!("I,{writer}")),
        7 => {
            scribe.say(format!("I,{writer}"));
            scribe.finish();
            scribe.say(format!("J,{writer}"));
        }
        _ => scribe.ask_format(false),
    }
}

fn consolidate(scribe: &mut Scribe) {
    round(scribe);
    let page = scribe.rng.below(4);
    match scribe.rng.below(2) {
        0 => scribe.say("X"),
        _ => scribe.say(format!("D,{page}")),
    }
}

/// A pending operation of a kind at a stage, what is done there, and what that leaves.
pub fn at_store(scribe: &mut Scribe, kind: u64, stage: Stage, at: At) {
    ask(scribe, kind);
    run_to(scribe, stage);
    act(scribe, at);
}

/// A wide commit cut, the copying that the mount returned run on to a stage, and what is done there.
pub fn at_returned(scribe: &mut Scribe, stage: Stage, at: At) {
    ask(scribe, 9);
    let early = scribe.rng.pick(&[Stage::Middle, Stage::Last, Stage::Middle]);
    run_to(scribe, early);
    scribe.say("M");
    scribe.say("G");
    run_to(scribe, stage);
    act(scribe, at);
}

/// Runs the pending operation until a store is next.
fn run_to(scribe: &mut Scribe, stage: Stage) {
    let state = scribe.state().clone();
    let Some(pending) = &state.pending else { return };
    let left = (plan(&state, &pending.operation).len() as u64).saturating_sub(pending.made);
    let k = match stage {
        Stage::First => 0,
        Stage::Middle => scribe.rng.between(1, left.max(3) - 2),
        Stage::Last => left.saturating_sub(1),
    };
    if k > 0 || scribe.rng.percent(20) {
        scribe.say(format!("N,{k}"));
    }
}

fn act(scribe: &mut Scribe, at: At) {
    match at {
        At::Told => {
            scribe.say("n");
            scribe.say("S");
        }
        At::Stepped => {
            scribe.say("S");
            scribe.say("n");
        }
        At::Cut => scribe.say("M"),
    }
    scribe.say("G");
    scribe.say("H");
    recalls(scribe);
    if scribe.rng.percent(70) {
        scribe.finish();
        scribe.say("G");
        scribe.say("H");
    }
}

/// A few committed lines, those of entries and of slots among them.
pub fn recalls(scribe: &mut Scribe) {
    for _ in 0..scribe.rng.between(1, 3) {
        scribe.ask('E');
    }
    let state = scribe.state().clone();
    let slotted = state.slots_used().iter().find(|slot| slot.is_owning(state.sizes) && slot.bitmap != 0);
    if let Some(slot) = slotted {
        scribe.say(format!("E,{},{},64", slot.page, lines_of(slot.bitmap)[0]));
    }
}

/// A few calls of any kind, mostly each run to its end.
pub fn play(scribe: &mut Scribe) {
    for _ in 0..scribe.rng.between(3, 12) {
        if scribe.rng.percent(10) {
            scribe.say("M");
        }
        if scribe.rng.percent(25) {
            round(scribe);
        }
        scribe.ask_any();
        if scribe.rng.percent(30) {
            scribe.say("G");
        }
        if scribe.rng.percent(85) {
            scribe.finish();
        }
    }
    scribe.say("G");
    scribe.say("H");
}
