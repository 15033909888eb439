//! Pending operations for a state at hand: mostly such as stand there.

use crate::compare::aim::Aim;
use crate::compare::rng::Rng;
use crate::meters::{fixed_moduli, Asked, COUNT};
use crate::plan::plan;
use crate::state::{Event, Operation, Pending, State, WideWrite, Write};
use crate::validity::{broken_clauses, Clause};

/// An operation of a kind, with arguments that mostly make sense.
pub fn operation(rng: &mut Rng, state: &State, kind: u64) -> Operation {
    let mut aim = Aim { rng, state, huge: u64::MAX };
    let finished = [0; 64];
    match kind {
        1 => {
            let (writer, page, line) = (aim.writer(true), aim.page(50), aim.line());
            let (offset, length) = aim.span();
            Operation::Write(Write { writer, page, line, offset, length, finished })
        }
        2 => Operation::Commit { writer: holder(&mut aim) },
        3 => Operation::Consolidate { page: aim.page(85) },
        4 => Operation::Checkpoint,
        5 => Operation::Event(Event { asked: event(aim.rng), finished: [finished; 2] }),
        6 => Operation::Prepare { writer: holder(&mut aim) },
        7 => {
            let writer = state.prepared.filter(|_| aim.rng.percent(80)).unwrap_or_else(|| aim.writer(true));
            Operation::Confirm { writer }
        }
        8 => {
            let (page, line) = aim.entry_place();
            let (offset, length) = aim.span();
            Operation::WideWrite(WideWrite { page, line, offset, length, finished })
        }
        9 => Operation::Copying,
        _ => Operation::Format,
    }
}

/// Mostly a writer who holds lines.
fn holder(aim: &mut Aim) -> u64 {
    let holders: Vec<u64> = (0..4).filter(|&writer| !aim.state.slots_held(writer).is_empty()).collect();
    if holders.is_empty() || aim.rng.percent(25) {
        return aim.writer(true);
    }
    aim.rng.pick(&holders)
}

/// An event, mostly a known one with a small amount.
pub fn event(rng: &mut Rng) -> Asked {
    let kind = if rng.percent(85) { rng.between(1, 5) } else { rng.pick(&[0, 6, u64::MAX]) };
    let meter = if rng.percent(85) { rng.between(5, 23) } else { rng.pick(&[0, 4, 24, 64, u64::MAX]) };
    let moved = if kind == COUNT { meter } else { kind };
    let modulus = fixed_moduli().get(moved as usize).copied().unwrap_or(1);
    let edges = [modulus - 1, modulus, modulus, modulus + 1, 1 << 63, u64::MAX];
    let amount = if rng.percent(70) { rng.pick(&[0, 1, 1, 2, 99, 100, 250]) } else { rng.pick(&edges) };
    Asked { kind, meter, amount }
}

/// Makes an operation pending with stores made: none, some, all but the last one.
pub fn set(rng: &mut Rng, state: &mut State, kind: u64) {
    let operation = operation(rng, state, kind);
    state.pending = Some(Pending { operation: operation.clone(), made: 0 });
    if broken_clauses(state).is_empty() {
        let needed = plan(state, &operation).len() as u64;
        let some = rng.below(needed);
        let made = rng.pick(&[0, some, needed - 1]);
        state.pending = Some(Pending { operation, made });
    }
}

/// As many stores made as the operation needs, or more, where nothing else is wrong.
pub fn spend(rng: &mut Rng, state: &mut State, kind: u64) {
    let operation = operation(rng, state, kind);
    state.pending = Some(Pending { operation: operation.clone(), made: 0 });
    let none_needed = broken_clauses(state) == [Clause::PendingMade(kind)];
    if broken_clauses(state).is_empty() || none_needed {
        let needed = plan(state, &operation).len() as u64;
        let made = rng.pick(&[needed, needed, needed + 1, u64::MAX]);
        state.pending = Some(Pending { operation, made });
    }
}

/// What PROBE.md leaves open, "and in no script".
pub fn left_open(state: &State) -> bool {
    let Some(pending) = &state.pending else { return false };
    let open = (0..4).filter(|&writer| state.is_open(writer)).collect::<Vec<u64>>();
    match &pending.operation {
        Operation::Write(Write { writer, .. }) | Operation::Commit { writer } => state.wide.is_by(*writer),
        Operation::Copying => match state.wide.writer {
            Some(writer) => open != [writer] || state.wide.used == 0,
            None => !open.is_empty() || state.prepared.is_some() || state.wide.used == 0,
        },
        _ => false,
    }
}
