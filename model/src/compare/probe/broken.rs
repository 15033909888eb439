//! States that one clause of row 8 breaks and no other.

use super::pending;
use super::right::{self, Taste, ANY};
use crate::compare::reach::alone;
use crate::compare::rng::Rng;
use crate::fresh::{fresh_state, Part};
use crate::journal::{live_positions, position_after};
use crate::slots::{Slot, FREE_ORIGINAL, FREE_PAGE};
use crate::state::{Operation, Pending, State, WRITERS};
use crate::validity::Clause;
use crate::wide::key;

/// How many states are tried.
const TRIES: usize = 20_000;

/// A state that this clause alone breaks, and that PROBE.md does not leave open.
pub fn state(rng: &mut Rng, clause: Clause) -> State {
    for _ in 0..TRIES {
        let mut state = start(rng, clause);
        // a pending operation now and then, so that step and run meet the clause, too
        if rng.percent(30) && !of_pending(clause) {
            let kind = rng.pick(&[1, 2, 3, 4, 5, 6, 7, 8, 9]);
            pending::set(rng, &mut state, kind);
        }
        let changed = change(rng, &mut state, clause).is_some();
        if changed && alone(&state) == Some(clause) && !pending::left_open(&state) {
            return state;
        }
    }
    unreachable!("{clause:?} breaks no state alone")
}

fn of_pending(clause: Clause) -> bool {
    matches!(clause, Clause::PendingRow(..) | Clause::PendingMade(_) | Clause::NotFresh(_))
}

/// A right state that gives room for a clause more often than any other.
fn start(rng: &mut Rng, clause: Clause) -> State {
    use Clause::*;
    let taste = match clause {
        EntriesAbove
        | EntryOutside
        | EntryTwice
        | WideClosed
        | WidePrepared
        | WideBesideHeld
        | WideBesideOpen
        | PendingRow(_, 29 | 30)
        | PendingRow(8, 11)
        | PendingMade(8 | 9) => Taste { wide: 95, ..ANY },
        PreparedClosed | PreparedNoRoom | PendingRow(_, 23) | PendingRow(7, _) | PendingMade(7) => {
            Taste { wide: 0, prepared: 90, full_journal: 20 }
        }
        PendingRow(_, 19) => Taste { wide: 0, prepared: 0, full_journal: 90 },
        NotFresh(_) | PendingMade(10) => {
            let wide = rng.percent(50);
            return fresh_state(right::sizes(rng, wide));
        }
        _ => ANY,
    };
    right::state(rng, taste)
}

/// Changes a right state so that a clause applies, if the state gives room for it.
fn change(rng: &mut Rng, state: &mut State, clause: Clause) -> Option<()> {
    use Clause::*;
    let (sizes, huge) = (state.sizes, u64::MAX);
    match clause {
        PZero => state.sizes.p = 0,
        PAbove => state.sizes.p = rng.pick(&[1_025, huge]),
        SZero => state.sizes.s = 0,
        SAbove => (state.sizes.s, state.sizes.j) = (rng.pick(&[17, 255]), 256),
        JBelowS => state.sizes.j = sizes.s - 1,
        JAbove => state.sizes.j = rng.pick(&[257, huge]),
        LAbove => state.sizes.l = rng.pick(&[65, huge]),
        HeadBeyond => state.head = rng.pick(&[2 * sizes.j, state.head + 2 * sizes.j, huge]),
        TailBeyond => state.tail = rng.pick(&[2 * sizes.j, state.tail + 2 * sizes.j, huge]),
        OverJLive => {
            let live = rng.between(sizes.j, 2 * sizes.j - 1);
            state.head = position_after(sizes, state.tail, live);
        }
        SlotShape => misshape(rng, state),
        PageTwice => same_page(rng, state)?,
        EntryNotOriginal => {
            let (a, b) = two(rng, (0..sizes.p).collect())?;
            state.map.swap(a as usize, b as usize);
        }
        FrameNotOnce => name_twice(rng, state)?,
        HeldTwice => {
            let (slot, (a, b)) = (owning(rng, state)?, two(rng, writers(state, true))?);
            let line = 1 << rng.pick(&[0, 1, 31, 63]);
            state.writers[a as usize].held[slot] |= line;
            state.writers[b as usize].held[slot] |= line;
        }
        HeldByClosed => {
            let (slot, writer) = (owning(rng, state)?, one(rng, writers(state, false))?);
            let free = (0..WRITERS).fold(u64::MAX, |free, other| free & !state.writers[other].held[slot]);
            state.writers[writer as usize].held[slot] = free & (1 << rng.pick(&[0, 31, 63]));
        }
        HeldInFree => {
            let free = (0..sizes.s).filter(|&i| state.slots[i as usize].is_free(sizes)).collect();
            let (slot, writer) = (one(rng, free)?, one(rng, writers(state, true))?);
            state.writers[writer as usize].held[slot as usize] = 1 << rng.pick(&[0, 31, 63]);
        }
        NextSlot => state.next = rng.pick(&[sizes.s, sizes.s, sizes.s + 1, huge]),
        LastNotLive => {
            let before_tail = position_after(sizes, state.tail, 2 * sizes.j - 1);
            let position = rng.pick(&[state.head, before_tail, state.tail + 2 * sizes.j, huge - 1]);
            state.last[rng.below(sizes.s) as usize] = Some(position);
        }
        LastTwice => {
            let position = one(rng, live_positions(sizes, state.head, state.tail))?;
            let (a, b) = two(rng, (0..sizes.s).collect())?;
            (state.last[a as usize], state.last[b as usize]) = (Some(position), Some(position));
        }
        PreparedClosed => state.prepared = Some(one(rng, writers(state, false))?),
        PreparedNoRoom => {
            state.prepared = Some(one(rng, writers(state, true))?);
            state.tail = position_after(sizes, state.head, sizes.j);
            state.last.fill(None);
        }
        EntriesAbove | EntryOutside | EntryTwice => change_entries(rng, state, clause)?,
        WideClosed => state.writers[state.wide.writer? as usize].open = false,
        WidePrepared => state.prepared = state.wide.writer,
        WideBesideHeld => {
            let slot = owning(rng, state)?;
            state.writers[state.wide.writer? as usize].held[slot] = 1 << rng.pick(&[0, 31, 63]);
        }
        WideBesideOpen => state.writers[one(rng, writers(state, false))? as usize].open = true,
        PendingNarrow => return None,
        PendingRow(8, 13) => {
            pending::set(rng, state, 8);
            state.wide.writer = None;
        }
        PendingRow(kind, _) => pending::set(rng, state, kind),
        PendingMade(kind) => pending::spend(rng, state, kind),
        NotFresh(part) => {
            state.pending = Some(Pending { operation: Operation::Format, made: rng.below(9) });
            unfreshen(rng, state, part)?;
        }
    }
    Some(())
}

/// Two different ones of some, if there are two.
fn two(rng: &mut Rng, of: Vec<u64>) -> Option<(u64, u64)> {
    let mut mixed = rng.shuffled(of);
    Some((mixed.pop()?, mixed.pop()?))
}

fn one(rng: &mut Rng, of: Vec<u64>) -> Option<u64> {
    (!of.is_empty()).then(|| rng.pick(&of))
}

fn writers(state: &State, open: bool) -> Vec<u64> {
    (0..WRITERS as u64).filter(|&writer| state.is_open(writer) == open).collect()
}

fn owning(rng: &mut Rng, state: &State) -> Option<usize> {
    let all = (0..state.sizes.s).filter(|&i| state.slots[i as usize].is_owning(state.sizes)).collect();
    one(rng, all).map(|slot| slot as usize)
}

/// One number of one slot such that it has neither shape.
fn misshape(rng: &mut Rng, state: &mut State) {
    let (p, frames, i) = (state.sizes.p, state.sizes.frames(), rng.below(state.sizes.s) as usize);
    let slot = state.slots[i];
    state.slots[i] = if slot.is_owning(state.sizes) {
        rng.pick(&[
            Slot { page: p, ..slot },
            Slot { page: FREE_PAGE, ..slot },
            Slot { original: frames, ..slot },
            Slot { original: slot.spare, ..slot },
            Slot { original: FREE_ORIGINAL, ..slot },
        ])
    } else {
        rng.pick(&[
            Slot { page: 0, ..slot },
            Slot { page: FREE_PAGE - 1, ..slot },
            Slot { original: 0, ..slot },
            Slot { original: FREE_ORIGINAL - 1, ..slot },
            Slot { bitmap: 1, ..slot },
            Slot { bitmap: 1 << 63, ..slot },
        ])
    };
}

/// Two slots of one page and one original. A free slot becomes the second one, or an owning slot leaves its page.
fn same_page(rng: &mut Rng, state: &mut State) -> Option<()> {
    let a = owning(rng, state)?;
    let b = one(rng, (0..state.sizes.s).filter(|&b| b as usize != a).collect())? as usize;
    let Slot { page, original, .. } = state.slots[a];
    state.slots[b] = Slot { page, original, ..state.slots[b] };
    Some(())
}

/// A spare or an entry becomes another's, F, or, as an entry, any number.
fn name_twice(rng: &mut Rng, state: &mut State) -> Option<()> {
    let sizes = state.sizes;
    if rng.percent(30) {
        let slot = rng.below(sizes.s) as usize;
        state.slots[slot].spare = rng.below(sizes.frames());
        return Some(());
    }
    let unslotted = (0..sizes.p).filter(|&page| state.slot_of(page).is_none()).collect();
    let page = one(rng, unslotted)? as usize;
    let other = rng.below(sizes.frames());
    state.map[page] = rng.pick(&[other, other, sizes.frames(), sizes.frames() + 1, 65_535]);
    Some(())
}

fn change_entries(rng: &mut Rng, state: &mut State, clause: Clause) -> Option<()> {
    let used = state.wide.used as usize;
    match clause {
        Clause::EntriesAbove => {
            let all = (0..64 * state.sizes.p).filter(|key| !state.wide.keys_used().contains(key)).collect();
            let mut others = rng.shuffled(all);
            state.wide.used = rng.pick(&[state.sizes.l + 1, state.sizes.l + 1, 65, u64::MAX]);
            for entry in used..state.wide.used.min(64) as usize {
                state.wide.keys[entry] = others.pop()?;
            }
        }
        Clause::EntryOutside => {
            let entry = rng.below(state.wide.used.max(1)) as usize;
            state.wide.keys[entry] =
                rng.pick(&[key(state.sizes.p, 0), key(state.sizes.p, 63), u64::MAX, 1 << 63]);
        }
        _ => {
            let (a, b) = two(rng, (0..state.wide.used).collect())?;
            state.wide.keys[a as usize] = state.wide.keys[b as usize];
        }
    }
    Some(())
}

/// A fresh state with one part that is not, and all else right.
fn unfreshen(rng: &mut Rng, state: &mut State, part: Part) -> Option<()> {
    let sizes = state.sizes;
    match part {
        Part::HeadAndTail => {
            state.head = rng.below(2 * sizes.j);
            state.tail = if rng.percent(50) { state.head } else { rng.below(2 * sizes.j) };
        }
        Part::NextSlot => state.next = rng.below(sizes.s),
        Part::Slots if rng.percent(50) => {
            let slot = rng.below(sizes.s) as usize;
            let page = rng.below(sizes.p);
            state.slots[slot] = Slot { page, original: page, bitmap: rng.below(2), ..state.slots[slot] };
        }
        Part::Slots => {
            let (a, b) = two(rng, (0..sizes.s).collect())?;
            state.slots.swap(a as usize, b as usize);
        }
        Part::Map => {
            let (a, b) = two(rng, (0..sizes.p).collect())?;
            state.map.swap(a as usize, b as usize);
        }
        Part::OpenWriters => state.writers[rng.below(4) as usize].open = true,
        Part::EntriesUsed => {
            state.wide.used = 1;
            state.wide.keys[0] = rng.below(64);
        }
        Part::LastPositions | Part::HeldLines | Part::PreparedWriter | Part::WideWriter => return None,
    }
    Some(())
}
