//! Whole random states that row 8 lets through, mostly such as no run reaches.

use crate::compare::aim;
use crate::compare::rng::Rng;
use crate::journal::{live_positions, position_after};
use crate::layout::Sizes;
use crate::rows::room_row;
use crate::slots::Slot;
use crate::state::{State, WRITERS};
use crate::wide::key;

/// How likely, in percent, some traits of a state are.
#[derive(Clone, Copy)]
pub struct Taste {
    pub wide: u64,
    pub prepared: u64,
    pub full_journal: u64,
}

pub const ANY: Taste = Taste { wide: 20, prepared: 15, full_journal: 20 };

pub fn state(rng: &mut Rng, taste: Taste) -> State {
    let wide = rng.percent(taste.wide);
    let mut state = State::empty(sizes(rng, wide));
    place_frames(rng, &mut state);
    place_journal(rng, &mut state, taste.full_journal);
    state.next = rng.below(state.sizes.s);
    if wide {
        place_wide(rng, &mut state);
    } else {
        place_writers(rng, &mut state);
        prepare(rng, &mut state, taste.prepared);
    }
    state
}

/// Small sizes; with entries for a wide round, and now and then without one.
pub fn sizes(rng: &mut Rng, wide: bool) -> Sizes {
    let l = if wide || rng.percent(30) { rng.pick(&[1, 2, 3, 4, 4, 64]) } else { 0 };
    Sizes { l, ..aim::small(rng) }
}

/// Each frame goes to one spare or one map entry; a slotted page's entry is its original.
fn place_frames(rng: &mut Rng, state: &mut State) {
    let sizes = state.sizes;
    let mut frames = rng.shuffled((0..sizes.frames()).collect());
    for entry in &mut state.map[..sizes.p as usize] {
        *entry = frames.pop().expect("a frame for each page");
    }
    let mut pages = rng.shuffled((0..sizes.p).collect());
    // one set for all slots makes ties
    let all = if rng.percent(20) { Some(aim::mask(rng)) } else { None };
    for slot in 0..state.slot_count() {
        let spare = frames.pop().expect("a frame for each spare");
        let taken = if rng.percent(65) { pages.pop() } else { None };
        state.slots[slot] = match taken {
            Some(page) => Slot {
                page,
                original: state.map[page as usize],
                spare,
                bitmap: all.unwrap_or_else(|| aim::mask(rng)),
            },
            None => Slot::free(spare),
        };
    }
}

/// Head and tail, and live positions as last ones of some slots, none for two.
fn place_journal(rng: &mut Rng, state: &mut State, full: u64) {
    let sizes = state.sizes;
    let live = if rng.percent(full) { sizes.j } else { rng.between(0, sizes.j) };
    state.tail = rng.below(2 * sizes.j);
    state.head = position_after(sizes, state.tail, live);
    let mut positions = rng.shuffled(live_positions(sizes, state.head, state.tail));
    for slot in 0..state.slot_count() {
        state.last[slot] = if rng.percent(70) { positions.pop() } else { None };
    }
}

/// Open writers, and held lines in owning slots, none for two.
fn place_writers(rng: &mut Rng, state: &mut State) {
    for writer in 0..WRITERS {
        state.writers[writer].open = rng.percent(50);
    }
    for slot in 0..state.slot_count() {
        let mut left = if rng.percent(50) { 0 } else { u64::MAX };
        for writer in 0..WRITERS {
            if state.writers[writer].open && state.slots[slot].is_owning(state.sizes) {
                state.writers[writer].held[slot] = left & aim::mask(rng) & rng.number();
                left &= !state.writers[writer].held[slot];
            }
        }
    }
}

/// One of the open writers whose records fit.
fn prepare(rng: &mut Rng, state: &mut State, percent: u64) {
    let fits = |writer: &u64| room_row(state, state.slots_held(*writer).len() as u64).is_ok();
    let fitting: Vec<u64> =
        (0..WRITERS as u64).filter(|&writer| state.is_open(writer)).filter(fits).collect();
    if !fitting.is_empty() && rng.percent(percent) {
        state.prepared = Some(rng.pick(&fitting));
    }
}

/// A wide writer, alone, with some or all entries used, each for another line.
fn place_wide(rng: &mut Rng, state: &mut State) {
    let writer = rng.below(WRITERS as u64);
    state.writers[writer as usize].open = true;
    state.wide.writer = Some(writer);
    let most = state.sizes.l.min(4);
    state.wide.used = if rng.percent(40) { most } else { rng.between(0, most) };
    if rng.percent(5) {
        state.wide.used = state.sizes.l;
    }
    let shuffled = rng.shuffled((0..64).collect());
    for (entry, &line) in shuffled.iter().enumerate().take(state.wide.used as usize) {
        state.wide.keys[entry] = key(rng.below(state.sizes.p), line);
    }
}
