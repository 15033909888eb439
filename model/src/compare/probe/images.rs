//! Whole images, word by word: such as mount, and such as one rule turns back.

use super::right::{self, Taste, ANY};
use super::scribe::Scribe;
use crate::compare::aim;
use crate::compare::rng::Rng;
use crate::image::word;
use crate::journal::{live_positions, position_after, Record};
use crate::layout::{Sizes, COUNT_AT, ENTRIES_AT, HEAD_AT, J_AT, LAYOUT_AT, P_AT, S_AT, TAIL_AT};
use crate::mount::mount;
use crate::script::BUFFER;
use crate::slots::Slot;
use crate::state::State;
use crate::wide::key;

/// An address and a value.
type Word = (usize, u64);

/// An image that mounts, with words in its frames.
pub fn right_image(scribe: &mut Scribe) {
    let wide = scribe.rng.pick(&[0, 100]);
    let state = right::state(&mut scribe.rng, Taste { wide, ..ANY });
    for (at, value) in words(&mut scribe.rng, &state) {
        scribe.say(format!("U,{},{value}", at / 8));
    }
    mark_frames(scribe, state.sizes);
    if scribe.session.lent() != BUFFER {
        scribe.say(format!("L,{BUFFER}"));
    }
}

/// Some words in the frames and entries, so that reads tell one copy from another, and a byte at the image's end or the buffer's.
pub fn mark_frames(scribe: &mut Scribe, sizes: Sizes) {
    for _ in 0..scribe.rng.between(2, 6) {
        let frame = scribe.rng.below(sizes.frames());
        let line = sizes.line_start(frame, aim::line(&mut scribe.rng)) / 8;
        let (at, value) = (line as u64 + scribe.rng.below(8), scribe.rng.number());
        scribe.say(format!("U,{at},{value}"));
    }
    for entry in 0..sizes.l.min(2) {
        let (at, value) = (sizes.entry_word(entry, 1 + scribe.rng.below(8)) / 8, scribe.rng.number());
        scribe.say(format!("U,{at},{value}"));
    }
    let (at, value) = (scribe.rng.pick(&[sizes.image_length(), BUFFER]) - 1, scribe.rng.below(256));
    scribe.say(format!("Y,{at},{value}"));
}

/// One rule of the image in the buffer broken, now and then two, if it mounts; and the lines that mend it.
pub fn damage(scribe: &mut Scribe) -> Vec<String> {
    let Ok(state) = mount(scribe.session.buffer()) else { return vec![] };
    let mut undo = vec![];
    for _ in 0..scribe.rng.pick(&[1, 1, 1, 2]) {
        for (at, value) in breach(&mut scribe.rng, &state, scribe.session.buffer()) {
            undo.push(format!("U,{},{}", at / 8, word(scribe.session.buffer(), at)));
            scribe.say(format!("U,{},{value}", at / 8));
        }
    }
    undo.reverse();
    undo
}

/// The words of an image that mounts as this state's durable part. What a mount does not read gets any words: slots under a live
/// record, page-table words of slotted pages.
fn words(rng: &mut Rng, state: &State) -> Vec<Word> {
    let sizes = state.sizes;
    let count = if rng.percent(50) { state.wide.used } else { 0 };
    let header = [sizes.p, sizes.s, sizes.j, sizes.layout(), state.head, state.tail, count, sizes.l];
    let mut words: Vec<Word> = header.into_iter().enumerate().map(|(i, value)| (8 * i, value)).collect();
    for page in 0..sizes.p {
        let any = state.slot_of(page).is_some() && rng.percent(50);
        let value = if any { rng.below(9) } else { state.map[page as usize] };
        words.push((sizes.page_word(page), value));
    }
    let recorded = records(rng, state, &mut words);
    for (slot, under_record) in recorded.into_iter().enumerate() {
        let any = under_record && rng.percent(60);
        for (i, value) in (0..).zip(state.slots[slot].words()) {
            let value = if any { rng.below(1 << 34) } else { value };
            words.push((sizes.slot_word(slot as u64, i), value));
        }
    }
    let entries = (0..).zip(state.wide.keys_used());
    words.extend(entries.map(|(entry, &key)| (sizes.entry_word(entry, 0), key)));
    words
}

/// Right live records, the last of each slot with the state's words; says which slots have one.
fn records(rng: &mut Rng, state: &State, words: &mut Vec<Word>) -> Vec<bool> {
    let sizes = state.sizes;
    let mut recorded = vec![false; state.slot_count()];
    let mut made: Vec<(u64, Record)> = vec![];
    for position in live_positions(sizes, state.head, state.tail) {
        let slot_number = rng.below(sizes.s);
        let before = made.last().map(|(_, record)| *record);
        let first = match before {
            Some(before) if before.slot_number < slot_number && rng.percent(70) => before.first,
            _ => position,
        };
        made.push((position, Record { first, slot_number, slot: any_slot(rng, sizes) }));
    }
    for (position, mut record) in made.into_iter().rev() {
        let seen = &mut recorded[record.slot_number as usize];
        if !*seen {
            record.slot = state.slots[record.slot_number as usize];
        }
        *seen = true;
        let at = |i: usize| sizes.record_word(position, i as u64);
        words.extend(record.words().into_iter().enumerate().map(|(i, value)| (at(i), value)));
    }
    recorded
}

/// A slot of a right shape, for a record that a later one replaces.
fn any_slot(rng: &mut Rng, sizes: Sizes) -> Slot {
    let spare = rng.below(sizes.frames());
    if rng.percent(50) {
        return Slot::free(spare);
    }
    let original = (spare + rng.between(1, sizes.frames() - 1)) % sizes.frames();
    Slot { page: rng.below(sizes.p), original, spare, bitmap: aim::mask(rng) }
}

/// Words that break one rule of an image that mounted as this state, or nearly do.
fn breach(rng: &mut Rng, state: &State, buffer: &[u8]) -> Vec<Word> {
    let live = live_positions(state.sizes, state.head, state.tail);
    match rng.below(14) {
        0 | 10 => vec![header_word(rng, state)],
        1..=4 if !live.is_empty() => vec![record_head(rng, state, buffer, &live)],
        5 | 6 => vec![slot_number(rng, state, buffer)],
        7 | 11 => page_in_two_slots(state).unwrap_or_else(|| vec![page_word(rng, state)]),
        8 | 9 if state.sizes.l > 0 => entry_words(rng, state),
        _ => vec![page_word(rng, state)],
    }
}

/// The count of entries, or the key of one that is counted.
fn entry_words(rng: &mut Rng, state: &State) -> Vec<Word> {
    let sizes = state.sizes;
    let used = state.wide.used;
    let at = |entry| sizes.entry_word(entry, 0);
    if used == 0 {
        let outside = key(sizes.p, 0);
        return vec![
            (COUNT_AT, rng.pick(&[1, 1, sizes.l + 1, 1 << 32])),
            (at(0), rng.pick(&[0, outside, u64::MAX])),
        ];
    }
    let entry = rng.below(used);
    let outside = [key(sizes.p, 0), u64::MAX, state.wide.keys[0], state.wide.keys[used as usize - 1]];
    rng.pick(&[
        [(COUNT_AT, sizes.l + 1), (at(entry), state.wide.keys[entry as usize])],
        [(COUNT_AT, u64::MAX), (at(entry), state.wide.keys[entry as usize])],
        [(COUNT_AT, used), (at(entry), outside[0])],
        [(COUNT_AT, used), (at(entry), outside[1])],
        [(COUNT_AT, used), (at(entry), outside[2])],
        [(COUNT_AT, used), (at(entry), outside[3])],
    ])
    .to_vec()
}

fn header_word(rng: &mut Rng, state: &State) -> Word {
    let sizes = state.sizes;
    let twice = 2 * sizes.j;
    let too_many = position_after(sizes, state.tail, sizes.j + 1);
    rng.pick(&[
        (LAYOUT_AT, 0),
        (LAYOUT_AT, 3 - sizes.layout()),
        (LAYOUT_AT, 3),
        (LAYOUT_AT, 1 + (1 << 32)),
        (P_AT, 0),
        (P_AT, 1_025),
        (P_AT, sizes.p + 1),
        (P_AT, sizes.p + (1 << 32)),
        (ENTRIES_AT, 0),
        (ENTRIES_AT, 65),
        (ENTRIES_AT, 64),
        (S_AT, 0),
        (S_AT, 17),
        (J_AT, sizes.s - 1),
        (J_AT, 257),
        (HEAD_AT, twice),
        (TAIL_AT, twice),
        (TAIL_AT, position_after(sizes, state.tail, 1)),
        (TAIL_AT, position_after(sizes, state.tail, 1)),
        (TAIL_AT, position_after(sizes, state.tail, 2)),
        (HEAD_AT, too_many),
        (HEAD_AT, state.head + twice),
        (HEAD_AT, state.head + (1 << 32)),
    ])
}

/// A live record's first word with a slot or a "first" that is wrong or nearly so.
fn record_head(rng: &mut Rng, state: &State, buffer: &[u8], live: &[u64]) -> Word {
    let sizes = state.sizes;
    let i = rng.below(live.len() as u64) as usize;
    let record = Record::read(buffer, sizes, live[i]);
    // For the first live record that is a dead one, which must not count.
    let before = Record::read(buffer, sizes, position_after(sizes, live[i], 2 * sizes.j - 1));
    let (first, slot) = (record.first, record.slot_number);
    let (first, slot) = rng.pick(&[
        (first, sizes.s),
        (first, sizes.s + 1),
        (before.first, slot),
        (before.first, before.slot_number),
        (before.first, before.slot_number.saturating_sub(1)),
        (before.first, before.slot_number + 1),
        (before.first + 1, before.slot_number + 1),
        (position_after(sizes, before.first, 2 * sizes.j - 1), before.slot_number + 1),
        (position_after(sizes, live[i], sizes.j), slot),
        (live[i] + 2 * sizes.j, slot),
        (live[i], before.slot_number),
    ]);
    (sizes.record_word(live[i], 0), first + (slot << 32))
}

/// One number of a slot, where the mount takes it from: wrong in shape, or another slot's.
fn slot_number(rng: &mut Rng, state: &State, buffer: &[u8]) -> Word {
    let sizes = state.sizes;
    let (a, b) = (rng.below(sizes.s) as usize, rng.below(sizes.s) as usize);
    let (slot, other) = (state.slots[a], state.slots[b]);
    let frames = sizes.frames();
    let any = rng.below(frames);
    let changed = rng.pick(&[
        Slot { page: other.page, ..slot },
        Slot { page: sizes.p, ..slot },
        Slot { original: other.original, ..slot },
        Slot { original: other.spare, ..slot },
        Slot { original: frames, ..slot },
        Slot { spare: other.spare, ..slot },
        Slot { spare: other.original, ..slot },
        Slot { spare: frames, ..slot },
        Slot { spare: any, ..slot },
        Slot { bitmap: 1, ..slot },
        Slot { original: slot.spare, spare: slot.original, ..slot },
    ]);
    let wanted = changed.words();
    let at = |i: u64| mounted_from(state, a, i);
    let differing = (0..3u64).find(|&i| word(buffer, at(i)) != wanted[i as usize]).unwrap_or(0);
    (at(differing), wanted[differing as usize])
}

/// Where the mount took a slot's word from: its last record or the slot table.
fn mounted_from(state: &State, slot: usize, i: u64) -> usize {
    match state.last[slot] {
        Some(position) => state.sizes.record_word(position, i + 1),
        None => state.sizes.slot_word(slot as u64, i),
    }
}

/// A slot that owns another's page, while its own page's word names its original: each frame is
/// still named by someone.
fn page_in_two_slots(state: &State) -> Option<Vec<Word>> {
    let owning: Vec<usize> =
        (0..state.slot_count()).filter(|&i| state.slots[i].is_owning(state.sizes)).collect();
    let (a, b) = (owning.first()?, owning.last()?);
    let (one, other) = (state.slots[*a], state.slots[*b]);
    let home = (state.sizes.page_word(one.page), one.original);
    (a != b).then(|| vec![home, (mounted_from(state, *a, 0), other.page)])
}

/// A page-table word: another frame, none, or one that is right in its lower half only.
fn page_word(rng: &mut Rng, state: &State) -> Word {
    let sizes = state.sizes;
    let page = rng.below(sizes.p);
    let frame = rng.below(sizes.frames());
    (sizes.page_word(page), rng.pick(&[frame, frame, frame + (1 << 32), sizes.frames(), u64::MAX]))
}
