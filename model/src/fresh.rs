//! A fresh image and its state, which a format makes.

use crate::image::put_word;
use crate::layout::{Sizes, ENTRIES_AT, J_AT, LAYOUT_AT, P_AT, S_AT};
use crate::slots::Slot;
use crate::state::State;

/// Slot s of a fresh image is free with spare P + s.
fn slots(sizes: Sizes) -> Vec<Slot> {
    (0..sizes.s).map(|slot| Slot::free(sizes.p + slot)).collect()
}

/// The state of a fresh image, for sizes in range: "page i in frame i, slot s free with spare P + s, all else zero".
pub fn fresh_state(sizes: Sizes) -> State {
    let mut state = State::empty(sizes);
    state.slots[..sizes.s as usize].copy_from_slice(&slots(sizes));
    for page in 0..sizes.p {
        state.map[page as usize] = page;
    }
    state
}

/// The parts of a state that a format leaves fresh, to say which one is not.
#[derive(Clone, Copy, Debug, PartialEq, Eq, PartialOrd, Ord)]
pub enum Part {
    HeadAndTail,
    NextSlot,
    Slots,
    LastPositions,
    Map,
    OpenWriters,
    HeldLines,
    PreparedWriter,
    WideWriter,
    EntriesUsed,
}

/// Where a state of sizes in range is not the fresh one of its sizes. What is pending is not asked, nor are places past S,
/// map entries past P and keys past the entries used.
pub fn not_fresh(state: &State) -> Vec<Part> {
    let (sizes, count) = (state.sizes, state.slot_count());
    let writers = &state.writers;
    let parts = [
        (Part::HeadAndTail, (state.head, state.tail) != (0, 0)),
        (Part::NextSlot, state.next != 0),
        (Part::Slots, state.slots_used() != slots(sizes)),
        (Part::LastPositions, state.last[..count].iter().any(Option::is_some)),
        (Part::Map, (0..sizes.p).any(|page| state.map[page as usize] != page)),
        (Part::OpenWriters, writers.iter().any(|writer| writer.open)),
        (Part::HeldLines, writers.iter().any(|writer| writer.held[..count].iter().any(|&held| held != 0))),
        (Part::PreparedWriter, state.prepared.is_some()),
        (Part::WideWriter, state.wide.writer.is_some()),
        (Part::EntriesUsed, state.wide.used != 0),
    ];
    parts.into_iter().filter(|(_, differs)| *differs).map(|(part, _)| part).collect()
}

/// The bytes of a fresh image, for sizes in range.
pub fn fresh_image(sizes: Sizes) -> Vec<u8> {
    let mut image = vec![0; sizes.image_length()];
    put_word(&mut image, P_AT, sizes.p);
    put_word(&mut image, S_AT, sizes.s);
    put_word(&mut image, J_AT, sizes.j);
    put_word(&mut image, LAYOUT_AT, sizes.layout());
    put_word(&mut image, ENTRIES_AT, sizes.l);
    for page in 0..sizes.p {
        put_word(&mut image, sizes.page_word(page), page);
    }
    for (slot, free) in (0..).zip(slots(sizes)) {
        for (i, value) in (0..).zip(free.words()) {
            put_word(&mut image, sizes.slot_word(slot, i), value);
        }
    }
    image
}
