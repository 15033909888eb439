//! Rows 1 to 7 on damaged images, row 8 on damaged states, and which row comes first.

mod common;

use common::{numbered, Store};
use model::image::{put_word, word};
use model::layout::{HEAD_AT, J_AT, LAYOUT_AT, P_AT, S_AT, TAIL_AT};
use model::mount::{mount, recall};
use model::slots::Slot;
use model::state::{Operation, Pending, State, Write};
use model::validity::{broken_clauses, Clause};

/// P=3, S=2, J=4. Pages 0 and 1 in slots 0 and 1 by one commit (records 0, 1), then page 0 again (record 2).
fn store() -> Store {
    let mut store = Store::fresh(3, 2, 4);
    for pages in [vec![0, 1], vec![0]] {
        store.begin(0).unwrap();
        for page in pages {
            store.write(0, page, 0, 1).unwrap();
        }
        store.commit(0).unwrap();
    }
    assert!(mount(&store.image).is_ok());
    store
}

fn mounted(image: &[u8]) -> u8 {
    let answer = numbered(mount(image)).map(|_| ());
    let recalled = numbered(recall(0, 0, image, &mut [0; 64]));
    assert_eq!(answer, recalled, "recall turns back as mount does");
    answer.err().unwrap_or(0)
}

/// Mount's answer with some words changed.
fn with(words: &[(usize, u64)]) -> u8 {
    let mut image = store().image;
    for &(at, value) in words {
        put_word(&mut image, at, value);
    }
    mounted(&image)
}

fn record(position: u64, i: u64) -> usize {
    store().state.sizes.record_word(position, i)
}

#[test]
fn rows_1_to_4() {
    let image = store().image;
    assert_eq!((mounted(&[]), mounted(&image[..63])), (1, 1));
    assert_eq!(mounted(&image[..64]), 4);
    assert_eq!(mounted(&image[..image.len() - 1]), 4);
    assert_eq!(mounted(&[&image[..], &[7]].concat()), 0);
    assert_eq!((with(&[(LAYOUT_AT, 0)]), with(&[(LAYOUT_AT, 3)])), (2, 2));
    assert_eq!(with(&[(LAYOUT_AT, 2)]), 3, "no entries under layout 2");
    for (at, value) in
        [(P_AT, 0), (P_AT, 1_025), (S_AT, 0), (S_AT, 17), (J_AT, 1), (J_AT, 257), (J_AT, u64::MAX)]
    {
        assert_eq!(with(&[(at, value)]), 3, "{value} at {at}");
    }
    assert_eq!(with(&[(P_AT, 1_024)]), 4);
}

#[test]
fn row_5() {
    assert_eq!((with(&[(HEAD_AT, 8)]), with(&[(TAIL_AT, 8)])), (5, 5));
    assert_eq!(with(&[(HEAD_AT, 5)]), 5, "five live");
    assert_eq!(with(&[(TAIL_AT, 4)]), 5, "head below tail by one: seven live");
    assert_eq!(with(&[(HEAD_AT, u64::MAX), (TAIL_AT, u64::MAX)]), 5);
    assert_eq!(with(&[(HEAD_AT, 0)]), 0, "none live: the slot table is still the fresh one");
}

#[test]
fn row_6_slot_and_first() {
    assert_eq!(with(&[(record(2, 0), 2 + (2 << 32))]), 6, "slot S");
    assert_eq!(with(&[(record(0, 0), 1)]), 6, "the first live record with another's position");
    assert_eq!(with(&[(record(0, 0), 4)]), 6, "same place, other position");
    assert_eq!(with(&[(record(1, 0), 1 + (1 << 32))]), 0, "its own position");
    assert_eq!(with(&[(record(1, 0), 3 + (1 << 32))]), 6);
    assert_eq!(with(&[(record(2, 0), 0)]), 6, "the predecessor's first with a lower slot");
    assert_eq!(with(&[(record(2, 0), 1 << 32)]), 6, "the predecessor's first with the same slot");
    assert_eq!(with(&[(TAIL_AT, 1)]), 6, "a transaction cut off in its middle");
}

#[test]
fn row_6_shapes() {
    let frames = |original: u64, spare: u64| original + (spare << 32);
    for (i, value) in [(1, 3), (1, u64::MAX), (2, frames(5, 3)), (2, frames(0, 5)), (2, frames(3, 3))] {
        assert_eq!(with(&[(record(0, i), value)]), 6, "{value} in word {i}");
    }
    let free = [(record(0, 1), u64::MAX), (record(0, 2), frames(0xffff_ffff, 3)), (record(0, 3), 0)];
    assert_eq!(with(&free), 0, "record 2 replaces it");
    assert_eq!(with(&[free[0], free[1], (record(0, 3), 1)]), 6, "a free slot with a bitmap");
}

#[test]
fn row_7() {
    let sizes = store().state.sizes;
    assert_eq!(with(&[(HEAD_AT, 0), (sizes.slot_word(0, 0), 0)]), 7, "a slot of neither shape");
    assert_eq!(with(&[(sizes.slot_word(0, 0), 0), (sizes.slot_word(1, 2), 9)]), 0, "under live records");
    assert_eq!(with(&[(record(1, 1), 0)]), 7, "page 0 in two slots, page 1's own word right");
    assert_eq!(with(&[(sizes.page_word(2), 3)]), 7, "a spare");
    assert_eq!(with(&[(sizes.page_word(2), 0)]), 7, "an original");
    assert_eq!(with(&[(sizes.page_word(2), 5)]), 7, "frame F");
    assert_eq!(with(&[(sizes.page_word(2), 2 + (1 << 32))]), 7, "right in its lower half alone");
    assert_eq!(with(&[(sizes.page_word(0), 77), (sizes.page_word(1), 2)]), 0, "words of slotted pages");
    assert_eq!(with(&[(record(1, 2), 2 + (4 << 32))]), 7, "an original that is page 2's");
}

#[test]
fn the_first_row_counts() {
    let short = |words: &[(usize, u64)], length: usize| {
        let mut image = store().image;
        words.iter().for_each(|&(at, value)| put_word(&mut image, at, value));
        mounted(&image[..length])
    };
    let sizes = store().state.sizes;
    let all = [(LAYOUT_AT, 0), (P_AT, 0), (HEAD_AT, 8), (record(0, 0), 9), (sizes.page_word(2), 9)];
    let length = sizes.image_length();
    assert_eq!(short(&all, 63), 1);
    assert_eq!(short(&all, 64), 2);
    assert_eq!(short(&all[1..], 64), 3);
    assert_eq!(short(&all[2..], length - 1), 4);
    assert_eq!(short(&all[2..], length), 5);
    assert_eq!(short(&all[3..], length), 6);
    assert_eq!(short(&all[4..], length), 7);
}

/// What breaks the state of `open_store` after a change.
fn broken(change: impl FnOnce(&mut State)) -> Vec<Clause> {
    let mut state = open_store().state;
    change(&mut state);
    broken_clauses(&state)
}

/// As `store`, with writer 0 open and holding line 1 of page 1, which is in slot 1.
fn open_store() -> Store {
    let mut store = store();
    store.begin(0).unwrap();
    store.write(0, 1, 1, 5).unwrap();
    store
}

#[test]
fn row_8_numbers() {
    assert_eq!(broken(|_| ()), vec![]);
    assert_eq!(broken(|s| s.sizes.p = u64::MAX), vec![Clause::PAbove]);
    assert_eq!(broken(|s| s.head = u64::MAX), vec![Clause::HeadBeyond]);
    assert_eq!(broken(|s| s.tail = 8), vec![Clause::TailBeyond]);
    assert_eq!(broken(|s| s.head = 5), vec![Clause::OverJLive], "five live");
    assert_eq!(broken(|s| s.slots[0].page = 3), vec![Clause::SlotShape]);
    assert_eq!(broken(|s| s.slots[0].page = 1), vec![Clause::PageTwice, Clause::EntryNotOriginal]);
    let same = |s: &mut State| (s.slots[0].page, s.slots[0].original) = (1, 1);
    assert_eq!(broken(same), vec![Clause::PageTwice], "with the same original, too");
    assert_eq!(broken(|s| s.slots[0].spare = 1), vec![Clause::FrameNotOnce]);
    assert_eq!(broken(|s| s.next = 2), vec![Clause::NextSlot]);
    assert_eq!(broken(|s| s.slots[5].page = 77), vec![], "past S");
}

#[test]
fn row_8_held_lines_and_last_positions() {
    let open_both = |s: &mut State| {
        s.writers[1].open = true;
        s.writers[1].held[1] = 2;
    };
    assert_eq!(broken(open_both), vec![Clause::HeldTwice]);
    assert_eq!(broken(|s| s.writers[3].held[0] = 1 << 63), vec![Clause::HeldByClosed]);
    assert_eq!(broken(|s| s.writers[0].open = false), vec![Clause::HeldByClosed]);
    assert_eq!(broken(|s| s.slots[1] = Slot::free(4)), vec![Clause::HeldInFree]);
    assert_eq!(broken(|s| s.writers[0].held[0] = u64::MAX), vec![], "all lines of a page");
    assert_eq!(broken(|s| s.last[0] = Some(3)), vec![Clause::LastNotLive]);
    assert_eq!(broken(|s| s.last[0] = Some(8)), vec![Clause::LastNotLive], "position 0, once round");
    assert_eq!(broken(|s| s.last[0] = Some(1)), vec![Clause::LastTwice]);
    assert_eq!(broken(|s| s.last = [None; 16]), vec![], "a live record need not have a last position");
}

#[test]
fn row_8_pending() {
    let pend = |operation: Operation, made: u64| broken(|s| s.pending = Some(Pending { operation, made }));
    assert_eq!(pend(Operation::Commit { writer: 0 }, 4), vec![]);
    assert_eq!(pend(Operation::Commit { writer: 0 }, 5), vec![Clause::PendingMade(2)]);
    assert_eq!(pend(Operation::Commit { writer: 0 }, u64::MAX), vec![Clause::PendingMade(2)]);
    assert_eq!(pend(Operation::Commit { writer: 1 }, 0), vec![Clause::PendingRow(2, 13)]);
    assert_eq!(pend(Operation::Commit { writer: u64::MAX }, 0), vec![Clause::PendingRow(2, 11)]);
    assert_eq!(pend(Operation::Consolidate { page: 0 }, 0), vec![]);
    assert_eq!(pend(Operation::Consolidate { page: 1 }, 0), vec![Clause::PendingRow(3, 18)]);
    assert_eq!(pend(Operation::Consolidate { page: 2 }, 0), vec![Clause::PendingRow(3, 17)]);
    assert_eq!(pend(Operation::Checkpoint, 6), vec![], "two slots and tail");
    assert_eq!(pend(Operation::Checkpoint, 7), vec![Clause::PendingMade(4)]);
    let write = |page, offset, length| {
        let write = Write { writer: 0, page, line: 1, offset, length, finished: [0; 64] };
        pend(Operation::Write(write), 7)
    };
    assert_eq!(write(1, 0, 64), vec![]);
    assert_eq!(write(1, 0, 65), vec![Clause::PendingRow(1, 11)]);
    assert_eq!(write(1, u64::MAX, 2), vec![Clause::PendingRow(1, 11)], "a sum that would wrap");
    assert_eq!(write(2, 0, 1), vec![Clause::PendingRow(1, 15)]);
}

#[test]
fn row_8_pending_without_stores() {
    let mut idle = Store::fresh(1, 1, 1);
    idle.begin(0).unwrap();
    for operation in [Operation::Commit { writer: 0 }, Operation::Checkpoint] {
        let kind = operation.kind();
        idle.state.pending = Some(Pending { operation, made: 0 });
        assert_eq!(broken_clauses(&idle.state), vec![Clause::PendingMade(kind)], "none needed");
        assert_eq!(idle.step(), Err(8));
    }
}

/// Document 02, L5: "a slotted page's entry is its slot's original, and entries and spares together name each frame once".
#[test]
fn row_8_covers_the_map() {
    let both = |s: &mut State| (s.slots[0].original, s.map[0]) = (2, 2);
    assert_eq!(broken(both), vec![Clause::FrameNotOnce], "page 2 is there");
    assert_eq!(broken(|s| s.map.swap(0, 2)), vec![Clause::EntryNotOriginal], "each frame is named");
    for frame in [0, 1, 3, 4, 5, u64::MAX] {
        assert_eq!(broken(|s| s.map[2] = frame), vec![Clause::FrameNotOnce], "originals, spares, F: {frame}");
    }
    assert_eq!(broken(|s| s.map[3] = 77), vec![], "past P");
}

/// Row 16 is gone: a word that changes under the state is not read, and the next mount turns the image back.
#[test]
fn the_map_is_read_and_not_the_page_table() {
    let mut store = Store::fresh(2, 2, 2);
    store.begin(0).unwrap();
    store.write(0, 0, 0, 1).unwrap();
    for frame in [0, 2, 3, 4, 1 + (1 << 32), u64::MAX] {
        put_word(&mut store.image, 72, frame);
        assert_eq!((store.read(0, 1, 0), store.read(0, 0, 0)), (Ok(0), Ok(1)), "{frame}");
        assert_eq!(mounted(&store.image), 7);
    }
    assert_eq!(store.write(0, 1, 0, 7), Ok(8));
    assert_eq!((store.state.slots[1].original, store.read(0, 1, 0)), (1, Ok(7)));
}

#[test]
fn state_rows_in_the_tables_order() {
    let mut store = open_store();
    let image = store.image.clone();
    store.ask_commit(0).unwrap();
    store.image.pop();
    let (healthy, next) = (store.state.clone(), store.state.sizes.s);
    store.state.next = next;
    assert_eq!((store.ask_commit(9), store.run(1), store.begin(9)), (Err(8), Err(8), Err(8)));
    store.state = healthy;
    assert_eq!((store.ask_commit(9), store.run(1)), (Err(4), Err(4)));
    assert_eq!((store.begin(9), store.abort(9)), (Err(9), Err(9)), "these are lent no buffer");
    store.image = image;
    assert_eq!((store.ask_commit(9), store.ask_checkpoint(), store.read(9, 9, 9)), (Err(9), Err(9), Err(9)));
    store.run(9).unwrap();
    assert_eq!((store.ask_commit(9), store.run(9), store.begin(9)), (Err(11), Err(10), Err(11)));
}

#[test]
fn a_checkpoint_copies_the_words_in_the_image() {
    let mut store = store();
    let at = store.state.sizes.record_word(2, 3);
    put_word(&mut store.image, at, 77);
    store.checkpoint().unwrap();
    let bitmap = word(&store.image, store.state.sizes.slot_word(0, 2));
    assert_eq!((bitmap, store.state.slots[0].bitmap), (77, 0));
}
