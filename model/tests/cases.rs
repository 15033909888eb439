//! The cases T1 to T12 of document 01 and what stands near them.

mod common;

use common::{numbered, Store};
use model::layout::{Sizes, HEAD_AT, TAIL_AT};
use model::mount::{format, mount, recall};
use model::slots::Slot;

const SIZES: Sizes = Sizes { p: 2, s: 1, j: 2, l: 0 };

/// The image of the cases, with byte 165 committed at page 0, line 0.
fn committed() -> Store {
    let mut store = Store::fresh(2, 1, 2);
    store.begin(0).unwrap();
    store.write(0, 0, 0, 165).unwrap();
    store.commit(0).unwrap();
    store
}

#[test]
fn t1_t2_format_turned_back() {
    assert_eq!(numbered(format(SIZES, &mut [0; 12_479])), Err(4));
    assert!(format(SIZES, &mut [0; 12_480]).is_ok());
    assert_eq!(numbered(format(Sizes { j: 0, ..SIZES }, &mut [0; 12_480])), Err(3));
    assert_eq!(numbered(format(Sizes { j: 0, ..SIZES }, &mut [])), Err(3), "3 before 4");
}

#[test]
fn t3_a_write_makes_eight_stores_in_the_spare() {
    let mut store = Store::fresh(2, 1, 2);
    assert_eq!(store.begin(0), Ok(0));
    let before = store.image.clone();
    assert_eq!(store.ask_write(0, 0, 0, 165), Ok(8));
    assert_eq!(store.image, before, "asking stores nothing");
    for i in 0..8 {
        let before = store.image.clone();
        // A store of the same bytes is seen by a mark that it takes away.
        store.image[8_384 + 8 * i..8_392 + 8 * i].fill(0x55);
        assert_eq!(store.step(), Ok(1));
        let mut wanted = before;
        wanted[8_384 + 8 * i..8_392 + 8 * i].fill(0);
        wanted[8_384] = 165;
        assert_eq!(store.image, wanted, "store {i}");
    }
    assert_eq!(store.state.slots[0], Slot { page: 0, original: 0, spare: 2, bitmap: 0 });
    assert_eq!((store.state.writers[0].held[0], store.state.next), (1, 0));
    assert_eq!(store.step(), Err(10));
}

#[test]
fn t4_commit() {
    let mut store = Store::fresh(2, 1, 2);
    store.begin(0).unwrap();
    store.write(0, 0, 0, 165).unwrap();
    assert_eq!(store.commit(0), Ok(5));
    assert_eq!([104, 112, 120, 128].map(|at| store.word(at)), [0, 0, 8_589_934_592, 1]);
    assert_eq!((store.word(HEAD_AT), store.state.head), (1, 1));
    assert!(!store.state.writers[0].open);
    assert_eq!(store.state.last[0], Some(0));
}

#[test]
fn t5_t6_t7_consolidate_full_journal_checkpoint() {
    let mut store = committed();
    assert_eq!(store.consolidate(0), Ok(14));
    assert_eq!([136, 144, 152, 160].map(|at| store.word(at)), [1, u64::MAX, 12_884_901_887, 0]);
    assert_eq!(store.word(HEAD_AT), 2);
    assert_eq!((store.word(64), store.read(0, 0, 0)), (0, Ok(165)), "copied home to frame 0");

    store.begin(1).unwrap();
    store.write(1, 1, 0, 9).unwrap();
    assert_eq!(store.commit(1), Err(19));
    assert_eq!(store.checkpoint(), Ok(4));
    assert_eq!((store.word(TAIL_AT), store.state.tail), (2, 2));
    assert_eq!(store.commit(1), Ok(5));
}

#[test]
fn t8_t9_positions_go_round() {
    let mut store = committed();
    store.consolidate(0).unwrap();
    store.checkpoint().unwrap();
    store.begin(0).unwrap();
    store.write(0, 0, 0, 166).unwrap();
    store.commit(0).unwrap();
    assert_eq!(store.state.head, 3);
    store.consolidate(0).unwrap();
    assert_eq!((store.state.head, store.state.tail), (0, 2));
    let mounted = mount(&store.image).unwrap();
    assert_eq!((mounted.head, mounted.tail, mounted.last[0]), (0, 2, Some(3)), "two live");
    assert_eq!(store.checkpoint(), Ok(4));
    assert_eq!(store.checkpoint(), Ok(0), "head equal to tail");
}

/// Page 0 with the lowest n lines committed in the spare, line i starting with byte i + 1.
fn with_ones(n: u64) -> Store {
    let mut store = Store::fresh(2, 1, 2);
    store.begin(0).unwrap();
    for line in 0..n.max(1) {
        store.write(0, 0, line, line as u8 + 1).unwrap();
    }
    if n == 0 {
        store.abort(0).unwrap();
    }
    store.begin(1).unwrap();
    store.commit(if n == 0 { 1 } else { 0 }).unwrap();
    store
}

#[test]
fn t10_the_number_of_ones_decides_the_way_of_the_copy() {
    for (ones, stores, home) in [(0, 6, 0), (32, 262, 0), (33, 254, 2), (64, 6, 2)] {
        let mut store = with_ones(ones);
        assert_eq!(store.state.slots[0].bitmap.count_ones() as u64, ones);
        assert_eq!(store.consolidate(0), Ok(stores), "{ones} ones");
        assert_eq!(store.word(64), home, "page 0's frame");
        assert_eq!(store.state.slots[0], Slot::free(2 - home));
        for line in 0..64 {
            let wanted = if line < ones { line as u8 + 1 } else { 0 };
            assert_eq!(store.read(3, 0, line), Ok(wanted), "{ones} ones, line {line}");
        }
        let state = store.state.clone();
        store.mount().unwrap();
        assert_eq!((store.state.slots, store.state.last), (state.slots, state.last));
    }
}

#[test]
fn t11_t12_no_slot_and_a_held_line() {
    let mut store = Store::fresh(2, 1, 2);
    store.begin(0).unwrap();
    store.begin(1).unwrap();
    store.write(0, 0, 0, 165).unwrap();
    assert_eq!(store.ask_write(0, 1, 0, 1), Err(15));
    assert_eq!(store.ask_write(1, 0, 0, 1), Err(14));
    assert_eq!(store.ask_write(1, 0, 1, 1), Ok(8), "another line of the page");
}

#[test]
fn a_second_write_goes_to_the_same_copy() {
    let mut store = committed();
    store.begin(2).unwrap();
    store.write(2, 0, 0, 7).unwrap();
    store.write(2, 0, 0, 8).unwrap();
    assert_eq!((store.read(2, 0, 0), store.read(0, 0, 0)), (Ok(8), Ok(165)), "own and committed copy");
    store.abort(2).unwrap();
    assert_eq!(store.read(2, 0, 0), Ok(165));
    assert_eq!(store.state.slots[0].page, 0, "the slot stays taken");
}

#[test]
fn a_commit_over_two_slots_carries_one_first() {
    let mut store = Store::fresh(3, 3, 4);
    store.begin(0).unwrap();
    for page in [2, 0, 1] {
        store.write(0, page, 5, page as u8).unwrap();
    }
    store.commit(0).unwrap();
    let firsts: Vec<u64> = (0..3).map(|q| store.word(store.state.sizes.record_word(q, 0))).collect();
    assert_eq!(firsts, vec![0, 1 << 32, 2 << 32]);
    let pages: Vec<u64> = (0..3).map(|q| store.word(store.state.sizes.record_word(q, 1))).collect();
    assert_eq!(pages, vec![2, 0, 1]);
}

#[test]
fn slots_are_tried_in_a_round() {
    let mut store = Store::fresh(4, 2, 4);
    store.begin(0).unwrap();
    store.write(0, 0, 0, 1).unwrap();
    assert_eq!(store.state.next, 1);
    store.commit(0).unwrap();
    store.consolidate(0).unwrap();
    store.begin(0).unwrap();
    store.write(0, 3, 0, 1).unwrap();
    assert_eq!((store.state.slots[1].page, store.state.next), (3, 0), "slot 1, though slot 0 is free");
    store.write(0, 2, 0, 1).unwrap();
    assert_eq!((store.state.slots[0].page, store.state.next), (2, 1));
}

#[test]
fn an_empty_commit_closes_when_taken() {
    let mut store = Store::fresh(1, 1, 1);
    store.begin(3).unwrap();
    assert_eq!(store.ask_commit(3), Ok(0));
    assert_eq!(store.ask_commit(3), Err(13));
}

#[test]
fn run_reports_what_it_made() {
    let mut store = committed();
    store.ask_checkpoint().unwrap();
    assert_eq!(store.run(0), Ok(0));
    assert_eq!(store.run(3), Ok(3));
    assert_eq!(store.state.tail, 0);
    assert_eq!(store.begin(0), Err(9));
    assert_eq!(store.run(5), Ok(1));
    assert_eq!((store.state.tail, store.state.last[0]), (1, None));
    assert_eq!(store.run(5), Err(10));
}

#[test]
fn recall_shows_what_a_mount_would() {
    let mut store = committed();
    store.begin(0).unwrap();
    store.write(0, 0, 0, 7).unwrap();
    let mut target = [9; 65];
    assert_eq!(numbered(recall(0, 0, &store.image, &mut target)), Ok(()));
    assert_eq!((target[0], target[63], target[64]), (165, 0, 9));
    for (page, line, length) in [(2, 0, 64), (0, 64, 64), (0, 0, 63)] {
        assert_eq!(numbered(recall(page, line, &store.image, &mut vec![0; length])), Err(11));
    }
    assert_eq!(numbered(recall(2, 0, &store.image[..12_479], &mut target)), Err(4), "4 before 11");
}
