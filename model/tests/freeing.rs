//! The call that frees a slot: which slot it takes, and when it is turned back.

mod common;

use common::Store;
use model::calls;

/// Pages 0, 1, .. with their first lines committed, so many of each, in slots 0, 1, ..; the journal is then emptied.
fn with_lines(counts: &[u64]) -> Store {
    let slots = counts.len() as u64;
    let mut store = Store::fresh(slots + 1, slots, slots + 1);
    store.begin(0).unwrap();
    for (page, &count) in counts.iter().enumerate() {
        for line in 0..count {
            store.write(0, page as u64, line, 1).unwrap();
        }
    }
    store.commit(0).unwrap();
    store.checkpoint().unwrap();
    store
}

/// The pages that leave their slots, in order, with the stores of each.
fn order(store: &mut Store) -> Vec<(u64, u64)> {
    let mut freed = vec![];
    loop {
        store.checkpoint().unwrap();
        let before: Vec<u64> = store.state.slots_used().iter().map(|slot| slot.page).collect();
        let Ok(stores) = store.free_slot() else { return freed };
        let after: Vec<u64> = store.state.slots_used().iter().map(|slot| slot.page).collect();
        let left: Vec<u64> = before.into_iter().filter(|page| !after.contains(page)).collect();
        assert_eq!(left.len(), 1);
        freed.push((left[0], stores));
    }
}

#[test]
fn the_fewest_lines_go_first_and_the_lower_slot_on_a_tie() {
    let mut store = with_lines(&[33, 32, 63, 1, 64]);
    assert_eq!(order(&mut store), vec![(4, 6), (2, 14), (3, 14), (0, 254), (1, 262)]);
    assert_eq!(store.free_slot(), Err(22), "none is taken");
}

#[test]
fn a_held_slot_is_left_out_and_22_comes_before_19() {
    let mut store = with_lines(&[1, 5]);
    store.begin(1).unwrap();
    store.write(1, 0, 9, 1).unwrap();
    let mut other = Store { state: store.state.clone(), image: store.image.clone() };
    assert_eq!(store.free_slot(), Ok(46), "page 1");
    assert_eq!(store.free_slot(), Err(22), "page 0 is held");
    other.write(1, 1, 9, 1).unwrap();
    loop {
        other.begin(2).unwrap();
        other.write(2, 1, 10, 1).unwrap();
        if other.commit(2) == Err(19) {
            break;
        }
    }
    other.abort(2).unwrap();
    assert_eq!(other.free_slot(), Err(22), "both are held, and the journal is full");
    other.abort(1).unwrap();
    assert_eq!(other.free_slot(), Err(19));
}

#[test]
fn rows_8_4_and_9_come_first() {
    let mut store = with_lines(&[1]);
    let short = store.image[1..].to_vec();
    assert_eq!(calls::free_slot(&mut store.state.clone(), &short).map_err(|r| r.number()), Err(4));
    let mut broken = store.state.clone();
    broken.next = 1;
    assert_eq!(calls::free_slot(&mut broken, &short).map_err(|r| r.number()), Err(8));
    assert_eq!(store.ask_free_slot(), Ok(14));
    assert_eq!(store.ask_free_slot(), Err(9));
}

#[test]
fn its_stores_are_the_consolidations_and_a_cut_leaves_what_is_left_there() {
    for cut in 0..=46 {
        let (mut freed, mut consolidated) = (with_lines(&[33, 5]), with_lines(&[33, 5]));
        assert_eq!(freed.ask_free_slot(), consolidated.ask_consolidate(1));
        assert_eq!(freed.state, consolidated.state);
        assert_eq!(freed.run(cut), consolidated.run(cut));
        assert_eq!(freed.image, consolidated.image);
        freed.mount().unwrap();
        consolidated.mount().unwrap();
        assert_eq!(freed.state, consolidated.state);
    }
}
