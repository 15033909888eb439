//! A write that changes nothing (document 02, L3): when it needs no stores, and that nothing else is different from before.

mod common;

use common::{numbered, Answer, Store};
use model::calls::{self, Patch};
use model::compare::rng::Rng;
use model::mount::recall;
use model::state::{Operation, Pending, Write};

fn ask(store: &mut Store, place: (u64, u64, u64), offset: u64, data: &[u8]) -> Answer {
    let patch = Patch { offset, length: data.len() as u64, data };
    numbered(calls::write(&mut store.state, &store.image, place, patch))
}

/// Writer 0 is open and holds line 5 of page 1, which reads 1, 2, 3, 0, ..
fn held() -> Store {
    let mut store = Store::fresh(2, 1, 2);
    store.begin(0).unwrap();
    assert_eq!(ask(&mut store, (0, 1, 5), 0, &[1, 2, 3]), Ok(8));
    store.run(8).unwrap();
    store
}

#[test]
fn the_same_bytes_of_a_held_line_need_no_stores() {
    let mut store = held();
    let (state, image) = (store.state.clone(), store.image.clone());
    for (offset, data) in [(0, &[1, 2, 3][..]), (1, &[2]), (3, &[0; 61]), (63, &[0])] {
        assert_eq!(ask(&mut store, (0, 1, 5), offset, data), Ok(0));
        assert_eq!((&store.state, &store.image), (&state, &image));
        assert_eq!(store.run(8), Err(10));
    }
}

#[test]
fn one_other_byte_needs_all_eight() {
    for (offset, data) in [(0, &[1, 2, 4][..]), (0, &[2]), (3, &[1]), (63, &[1]), (2, &[3, 0, 0, 9])] {
        let mut store = held();
        assert_eq!(ask(&mut store, (0, 1, 5), offset, data), Ok(8));
    }
}

#[test]
fn a_line_that_is_not_held_is_stored_and_held() {
    let mut store = held();
    // a line of zeros, of the slotted page; then a rewrite of it
    assert_eq!(store.write(0, 1, 6, 0), Ok(8));
    assert!(store.state.holds(0, 0, 6));
    assert_eq!(store.write(0, 1, 6, 0), Ok(0));
    // committed, then the same byte by another writer, who does not hold it
    store.commit(0).unwrap();
    store.begin(1).unwrap();
    assert_eq!(store.write(1, 1, 5, 1), Ok(8));
    assert_eq!(store.write(1, 1, 5, 1), Ok(0));
    // no longer held after an abort
    store.abort(1).unwrap();
    store.begin(1).unwrap();
    assert_eq!(store.write(1, 1, 5, 1), Ok(8));
}

#[test]
fn rows_come_first() {
    let mut store = held();
    assert_eq!(ask(&mut store, (0, 1, 5), 0, &[]), Err(11));
    assert_eq!(ask(&mut store, (1, 1, 5), 0, &[1]), Err(13));
    store.begin(1).unwrap();
    assert_eq!(ask(&mut store, (1, 1, 5), 0, &[1]), Err(14));
    store.ask_commit(0).unwrap();
    assert_eq!(ask(&mut store, (0, 1, 5), 0, &[1]), Err(9));
}

/// The write before L3: what needs no stores now was pending with all eight.
fn ask_before(store: &mut Store, (writer, page, line): (u64, u64, u64), offset: u64, data: &[u8]) -> Answer {
    let answer = ask(store, (writer, page, line), offset, data)?;
    if answer == 0 {
        let mut finished = [0; 64];
        calls::read(&store.state, &store.image, (writer, page, line), &mut finished).unwrap();
        let length = data.len() as u64;
        let operation = Operation::Write(Write { writer, page, line, offset, length, finished });
        store.state.pending = Some(Pending { operation, made: 0 });
    }
    Ok(8)
}

/// A call on both stores, run to its end or cut after k stores; with whether it was a write that needs no stores now.
fn play(now: &mut Store, before: &mut Store, rng: &mut Rng) -> bool {
    let writer = rng.pick(&[0, 0, 1]);
    let mut idle = false;
    let (new, old) = match rng.below(10) {
        0 | 1 => (now.begin(writer), before.begin(writer)),
        2 => (now.ask_commit(writer), before.ask_commit(writer)),
        3 if rng.percent(30) => (now.abort(writer), before.abort(writer)),
        3 => (now.ask_checkpoint(), before.ask_checkpoint()),
        4 => (now.ask_free_slot(), before.ask_free_slot()),
        _ => {
            let place = (writer, rng.below(3), rng.pick(&[0, 0, 63]));
            let (offset, data) = (rng.pick(&[0, 1]), vec![rng.pick(&[0, 5]); rng.pick(&[1, 2])]);
            let new = ask(now, place, offset, &data);
            idle = new == Ok(0);
            (new, ask_before(before, place, offset, &data))
        }
    };
    assert_eq!(new.is_ok(), old.is_ok());
    let cut = rng.percent(10).then(|| rng.below(12));
    for store in [now, before] {
        let _ = store.run(cut.unwrap_or(u64::MAX));
        if cut.is_some() {
            store.mount().expect("a mount is taken");
        }
    }
    idle
}

#[test]
fn screens_are_as_before() {
    let mut idle = 0;
    for seed in 0..100 {
        let mut rng = Rng::new(seed, 3);
        let (mut now, mut before) = (Store::fresh(3, 2, 3), Store::fresh(3, 2, 3));
        for _ in 0..150 {
            idle += u64::from(play(&mut now, &mut before, &mut rng));
            assert_eq!((&now.state, &now.image), (&before.state, &before.image));
        }
        for page in 0..3 {
            let (mut new, mut old) = ([1; 64], [2; 64]);
            recall(page, 0, &now.image, &mut new).unwrap();
            recall(page, 0, &before.image, &mut old).unwrap();
            assert_eq!(new, old);
        }
    }
    assert!(idle > 100, "only {idle} writes changed nothing");
}
