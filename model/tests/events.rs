//! Events of document 02: the transaction that each is, and when one is turned back.

mod common;

use common::{numbered, Store};
use model::calls::{self, Patch};

/// Credit 500, cash in 500; page 0 keeps the slot that the event took.
fn with_credit() -> Store {
    let mut store = Store::fresh(2, 2, 4);
    assert_eq!(store.event(1, 0, 500), Ok(21));
    store
}

fn copy(store: &Store) -> Store {
    Store { state: store.state.clone(), image: store.image.clone() }
}

fn meter(store: &Store, meter: u64) -> u64 {
    let mut target = [0; 64];
    numbered(calls::read(&store.state, &store.image, (0, 0, meter), &mut target)).expect("a read is taken");
    u64::from_le_bytes(target[..8].try_into().expect("eight bytes"))
}

/// Begin, a write of each meter's number and commit, by writer 1, with a budget of stores; whether the budget was enough.
fn transaction(store: &mut Store, numbers: &[(u64, u64)], mut left: u64) -> bool {
    store.begin(1).expect("closed");
    for &(line, number) in numbers {
        let patch = Patch { offset: 0, length: 8, data: &number.to_le_bytes() };
        numbered(calls::write(&mut store.state, &store.image, (1, 0, line), patch)).expect("taken");
        let made = store.run(left).unwrap();
        left -= made;
        if made < 8 {
            return false;
        }
    }
    let needed = store.ask_commit(1).expect("taken");
    store.run(left).unwrap() == needed
}

#[test]
fn an_event_is_writer_ones_transaction_at_every_cut() {
    let cases = [
        (with_credit(), 3, 0, 20, vec![(0, 480), (3, 20)]),
        (Store::fresh(2, 1, 2), 5, 23, 9_999, vec![(23, 9_999)]),
    ];
    for (store, kind, of, amount, numbers) in cases {
        let needs = 8 * numbers.len() as u64 + 5;
        for cut in 0..=needs {
            let (mut event, mut played) = (copy(&store), copy(&store));
            assert_eq!(event.ask_event(kind, of, amount), Ok(needs));
            assert_eq!(
                event.state.pending.as_ref().map(|pending| pending.made),
                Some(0),
                "no store before a step"
            );
            assert_eq!(event.image, played.image);
            assert_eq!(event.run(cut), Ok(cut));
            assert_eq!(transaction(&mut played, &numbers, cut), cut == needs);
            assert_eq!(event.image, played.image, "cut after {cut}");
            if cut == needs {
                assert_eq!(event.state, played.state);
            }
        }
    }
}

#[test]
fn rows_come_in_the_order_of_document_02() {
    let mut store = Store::fresh(2, 1, 1);
    store.begin(2).unwrap();
    store.write(2, 0, 3, 1).unwrap();
    store.begin(1).unwrap();
    assert_eq!(store.ask_event(5, 4, 1), Err(20));
    assert_eq!(store.ask_event(6, 5, 1), Err(20));
    assert_eq!(store.ask_event(0, 5, 1), Err(20));
    assert_eq!(store.ask_event(3, 0, 1), Err(12));
    store.abort(1).unwrap();
    assert_eq!(store.ask_event(3, 0, u64::MAX), Err(14), "its own line");
    assert_eq!(store.ask_event(2, 0, 1), Err(21), "credit is 0, and line 3 is not of it");
    store.abort(2).unwrap();
    store.begin(2).unwrap();
    store.write(2, 0, 0, 0).unwrap();
    assert_eq!(store.ask_event(2, 0, u64::MAX), Err(14), "credit's line");
    assert_eq!(store.ask_event(5, 23, 10_000), Err(21), "a count needs neither");
    store.commit(2).unwrap();
    assert_eq!(store.ask_event(5, 23, 10_000), Err(21), "before 19");
    assert_eq!(store.ask_event(5, 23, 9_999), Err(19));
    store.checkpoint().unwrap();
    store.free_slot().unwrap();
    store.checkpoint().unwrap();
    store.begin(3).unwrap();
    store.write(3, 1, 0, 1).unwrap();
    assert_eq!(store.ask_event(5, 23, 10_000), Err(15));
}

#[test]
fn amounts_and_credit_keep_their_ranges() {
    let mut store = Store::fresh(2, 2, 2);
    let mut ask = |kind, of, amount| {
        store.checkpoint().unwrap();
        store.event(kind, of, amount)
    };
    assert_eq!(ask(1, 0, 100_000_000), Err(21));
    assert_eq!(ask(1, 0, 99_999_999), Ok(21));
    assert_eq!(ask(4, 0, 1), Err(21), "credit would be 100,000,000");
    assert_eq!(ask(3, 0, 99_999_999), Ok(21));
    assert_eq!(ask(2, 0, 1), Err(21), "credit would be below 0");
    assert_eq!(ask(1, 0, 2), Ok(21), "cash in rolls");
    assert_eq!(ask(5, 14, 999_999), Ok(13));
    assert_eq!(ask(5, 14, 1), Ok(13), "a count rolls");
    assert_eq!([0, 1, 3, 14].map(|m| meter(&store, m)), [2, 1, 99_999_999, 0]);
}

/// Row 8 asks a pending event every row but 21.
#[test]
fn row_8_leaves_out_21() {
    let store = with_credit();
    let pend = |kind, amount| {
        let mut pending = copy(&store);
        pending.ask_event(3, 0, 20).unwrap();
        let operation = &mut pending.state.pending.as_mut().unwrap().operation;
        let model::state::Operation::Event(event) = operation else { panic!("an event is pending") };
        (event.asked.kind, event.asked.amount) = (kind, amount);
        pending
    };
    assert_eq!(pend(3, 501).run(21), Ok(21), "its lines are finished");
    assert_eq!(pend(6, 20).run(1), Err(8));
    let mut open = pend(3, 20);
    open.state.writers[1].open = true;
    assert_eq!(open.run(1), Err(8));
    let mut full = pend(3, 20);
    full.state.tail = (full.state.head + 4) % 8;
    assert_eq!(full.run(1), Err(8));
}
