//! Prepare, confirm and withdraw (document 02, L8): every cut, and when each call is turned back.

mod common;

use common::{numbered, Store};
use model::state::{Operation, Pending, State};
use model::validity::{broken_clauses, Clause};

fn copy(store: &Store) -> Store {
    Store { state: store.state.clone(), image: store.image.clone() }
}

/// Writer 0 wrote byte 7 to pages 0 and 1 over a committed 3 on page 0.
fn written() -> Store {
    let mut store = Store::fresh(3, 3, 5);
    store.begin(0).unwrap();
    store.write(0, 0, 4, 3).unwrap();
    store.commit(0).unwrap();
    store.begin(0).unwrap();
    store.write(0, 0, 4, 7).unwrap();
    store.write(0, 1, 5, 7).unwrap();
    store
}

fn prepared() -> Store {
    let mut store = written();
    assert_eq!(store.prepare(0), Ok(8));
    store
}

/// What a mount finds of the lines written.
fn after_a_cut(store: &Store) -> (u8, u8) {
    let mut found = copy(store);
    found.mount().expect("a mount is taken");
    assert_eq!(found.state.prepared, None);
    (found.read(3, 0, 4).unwrap(), found.read(3, 1, 5).unwrap())
}

/// Prepare's stores are the commit's but the last, which is confirm's; with it the state is the commit's.
#[test]
fn together_they_are_the_commit() {
    for cut in 0..=9 {
        let (mut parts, mut whole) = (written(), written());
        assert_eq!(whole.ask_commit(0), Ok(9));
        whole.run(cut).unwrap();
        assert_eq!(parts.ask_prepare(0), Ok(8));
        assert_eq!(parts.run(cut.min(8)), Ok(cut.min(8)));
        if cut == 9 {
            assert_eq!(parts.ask_confirm(0), Ok(1));
            assert_eq!(parts.image, prepared().image, "no store before a step");
            assert_eq!(parts.run(9), Ok(1));
            assert_eq!(parts.state, whole.state);
        }
        assert_eq!(parts.image, whole.image, "cut after {cut}");
        assert_eq!(after_a_cut(&parts), if cut == 9 { (7, 7) } else { (3, 0) }, "cut after {cut}");
    }
}

/// Until its last store a prepare changes nothing, and with it nothing but who is prepared.
#[test]
fn a_prepare_prepares() {
    let before = written().state;
    let mut store = written();
    store.ask_prepare(0).unwrap();
    assert_eq!(store.run(7), Ok(7));
    assert_eq!(store.state.prepared, None);
    assert_eq!(store.run(1), Ok(1));
    assert_eq!(store.state, State { prepared: Some(0), ..before });
}

#[test]
fn a_withdrawn_transaction_goes_on() {
    let mut store = prepared();
    let image = store.image.clone();
    assert_eq!(store.withdraw(0), Ok(0));
    assert_eq!((&store.state, &store.image), (&written().state, &image));
    assert_eq!(store.confirm(0), Err(24));
    store.write(0, 2, 0, 9).unwrap();
    assert_eq!(store.commit(0), Ok(13));
    assert_eq!(after_a_cut(&store), (7, 7));
}

/// An empty transaction needs no stores for either.
#[test]
fn an_empty_one_needs_no_stores() {
    let mut store = Store::fresh(1, 1, 1);
    store.begin(2).unwrap();
    assert_eq!(store.prepare(2), Ok(0));
    assert_eq!(store.state.prepared, Some(2));
    assert_eq!(store.confirm(2), Ok(0));
    assert_eq!((store.state.prepared, store.state.is_open(2)), (None, false));
}

/// What may happen while a writer is prepared leaves its records: writes, begin and abort of others, and a checkpoint.
#[test]
fn others_go_on_meanwhile() {
    let mut store = prepared();
    assert_eq!(store.begin(1), Ok(0));
    assert_eq!(store.write(1, 0, 6, 8), Ok(8));
    assert_eq!(store.write(1, 2, 6, 8), Ok(8), "it takes a slot");
    assert_eq!(store.begin(2), Ok(0));
    assert_eq!(store.write(2, 0, 7, 1), Ok(8));
    assert_eq!(store.abort(2), Ok(0));
    assert_eq!(store.checkpoint(), Ok(4));
    assert_eq!(after_a_cut(&store), (3, 0));
    assert_eq!(store.confirm(0), Ok(1));
    assert_eq!(after_a_cut(&store), (7, 7));
    assert_eq!(store.commit(1), Ok(9));
    store.mount().unwrap();
    assert_eq!((store.read(0, 0, 6), store.read(0, 2, 6)), (Ok(8), Ok(8)));
}

/// 23 comes after 13, 11, 20 and 12, and before 14, 15, 17, 18, 22 and 19.
#[test]
fn row_23_has_its_place() {
    let mut store = Store::fresh(4, 2, 2);
    store.begin(0).unwrap();
    store.write(0, 0, 0, 1).unwrap();
    store.begin(2).unwrap();
    store.write(2, 1, 0, 1).unwrap();
    store.commit(2).unwrap();
    store.prepare(0).unwrap();
    store.begin(2).unwrap();
    store.begin(1).unwrap();
    assert_eq!([store.ask_write(0, 4, 0, 1), store.abort(4), store.ask_commit(4)], [Err(11); 3]);
    assert_eq!([store.ask_write(3, 0, 0, 1), store.abort(3), store.ask_commit(3)], [Err(13); 3]);
    assert_eq!(store.ask_prepare(3), Err(13));
    assert_eq!(store.ask_write(0, 0, 0, 1), Err(23), "its own line");
    assert_eq!(store.ask_write(0, 2, 0, 1), Err(23), "before 15");
    assert_eq!(store.ask_write(2, 2, 0, 1), Err(15), "another's write is not 23");
    assert_eq!(store.ask_write(2, 0, 0, 1), Err(14));
    assert_eq!(store.abort(0), Err(23));
    assert_eq!([store.ask_commit(0), store.ask_prepare(0)], [Err(23); 2]);
    assert_eq!([store.ask_commit(2), store.ask_prepare(2)], [Err(23); 2]);
    assert_eq!(store.ask_consolidate(4), Err(11));
    assert_eq!([store.ask_consolidate(0), store.ask_consolidate(1), store.ask_consolidate(2)], [Err(23); 3]);
    assert_eq!(store.ask_free_slot(), Err(23));
    assert_eq!(store.ask_event(6, 0, 1), Err(20));
    assert_eq!(store.ask_event(1, 0, 1), Err(12));
    store.abort(1).unwrap();
    assert_eq!(store.ask_event(1, 0, 1), Err(23), "before 14");
    assert_eq!(store.abort(2), Ok(0), "another's abort is not 23");
    store.withdraw(0).unwrap();
    store.abort(0).unwrap();
    assert_eq!(store.free_slot(), Ok(6));
    assert_eq!(store.ask_free_slot(), Err(19));
}

/// 19 comes after 23; a prepare is 19 where a commit is.
#[test]
fn row_19_turns_a_prepare_back() {
    let mut store = Store::fresh(1, 1, 1);
    store.begin(0).unwrap();
    store.write(0, 0, 0, 1).unwrap();
    store.commit(0).unwrap();
    store.begin(1).unwrap();
    store.prepare(1).unwrap();
    store.begin(0).unwrap();
    store.write(0, 0, 0, 1).unwrap();
    assert_eq!([store.ask_commit(0), store.ask_prepare(0)], [Err(23); 2]);
    store.withdraw(1).unwrap();
    assert_eq!([store.ask_commit(0), store.ask_prepare(0)], [Err(19); 2]);
}

#[test]
fn row_24_comes_right_after_11() {
    let mut store = prepared();
    for writer in [1, 2, 3] {
        assert_eq!([store.ask_confirm(writer), store.withdraw(writer)], [Err(24); 2]);
    }
    assert_eq!([store.ask_confirm(4), store.withdraw(4)], [Err(11); 2]);
    store.ask_checkpoint().unwrap();
    assert_eq!([store.ask_confirm(4), store.withdraw(4)], [Err(9); 2]);
    store.run(9).unwrap();
    let short = &store.image[1..];
    assert_eq!(numbered(model::calls::withdraw(&mut store.state.clone(), short, 4)), Err(4));
}

/// Row 8: a prepared writer who is closed or whose records do not fit, and a pending call that 23 or 24 would turn back.
#[test]
fn row_8_knows_the_prepared_writer() {
    let broken = |change: &dyn Fn(&mut State)| {
        let mut state = prepared().state;
        change(&mut state);
        broken_clauses(&state)
    };
    assert_eq!(broken(&|_| ()), vec![]);
    assert_eq!(broken(&|s| s.prepared = Some(1)), vec![Clause::PreparedClosed]);
    let closed = vec![Clause::HeldByClosed, Clause::PreparedClosed];
    assert_eq!(broken(&|s| s.writers[0].open = false), closed);
    assert_eq!(broken(&|s| (s.tail, s.last) = ((s.head + 6) % 10, [None; 16])), vec![Clause::PreparedNoRoom]);
    let pend = |state: &mut State, operation| state.pending = Some(Pending { operation, made: 0 });
    for operation in [
        Operation::Commit { writer: 0 },
        Operation::Prepare { writer: 0 },
        Operation::Consolidate { page: 2 },
    ] {
        let refused = vec![Clause::PendingRow(operation.kind(), 23)];
        assert_eq!(broken(&|s| pend(s, operation.clone())), refused, "{operation:?}");
    }
    assert_eq!(broken(&|s| pend(s, Operation::Confirm { writer: 0 })), vec![]);
    assert_eq!(broken(&|s| pend(s, Operation::Confirm { writer: 1 })), vec![Clause::PendingRow(7, 24)]);
    let mut store = prepared();
    store.state.prepared = Some(3);
    assert_eq!([store.begin(1), store.ask_confirm(3)], [Err(8); 2]);
}
