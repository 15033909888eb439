//! Rounds wider than the slots (document 02, L14): entries, every cut of a wide commit, and when each call is turned back.

mod common;

use common::{numbered, Store};
use model::layout::{Sizes, COUNT_AT, ENTRIES_AT, LAYOUT_AT};
use model::mount::{format, mount, recall};
use model::state::{Operation, Pending, State, WideWrite, Write};
use model::validity::{broken_clauses, Clause};

const SIZES: Sizes = Sizes { p: 3, s: 1, j: 2, l: 3 };

fn copy(store: &Store) -> Store {
    Store { state: store.state.clone(), image: store.image.clone() }
}

fn recalled(store: &Store, page: u64, line: u64) -> u8 {
    let mut target = [0; 64];
    numbered(recall(page, line, &store.image, &mut target)).expect("a recall is taken");
    target[0]
}

/// Page 1 is slotted and its line 4 committed as 9 in the spare.
fn slotted() -> Store {
    let mut store = Store::of(SIZES);
    store.begin(0).unwrap();
    store.write(0, 1, 4, 9).unwrap();
    store.commit(0).unwrap();
    store
}

/// Writer 2's wide round: 7 on three pages, of which one is slotted; the slot is not needed.
const ROUND: [(u64, u64); 3] = [(2, 63), (1, 4), (0, 0)];

fn wide() -> Store {
    let mut store = slotted();
    store.begin_wide(2).unwrap();
    for (page, line) in ROUND {
        assert_eq!(store.write(2, page, line, 7), Ok(9));
    }
    store
}

#[test]
fn format_writes_the_entries_size() {
    let store = Store::of(SIZES);
    assert_eq!([LAYOUT_AT, COUNT_AT, ENTRIES_AT].map(|at| store.word(at)), [2, 0, 3]);
    let without = Store::of(Sizes { l: 0, ..SIZES });
    assert_eq!([LAYOUT_AT, COUNT_AT, ENTRIES_AT].map(|at| without.word(at)), [1, 0, 0]);
    assert_eq!(store.image.len(), without.image.len() + 3 * 72);
    let mut short = vec![0; store.image.len() - 1];
    assert_eq!(numbered(format(SIZES, &mut short)), Err(4));
    assert_eq!(numbered(format(Sizes { l: 65, ..SIZES }, &mut short)), Err(3));
}

#[test]
fn a_line_is_stored_as_an_entry_and_read_from_it() {
    let mut store = slotted();
    let committed = store.image.clone();
    store.begin_wide(2).unwrap();
    assert_eq!(store.write(2, 2, 63, 7), Ok(9));
    let at = SIZES.entry_word(0, 0);
    assert_eq!((store.word(at), store.word(at + 8), store.word(at + 16)), (2 * 64 + 63, 7, 0));
    assert_eq!(store.image[..at], committed[..at], "no other word");
    assert_eq!((store.read(2, 2, 63), store.read(3, 2, 63)), (Ok(7), Ok(0)));
    assert_eq!(recalled(&store, 2, 63), 0);
    // a rewrite uses the entry again; one that changes nothing needs no stores
    assert_eq!((store.write(2, 2, 63, 7), store.write(2, 2, 63, 8)), (Ok(0), Ok(9)));
    assert_eq!((store.word(at + 8), store.word(at + 72)), (8, 0));
    // a new line that is as it was committed is stored
    assert_eq!(store.write(2, 1, 4, 9), Ok(9));
    assert_eq!(store.word(at + 72), 64 + 4);
}

/// A cut before the first store leaves the old bytes everywhere, a later one the new ones; the mount then copies the rest.
#[test]
fn a_wide_commit_is_whole_at_every_cut() {
    for cut in 0..=26 {
        let mut store = wide();
        assert_eq!(store.ask_commit(2), Ok(26));
        assert_eq!(store.run(cut), Ok(cut));
        let old = [0, 9, 0];
        let expected = if cut == 0 { old } else { [7; 3] };
        assert_eq!(ROUND.map(|(page, line)| recalled(&store, page, line)), expected, "cut {cut}");
        let mut found = copy(&store);
        found.mount().unwrap();
        assert_eq!(found.state.wide.writer, None);
        if (1..26).contains(&cut) {
            assert_eq!(
                (found.begin(0), found.read(0, 0, 0), found.ask_checkpoint()),
                (Err(9), Err(9), Err(9))
            );
            assert_eq!(found.run(u64::MAX), Ok(25), "8n + 1 stores left");
        }
        assert_eq!(found.step(), Err(10));
        assert_eq!(ROUND.map(|(page, line)| found.read(3, page, line).unwrap()), expected, "cut {cut}");
        let kept = numbered(mount(&found.image)).unwrap();
        assert_eq!(kept, found.state, "nothing is left to copy");
    }
}

/// The copying that a mount left is itself cut anywhere, and begins anew.
#[test]
fn a_copying_is_cut_again() {
    let mut store = wide();
    store.ask_commit(2).unwrap();
    store.run(9).unwrap();
    for cut in [0, 1, 13, 24] {
        store.mount().unwrap();
        assert_eq!(store.run(cut), Ok(cut));
        assert_eq!(ROUND.map(|(page, line)| recalled(&store, page, line)), [7; 3]);
    }
    store.mount().unwrap();
    assert_eq!((store.run(25), store.word(COUNT_AT)), (Ok(25), 0));
    assert_eq!(ROUND.map(|(page, line)| recalled(&store, page, line)), [7; 3]);
}

#[test]
fn a_wide_transaction_of_no_lines_needs_no_stores() {
    let mut store = slotted();
    store.begin_wide(1).unwrap();
    assert_eq!((store.ask_commit(1), store.begin(0)), (Ok(0), Ok(0)));
}

#[test]
fn an_abort_leaves_nothing() {
    let mut store = wide();
    store.abort(2).unwrap();
    assert_eq!(ROUND.map(|(page, line)| store.read(2, page, line).unwrap()), [0, 9, 0]);
    store.begin_wide(0).unwrap();
    assert_eq!(store.ask_commit(0), Ok(0));
}

/// 28, then 29, right after 11; 30 after 13.
#[test]
fn when_each_call_is_turned_back() {
    let mut narrow = Store::of(Sizes { l: 0, ..SIZES });
    assert_eq!((narrow.begin_wide(4), narrow.begin_wide(0)), (Err(11), Err(28)));
    narrow.begin(1).unwrap();
    assert_eq!(narrow.begin_wide(1), Err(28));

    let mut store = slotted();
    store.begin(1).unwrap();
    assert_eq!((store.begin_wide(4), store.begin_wide(1), store.begin_wide(0)), (Err(11), Err(29), Err(29)));
    store.abort(1).unwrap();

    let mut store = wide();
    assert_eq!(
        [store.begin(4), store.begin(2), store.begin(0), store.begin_wide(2)],
        [11, 29, 29, 29].map(Err)
    );
    assert_eq!([store.ask_prepare(4), store.ask_prepare(2), store.ask_prepare(1)], [11, 29, 29].map(Err));
    assert_eq!([store.ask_event(0, 0, 0), store.ask_event(1, 0, 5)], [29, 29].map(Err));
    assert_eq!([store.ask_confirm(2), store.withdraw(2), store.withdraw(4)], [24, 24, 11].map(Err));
    assert_eq!([store.ask_commit(1), store.abort(1), store.ask_write(1, 0, 9, 1)], [13, 13, 13].map(Err));
    // all three entries are used: a fourth line is 30
    assert_eq!([store.ask_write(2, 3, 1, 1), store.ask_write(2, 0, 1, 1)], [11, 30].map(Err));
    assert_eq!(store.write(2, 0, 0, 1), Ok(9), "a rewrite");
    // the slot's page can leave it, and the journal be emptied
    assert_eq!((store.consolidate(1), store.checkpoint()), (Ok(14), Ok(4)));
    assert_eq!(store.commit(2), Ok(26));
    assert_eq!(ROUND.map(|(page, line)| recalled(&store, page, line)), [7, 7, 1]);
}

#[test]
fn row_8_knows_a_wide_transaction() {
    let broken = |change: &dyn Fn(&mut State)| {
        let mut state = wide().state;
        change(&mut state);
        broken_clauses(&state)
    };
    assert_eq!(broken(&|_| ()), vec![]);
    assert_eq!(broken(&|s| s.sizes.l = 65), vec![Clause::LAbove]);
    assert_eq!(broken(&|s| s.sizes.l = 2), vec![Clause::EntriesAbove]);
    assert_eq!(broken(&|s| s.wide.keys[0] = 3 * 64), vec![Clause::EntryOutside]);
    assert_eq!(broken(&|s| s.wide.keys[2] = s.wide.keys[0]), vec![Clause::EntryTwice]);
    let another = vec![Clause::WideClosed, Clause::WideBesideOpen];
    assert_eq!(broken(&|s| s.wide.writer = Some(1)), another);
    assert_eq!(broken(&|s| s.writers[2].open = false), vec![Clause::WideClosed]);
    assert_eq!(broken(&|s| s.prepared = Some(2)), vec![Clause::WidePrepared]);
    assert_eq!(broken(&|s| s.writers[2].held[0] = 1), vec![Clause::WideBesideHeld]);
    assert_eq!(broken(&|s| s.writers[3].open = true), vec![Clause::WideBesideOpen]);
    let pend = |operation: Operation, made| {
        broken(&move |s: &mut State| s.pending = Some(Pending { operation: operation.clone(), made }))
    };
    assert_eq!(
        (pend(Operation::Copying, 25), pend(Operation::Copying, 26)),
        (vec![], vec![Clause::PendingMade(9)])
    );
    let written =
        |page, line| Operation::WideWrite(WideWrite { page, line, offset: 0, length: 1, finished: [0; 64] });
    assert_eq!((pend(written(0, 0), 8), pend(written(0, 0), 9)), (vec![], vec![Clause::PendingMade(8)]));
    assert_eq!(pend(written(3, 0), 0), vec![Clause::PendingRow(8, 11)]);
    assert_eq!(pend(written(0, 1), 0), vec![Clause::PendingRow(8, 30)]);
    let write = Write { writer: 2, page: 0, line: 0, offset: 0, length: 1, finished: [0; 64] };
    assert_eq!(pend(Operation::Write(write), 0), vec![Clause::PendingNarrow]);
    assert_eq!(pend(Operation::Commit { writer: 2 }, 0), vec![Clause::PendingNarrow]);
    assert_eq!(pend(Operation::Prepare { writer: 2 }, 0), vec![Clause::PendingRow(6, 29)]);
    // without a writer a copying is what a mount returns; a copying of nothing is none, nor is a wide write
    let without = |s: &mut State| (s.wide.writer, s.writers[2].open) = (None, false);
    let pend = |operation: Operation, made| {
        broken(&move |s: &mut State| {
            without(s);
            s.pending = Some(Pending { operation: operation.clone(), made });
        })
    };
    assert_eq!(
        (pend(Operation::Copying, 1), pend(Operation::Copying, 26)),
        (vec![], vec![Clause::PendingMade(9)])
    );
    assert_eq!(pend(written(0, 0), 0), vec![Clause::PendingRow(8, 13)]);
}
