//! A format that may lose power at any store (document 02, L6).

mod common;

use common::{numbered, Store};
use model::calls;
use model::compare::rng::Rng;
use model::fresh::{fresh_image, fresh_state, not_fresh, Part};
use model::image::{put_word, word};
use model::layout::{Sizes, COUNT_AT, LAYOUT_AT};
use model::mount::{ask_format, format, mount, recall};
use model::slots::Slot;
use model::state::{Operation, Pending, State};
use model::validity::{broken_clauses, Clause};

/// Document 01's small image, one without padding, one with entries, and one with several slots.
const ALL: [Sizes; 4] = [
    Sizes { p: 2, s: 1, j: 2, l: 0 },
    Sizes { p: 1, s: 1, j: 1, l: 0 },
    Sizes { p: 2, s: 1, j: 2, l: 3 },
    Sizes { p: 3, s: 3, j: 5, l: 0 },
];

/// Bytes past the image, which stay.
const PAST: usize = 24;

fn words(sizes: Sizes) -> u64 {
    sizes.image_length() as u64 / 8
}

/// What a board may hold: zeros, random bytes, a used image of other sizes, and one whose wide round is not yet copied.
fn olds(sizes: Sizes) -> Vec<(&'static str, Vec<u8>)> {
    let length = sizes.image_length() + PAST;
    let mut rng = Rng::new(6, length as u64);
    let random = (0..length).map(|_| rng.below(256) as u8).collect();
    let mut olds = vec![("zeros", vec![0; length]), ("random", random)];
    let held_to = |image: &[u8]| [image, &vec![0x5a; length.saturating_sub(image.len())]].concat();
    let mut used = Store::fresh(sizes.p + 1, sizes.s, sizes.j + 1);
    used.begin(0).unwrap();
    used.write(0, 1, 5, 77).unwrap();
    used.commit(0).unwrap();
    olds.push(("used", held_to(&used.image)));
    let mut wide = Store::of(Sizes { p: 1, s: 1, j: 1, l: 2 });
    wide.begin_wide(3).unwrap();
    wide.write(3, 0, 7, 78).unwrap();
    wide.ask_commit(3).unwrap();
    wide.step().unwrap();
    assert_eq!((wide.word(LAYOUT_AT), wide.word(COUNT_AT)), (2, 1));
    olds.push(("wide", held_to(&wide.image)));
    olds
}

/// The answer of a mount, which every recall gives too, for any arguments.
fn mounts(image: &[u8]) -> Result<State, u8> {
    let mounted = numbered(mount(image));
    for (page, line, length) in [(0, 0, 64), (1, 63, 64), (9_999, 64, 0)] {
        let mut target = vec![9; length];
        let recalled = numbered(recall(page, line, image, &mut target));
        if let Err(number) = &mounted {
            assert_eq!(recalled, Err(*number));
            assert_eq!(target, vec![9; length]);
        }
    }
    mounted
}

#[test]
fn the_small_image_is_made_word_for_word() {
    let fresh = fresh_image(ALL[0]);
    let first = [2, 1, 2, 1, 0, 0, 0, 0, 0, 1, u64::MAX, u32::MAX as u64 + (2 << 32), 0];
    for i in 0..words(ALL[0]) as usize {
        assert_eq!(word(&fresh, 8 * i), *first.get(i).unwrap_or(&0), "word {i}");
    }
    assert_eq!(words(ALL[0]), 1_560);
}

#[test]
fn asking_is_turned_back_and_changes_nothing() {
    let sizes = ALL[0];
    assert_eq!(numbered(ask_format(sizes, &[0; 12_479])).map(|_| ()), Err(4));
    assert_eq!(numbered(ask_format(Sizes { j: 0, ..sizes }, &[])).map(|_| ()), Err(3), "3 before 4");
    assert_eq!(numbered(ask_format(Sizes { l: 65, ..sizes }, &[])).map(|_| ()), Err(3));
    let (state, needed) = ask_format(sizes, &[0; 12_480]).unwrap();
    assert_eq!(needed, 1_561);
    let pending = Some(Pending { operation: Operation::Format, made: 0 });
    assert_eq!(state, State { pending, ..fresh_state(sizes) });
    assert_eq!((not_fresh(&state), broken_clauses(&state)), (vec![], vec![]));
    assert_eq!(ask_format(ALL[2], &vec![0; 20_000]).unwrap().1, 1_560 + 27 + 1, "nine words an entry");
}

/// Layout 0, every other word rising, then the layout. Each store changes its word alone, and to the fresh image's.
#[test]
fn the_stores_in_order() {
    for sizes in ALL {
        let fresh = fresh_image(sizes);
        let mut image = vec![0xa5; sizes.image_length() + PAST];
        let (mut state, needed) = ask_format(sizes, &image).unwrap();
        let (count, others) = (words(sizes), (0..words(sizes)).filter(|&i| i != 3));
        assert_eq!(needed, count + 1);
        let order: Vec<u64> = [3].into_iter().chain(others).chain([3]).collect();
        assert_eq!(order.len() as u64, needed);
        for (i, at) in (0..).zip(order) {
            let decides = i == 0 || i == count;
            assert_eq!(numbered(calls::next_store(&state, &image)), Ok((at, decides)), "store {i}");
            let mut wanted = image.clone();
            let value = if i == 0 { 0 } else { word(&fresh, 8 * at as usize) };
            put_word(&mut wanted, 8 * at as usize, value);
            assert_eq!(numbered(calls::step(&mut state, &mut image)), Ok(1));
            assert!(image == wanted, "store {i} of {sizes:?}");
        }
        assert_eq!(state, fresh_state(sizes));
        assert_eq!(numbered(calls::step(&mut state, &mut image)), Err(10));
        assert_eq!(numbered(calls::next_store(&state, &image)), Err(10));
    }
}

#[test]
fn every_cut_over_every_old_image() {
    for sizes in ALL {
        let fresh = fresh_image(sizes);
        let count = words(sizes);
        for (name, old) in olds(sizes) {
            let before = mounts(&old);
            assert_eq!(before.is_ok(), ["used", "wide"].contains(&name), "{name}");
            let mut image = old.clone();
            let (mut state, needed) = ask_format(sizes, &image).unwrap();
            assert!(image == old && mounts(&image) == before, "{name}: nothing is stored yet");
            for k in 1..=needed {
                assert_eq!(numbered(calls::step(&mut state, &mut image)), Ok(1));
                assert_eq!(image[sizes.image_length()..], old[sizes.image_length()..], "past the image");
                if k <= count {
                    assert_eq!(mounts(&image), Err(2), "{name}, {k} stores");
                    let pending = Some(Pending { operation: Operation::Format, made: k });
                    assert_eq!(state, State { pending, ..fresh_state(sizes) });
                }
                if k % 41 == 0 || k < 12 || k > count - 3 {
                    // the state is lost, and a format asked for on what is left
                    let mut again = image.clone();
                    let (mut other, _) = ask_format(sizes, &again).unwrap();
                    let made = numbered(calls::run(&mut other, &mut again, k));
                    assert_eq!((made, mounts(&again).is_ok()), (Ok(k), k > count));
                    assert_eq!(numbered(format(sizes, &mut again)), Ok(fresh_state(sizes)));
                    assert!(again[..fresh.len()] == fresh, "{name}, {k} stores");
                    // in one run
                    let (mut whole, mut run) = (ask_format(sizes, &old).unwrap().0, old.clone());
                    assert_eq!(numbered(calls::run(&mut whole, &mut run, k)), Ok(k));
                    assert!(whole == state && run == image, "a run of {k}");
                }
            }
            assert!(image[..fresh.len()] == fresh, "{name}");
            assert_eq!((mounts(&image), state), (Ok(fresh_state(sizes)), fresh_state(sizes)));
        }
    }
}

/// With the first store and the last one each by itself, the others may land in any order, down to single bytes.
#[test]
fn the_stores_between_may_land_in_any_order() {
    let mut rng = Rng::new(6, 1);
    for sizes in ALL {
        let fresh = fresh_image(sizes);
        for (name, old) in olds(sizes) {
            for percent in [5, 50, 95, 100] {
                let mut image = old.clone();
                put_word(&mut image, LAYOUT_AT, 0);
                let landing = (0..fresh.len()).filter(|at| !(LAYOUT_AT..LAYOUT_AT + 8).contains(at));
                for at in landing.filter(|_| rng.percent(percent)) {
                    image[at] = fresh[at];
                }
                assert_eq!(mounts(&image), Err(2), "{name}");
                if percent == 100 {
                    put_word(&mut image, LAYOUT_AT, sizes.layout());
                    assert_eq!(mounts(&image), Ok(fresh_state(sizes)), "{name}");
                }
                assert_eq!(numbered(format(sizes, &mut image)), Ok(fresh_state(sizes)));
                assert!(image[..fresh.len()] == fresh, "{name}");
            }
        }
    }
}

/// Until the last store every call with a state but step and run is 9, after rows 8 and 4.
#[test]
fn only_step_and_run_get_past_row_9() {
    for sizes in ALL {
        let image = vec![0xa5; sizes.image_length()];
        let state = ask_format(sizes, &image).unwrap().0;
        let mut store = Store { state, image };
        for k in [0, 1, 2, words(sizes) / 2, words(sizes)] {
            store.state.pending = Some(Pending { operation: Operation::Format, made: k });
            let before = (store.state.clone(), store.image.clone());
            for answer in all_calls(&mut store) {
                assert_eq!(answer, Err(9), "{k} stores");
            }
            let last = store.image.pop().unwrap();
            let short = all_calls(&mut store);
            assert_eq!(short[..3], [Err(9); 3], "begin, a wide one and abort are lent no buffer");
            assert!(short[3..].iter().all(|answer| *answer == Err(4)));
            assert_eq!((store.step(), store.run(9)), (Err(4), Err(4)));
            store.state.next = sizes.s;
            assert!(all_calls(&mut store).iter().all(|answer| *answer == Err(8)));
            assert_eq!((store.step(), store.run(9)), (Err(8), Err(8)));
            store.state.next = 0;
            store.image.push(last);
            assert!((store.state.clone(), store.image.clone()) == before);
            assert_eq!(store.run(0), Ok(0));
        }
        store.state.pending = None;
        assert_eq!(store.begin(0), Ok(0));
    }
}

/// Every call with a state but step and run; the first three are lent no buffer.
fn all_calls(store: &mut Store) -> Vec<Result<u64, u8>> {
    vec![
        store.begin(9),
        store.begin_wide(9),
        store.abort(0),
        store.ask_write(0, 0, 0, 1),
        store.ask_commit(0),
        store.ask_prepare(0),
        store.ask_confirm(0),
        store.withdraw(0),
        store.ask_consolidate(0),
        store.ask_free_slot(),
        store.ask_checkpoint(),
        store.ask_event(9, 9, 9),
        store.load(b"").map(|_| 0),
        store.read(0, 0, 0).map(u64::from),
    ]
}

/// What breaks a state with a format pending.
fn broken(sizes: Sizes, change: impl Fn(&mut State)) -> Vec<Clause> {
    let mut state = fresh_state(sizes);
    state.pending = Some(Pending { operation: Operation::Format, made: 1 });
    change(&mut state);
    broken_clauses(&state)
}

#[test]
fn row_8_wants_the_fresh_state() {
    let sizes = ALL[3];
    assert_eq!(broken(sizes, |_| ()), vec![]);
    let made = |made| broken(sizes, |s| s.pending = Some(Pending { operation: Operation::Format, made }));
    let count = words(sizes);
    assert_eq!((made(0), made(count)), (vec![], vec![]));
    assert_eq!(
        (made(count + 1), made(u64::MAX)),
        (vec![Clause::PendingMade(10)], vec![Clause::PendingMade(10)])
    );
    let changes: [(Part, fn(&mut State)); 10] = [
        (Part::HeadAndTail, |s| (s.head, s.tail) = (1, 1)),
        (Part::HeadAndTail, |s| s.head = 1),
        (Part::HeadAndTail, |s| (s.head, s.last[1]) = (1, Some(0))),
        (Part::NextSlot, |s| s.next = 1),
        (Part::Slots, |s| s.slots.swap(0, 1)),
        (Part::Slots, |s| s.slots[0] = Slot { page: 0, original: 0, spare: 3, bitmap: 0 }),
        (Part::Slots, |s| (s.slots[2], s.map[2]) = (Slot::free(2), 5)),
        (Part::Map, |s| s.map.swap(0, 2)),
        (Part::OpenWriters, |s| s.writers[3].open = true),
        (Part::OpenWriters, |s| (s.writers[0].open, s.prepared) = (true, Some(0))),
    ];
    for (i, (part, change)) in changes.into_iter().enumerate() {
        assert_eq!(broken(sizes, change), vec![Clause::NotFresh(part)], "change {i}");
        let mut state = fresh_state(sizes);
        change(&mut state);
        assert_eq!(broken_clauses(&state), vec![], "only the format is in the way: change {i}");
    }
    assert_eq!(broken(sizes, |s| s.sizes.s = 2), vec![], "a fresh state, of these sizes");
    let wide = |change: fn(&mut State)| broken(ALL[2], change);
    assert_eq!(wide(|_| ()), vec![]);
    assert_eq!(wide(|s| s.wide.used = 1), vec![Clause::NotFresh(Part::EntriesUsed)], "an entry used");
    assert_eq!(
        wide(|s| (s.writers[1].open, s.wide.writer) = (true, Some(1))),
        vec![Clause::NotFresh(Part::OpenWriters)],
        "a wide round"
    );
    // earlier rules of row 8 hold beside a format as beside any other operation
    assert_eq!(broken(sizes, |s| s.writers[0].held[1] = 1)[0], Clause::HeldByClosed);
    assert_eq!(broken(sizes, |s| s.next = 3)[0], Clause::NextSlot);
    assert_eq!(broken(sizes, |s| s.sizes.l = 65), vec![Clause::LAbove]);
}

#[test]
fn row_8_compares_no_place_past_s() {
    let past: [fn(&mut State); 3] =
        [|s| s.slots[3].page = 77, |s| s.last[3] = Some(7), |s| s.writers[2].held[15] = u64::MAX];
    for change in past {
        assert_eq!(broken(ALL[3], change), vec![]);
    }
}
