//! Leftovers never show (request L13): right after a mount the words of document 02's list are replaced at random. Mount gives an equal
//! state, and the same later calls, cuts among them, give equal answers, stores, reads, recalls and states.

mod common;

use common::{numbered, Store};
use model::calls::{self, Patch};
use model::compare::rng::Rng;
use model::image::{put_word, word};
use model::journal::live_positions;
use model::layout::Sizes;
use model::mount::{mount, recall};

/// The items of the list, in its order.
const ITEMS: [&str; 7] = [
    "dead places",
    "slots under a record",
    "slotted pages",
    "padding",
    "other copies",
    "entries past word 6",
    "lines under live entries",
];

/// Byte addresses of the words that are left over right after a mount, with the number of their item.
fn leftovers(store: &Store) -> Vec<(usize, usize)> {
    let (state, sizes) = (&store.state, store.state.sizes);
    let live = live_positions(sizes, state.head, state.tail);
    let dead = (0..sizes.j).filter(|place| !live.iter().any(|position| position % sizes.j == *place));
    let dead = dead.flat_map(|place| (0..4).map(move |i| (0, sizes.record_word(place, i))));
    let recorded = (0..sizes.s).filter(|&slot| state.last[slot as usize].is_some());
    let recorded = recorded.flat_map(|slot| (0..3).map(move |i| (1, sizes.slot_word(slot, i))));
    let slotted = (0..sizes.p).filter(|&page| state.slot_of(page).is_some());
    let slotted = slotted.map(|page| (2, sizes.page_word(page)));
    let padding = (sizes.record_word(sizes.j - 1, 3) + 8..sizes.frames_start() as usize).step_by(8);
    let committed = |page, line| match state.slot_of(page) {
        Some(slot) => state.slots[slot].committed_frame(line),
        None => store.word(sizes.page_word(page)),
    };
    let lines = (0..sizes.frames()).flat_map(|frame| (0..64).map(move |line| (frame, line)));
    let other = lines.filter(|&(frame, line)| (0..sizes.p).all(|page| committed(page, line) != frame));
    let other =
        other.flat_map(|(frame, line)| (0..8).map(move |i| (4, sizes.line_start(frame, line) + 8 * i)));
    let narrow = dead.chain(recorded).chain(slotted).chain(padding.map(|at| (3, at))).chain(other);
    let live = state.wide.keys_used();
    let past =
        (live.len() as u64..sizes.l).flat_map(|entry| (0..9).map(move |i| (5, sizes.entry_word(entry, i))));
    let under = live.iter().map(|key| (committed(key / 64, key % 64), key % 64));
    let under =
        under.flat_map(|(frame, line)| (0..8).map(move |i| (6, sizes.line_start(frame, line) + 8 * i)));
    narrow.chain(past).chain(under).collect()
}

/// Any word, or one that could stand in an image: a small number, a free slot's page, a word from elsewhere.
fn scribbled_word(rng: &mut Rng, image: &[u8]) -> u64 {
    let elsewhere = rng.below(image.len() as u64 / 8) as usize * 8;
    match rng.below(5) {
        0 | 1 => rng.number(),
        2 => rng.below(6),
        3 => u64::MAX,
        _ => word(image, elsewhere),
    }
}

/// How many words of each item were replaced by another.
fn scribble(store: &mut Store, rng: &mut Rng) -> [u64; 7] {
    let mut replaced = [0; 7];
    for (item, at) in leftovers(store) {
        let value = scribbled_word(rng, &store.image);
        replaced[item] += u64::from(value != store.word(at));
        put_word(&mut store.image, at, value);
    }
    replaced
}

enum Call {
    Begin(u64),
    BeginWide(u64),
    Abort(u64),
    Write((u64, u64, u64), u64, Vec<u8>),
    Commit(u64),
    Prepare(u64),
    Confirm(u64),
    Withdraw(u64),
    Consolidate(u64),
    Checkpoint,
    FreeSlot,
    Event(u64, u64, u64),
    Load(u64),
    Run(u64),
    Mount,
    Read((u64, u64, u64)),
    Recall(u64, u64),
}

fn any_call(rng: &mut Rng, pages: u64, wide: bool) -> Call {
    let pages = pages + rng.pick(&[0, 0, 0, 1]);
    let (writer, page) = (rng.pick(&[0, 0, 0, 1, 1, 2, 4]), rng.below(pages));
    let line = rng.pick(&[0, 1, 31, 63, 63, 64]);
    match rng.below(27) {
        0..=3 if wide && rng.percent(60) => Call::BeginWide(writer),
        0..=3 => Call::Begin(writer),
        4 if rng.percent(50) => Call::Abort(writer),
        5..=9 => {
            let offset = rng.pick(&[0, 3, 63]);
            let data = (0..rng.between(0, 64 - offset)).map(|_| rng.below(256) as u8).collect();
            Call::Write((writer, page, line), offset, data)
        }
        10..=12 => Call::Commit(writer),
        24 => Call::Prepare(writer),
        25 => Call::Confirm(writer),
        26 if rng.percent(50) => Call::Withdraw(writer),
        13 => Call::Consolidate(page),
        14 => Call::Checkpoint,
        15 => Call::Read((writer, page, line)),
        16 => Call::Recall(page, line),
        17 if rng.percent(25) => Call::Mount,
        18 if rng.percent(50) => {
            Call::Event(rng.pick(&[1, 3, 5]), rng.pick(&[23, 24]), rng.pick(&[7, 300, 9_999]))
        }
        18 if rng.percent(20) => Call::FreeSlot,
        19 if rng.percent(20) => Call::Load(rng.pick(&[100, 301, 10_000, 100_000_000])),
        _ => Call::Run(rng.pick(&[0, 1, 3, 9, 600, 600, 600])),
    }
}

/// The answer of a call, and the target after it.
fn perform(store: &mut Store, call: &Call) -> (Result<u64, u8>, [u8; 64]) {
    let mut target = [7; 64];
    let answer = match call {
        Call::Begin(writer) => store.begin(*writer),
        Call::BeginWide(writer) => store.begin_wide(*writer),
        Call::Abort(writer) => store.abort(*writer),
        Call::Write(place, offset, data) => {
            let patch = Patch { offset: *offset, length: data.len() as u64, data };
            numbered(calls::write(&mut store.state, &store.image, *place, patch))
        }
        Call::Commit(writer) => store.ask_commit(*writer),
        Call::Prepare(writer) => store.ask_prepare(*writer),
        Call::Confirm(writer) => store.ask_confirm(*writer),
        Call::Withdraw(writer) => store.withdraw(*writer),
        Call::Consolidate(page) => store.ask_consolidate(*page),
        Call::Checkpoint => store.ask_checkpoint(),
        Call::FreeSlot => store.ask_free_slot(),
        Call::Event(kind, meter, amount) => store.ask_event(*kind, *meter, *amount),
        Call::Load(modulus) => {
            let text: String = (0..24).map(|meter| format!("{meter},{modulus}\n")).collect();
            store.load(text.as_bytes()).map(|moduli| moduli[23])
        }
        Call::Run(k) => store.run(*k),
        Call::Mount => store.mount().map(|()| 0),
        Call::Read(place) => {
            numbered(calls::read(&store.state, &store.image, *place, &mut target)).map(|()| 0)
        }
        Call::Recall(page, line) => numbered(recall(*page, *line, &store.image, &mut target)).map(|()| 0),
    };
    (answer, target)
}

/// Every line of every page as a recall shows it.
fn screen(store: &Store) -> Vec<[u8; 64]> {
    let places = (0..store.state.sizes.p).flat_map(|page| [0, 1, 31, 63].map(|line| (page, line)));
    let shown = |(page, line)| {
        let mut target = [0; 64];
        numbered(recall(page, line, &store.image, &mut target)).expect("a recall is taken");
        target
    };
    places.map(shown).collect()
}

fn one_list(seed: u64, l: u64) -> [u64; 7] {
    let mut rng = Rng::new(seed, 13);
    let (p, s) = (rng.between(1, 3), rng.between(1, 3));
    let mut store = Store::of(Sizes { p, s, j: rng.between(s, 4), l });
    for _ in 0..rng.between(0, 250) {
        let call = any_call(&mut rng, p, l > 0);
        perform(&mut store, &call).0.ok();
    }
    if l > 0 && rng.percent(50) {
        cut_in_a_copying(&mut store, &mut rng);
    }
    store.mount().expect("a mount is taken");
    let mut other = Store { state: store.state.clone(), image: store.image.clone() };
    let replaced = scribble(&mut other, &mut rng);
    assert_eq!(numbered(mount(&other.image)), Ok(store.state.clone()), "seed {seed}: another state");
    for number in 0..60 {
        assert_eq!(screen(&store), screen(&other), "seed {seed}, before call {number}: another screen");
        let call = any_call(&mut rng, p, l > 0);
        assert_eq!(perform(&mut store, &call), perform(&mut other, &call), "seed {seed}, call {number}");
        assert_eq!(store.state, other.state, "seed {seed}, after call {number}: another state");
    }
    replaced
}

/// A wide round of some lines, its commit cut after its first store.
fn cut_in_a_copying(store: &mut Store, rng: &mut Rng) {
    store.run(u64::MAX).ok();
    store.mount().expect("a mount is taken");
    store.run(u64::MAX).ok();
    store.begin_wide(1).expect("all are closed");
    for line in [0, 1, 31, 63] {
        store.write(1, rng.below(store.state.sizes.p), line, 1 + rng.below(255) as u8).ok();
    }
    let needed = store.ask_commit(1).expect("a commit is taken");
    store.run(rng.between(1, needed - 1)).expect("stores are left");
}

#[test]
fn leftovers_never_show() {
    let mut replaced = [0; 7];
    for seed in 0..600 {
        let entries = [0, 0, 0, 2, 3, 64][seed as usize % 6];
        for (sum, count) in replaced.iter_mut().zip(one_list(seed, entries)) {
            *sum += count;
        }
    }
    for (item, count) in ITEMS.iter().zip(replaced) {
        assert!(count > 100, "only {count} words of {item} were replaced");
    }
}

/// The list is as long as it can be: a word that is not on it, the header's two unread ones under layout 1 aside, matters to a mount or to a recall.
#[test]
fn no_other_word_is_left_over() {
    let mut store = Store::fresh(3, 2, 3);
    store.begin(0).unwrap();
    store.write(0, 1, 5, 9).unwrap();
    store.commit(0).unwrap();
    others_matter(store, &[48, 56]);
}

#[test]
fn no_other_word_is_left_over_by_a_wide_round() {
    let mut store = Store::of(Sizes { p: 3, s: 2, j: 3, l: 4 });
    store.begin(0).unwrap();
    store.write(0, 1, 5, 9).unwrap();
    store.commit(0).unwrap();
    store.begin_wide(3).unwrap();
    store.write(3, 1, 5, 8).unwrap();
    store.write(3, 2, 6, 8).unwrap();
    store.ask_commit(3).unwrap();
    store.run(12).unwrap();
    others_matter(store, &[]);
}

fn others_matter(mut store: Store, unread: &[usize]) {
    store.mount().unwrap();
    let left: Vec<usize> = leftovers(&store).iter().map(|&(_, at)| at).collect();
    let all = |image: &[u8]| {
        let state = numbered(mount(image));
        let shown = |page, line| {
            let mut target = [0; 64];
            numbered(recall(page, line, image, &mut target)).map(|()| target)
        };
        (state, (0..3).flat_map(|page| (0..64).map(move |line| shown(page, line))).collect::<Vec<_>>())
    };
    let before = all(&store.image);
    let mut changed = store.image.clone();
    for at in (0..changed.len()).step_by(8).filter(|at| !left.contains(at) && !unread.contains(at)) {
        let old = word(&changed, at);
        put_word(&mut changed, at, !old);
        assert!(all(&changed) != before, "the word at {at} does not matter");
        put_word(&mut changed, at, old);
    }
}
