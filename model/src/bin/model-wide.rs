//! The store's program `wide_rounds`, by the model: a wide round cut at every store, calls of a table, then calls that a generator picks.

use model::calls::{
    abort, begin, begin_wide, checkpoint, commit, confirm, consolidate, event, free_slot, prepare, read, run,
    withdraw, write, Patch,
};
use model::image::word;
use model::layout::Sizes;
use model::meters::{fixed_moduli, Asked};
use model::mount::{format, mount, recall};
use model::refusal::Answer;
use model::state::State;

const SIZES: Sizes = Sizes { p: 4, s: 2, j: 3, l: 5 };

/// The largest prime below 2^32.
const PRIME: u64 = 4_294_967_291;

/// A call with its writer, page and line, and the stores of the run after it.
type Row = [u64; 5];

const BEGIN: u64 = 1;
const ABORT: u64 = 2;
const WRITE: u64 = 3;
const COMMIT: u64 = 4;
const CONSOLIDATE: u64 = 5;
const CHECKPOINT: u64 = 6;
const MOUNT: u64 = 7;
const FREE_SLOT: u64 = 8;
const PREPARE: u64 = 9;
const CONFIRM: u64 = 10;
const WITHDRAW: u64 = 11;
/// Its page is the event's kind.
const EVENT: u64 = 12;
const BEGIN_WIDE: u64 = 13;
/// Makes its writer the wide one, its page the number of entries in use and its line the first one's key.
const EDIT: u64 = 14;

/// Pages 0 and 1 are slotted; then writer 2's wide round writes five lines on four pages.
const ROUND: [Row; 10] = [
    [BEGIN, 0, 0, 0, 0],
    [WRITE, 0, 0, 0, 1000],
    [WRITE, 0, 1, 63, 1000],
    [COMMIT, 0, 0, 0, 1000],
    [BEGIN_WIDE, 2, 0, 0, 0],
    [WRITE, 2, 0, 0, 1000],
    [WRITE, 2, 1, 63, 1000],
    [WRITE, 2, 2, 3, 1000],
    [WRITE, 2, 3, 63, 1000],
    [WRITE, 2, 0, 1, 1000],
];
/// Its lines.
const LINES: [(u64, u64); 5] = [(0, 0), (1, 63), (2, 3), (3, 63), (0, 1)];

const TABLE: [Row; 80] = [
    // No such writer; beside an open one.
    [BEGIN_WIDE, 4, 0, 0, 0],
    [BEGIN, 0, 0, 0, 0],
    [BEGIN_WIDE, 1, 0, 0, 0],
    [BEGIN_WIDE, 0, 0, 0, 0],
    // Pages 0 and 1 are slotted, the journal has one place left.
    [WRITE, 0, 0, 0, 1000],
    [WRITE, 0, 1, 63, 1000],
    [COMMIT, 0, 0, 0, 1000],
    // What is turned back beside a wide transaction.
    [BEGIN_WIDE, 1, 0, 0, 0],
    [BEGIN, 0, 0, 0, 0],
    [BEGIN, 1, 0, 0, 0],
    [BEGIN, 4, 0, 0, 0],
    [BEGIN_WIDE, 1, 0, 0, 0],
    [PREPARE, 1, 0, 0, 0],
    [PREPARE, 0, 0, 0, 0],
    [PREPARE, 4, 0, 0, 0],
    [EVENT, 0, 1, 0, 0],
    [EVENT, 0, 9, 0, 0],
    [CONFIRM, 1, 0, 0, 0],
    [WITHDRAW, 1, 0, 0, 0],
    [COMMIT, 0, 0, 0, 0],
    [ABORT, 0, 0, 0, 0],
    [WRITE, 0, 0, 0, 0],
    // A page without a slot, a slotted one; a rewrite with another byte, one with the same, one that waits in the middle.
    [WRITE, 1, 2, 3, 1000],
    [WRITE, 1, 0, 0, 1000],
    [WRITE, 1, 2, 3, 1000],
    [WRITE, 1, 2, 3, 1000],
    [WRITE, 1, 2, 3, 3],
    [WRITE, 1, 2, 3, 1000],
    // All five entries are used: a new line is turned back, an old one is not; no such page, no such line.
    [WRITE, 1, 3, 0, 1000],
    [WRITE, 1, 3, 1, 1000],
    [WRITE, 1, 3, 3, 1000],
    [WRITE, 1, 3, 63, 1000],
    [WRITE, 1, 3, 3, 1000],
    [WRITE, 1, 4, 0, 0],
    [WRITE, 1, 0, 64, 0],
    // A consolidation, a slot to free and a checkpoint go on beside it.
    [CONSOLIDATE, 0, 0, 0, 1000],
    [FREE_SLOT, 0, 0, 0, 1000],
    [CHECKPOINT, 0, 0, 0, 1000],
    [FREE_SLOT, 0, 1, 63, 1000],
    // The commit, made in three parts.
    [COMMIT, 1, 0, 0, 1],
    [BEGIN, 0, 2, 3, 20],
    [BEGIN_WIDE, 0, 3, 0, 1000],
    // An abort; a commit of no lines; a mount in a transaction.
    [BEGIN_WIDE, 3, 0, 0, 0],
    [WRITE, 3, 1, 1, 1000],
    [ABORT, 3, 1, 1, 0],
    [BEGIN_WIDE, 3, 1, 1, 0],
    [COMMIT, 3, 0, 0, 0],
    [BEGIN_WIDE, 2, 0, 0, 0],
    [WRITE, 2, 1, 1, 1000],
    [MOUNT, 2, 1, 1, 0],
    // A cut before the first store of a commit; one after it; a cut in what the mount left.
    [BEGIN_WIDE, 2, 0, 0, 0],
    [WRITE, 2, 1, 1, 1000],
    [COMMIT, 2, 1, 1, 0],
    [MOUNT, 2, 1, 1, 0],
    [BEGIN_WIDE, 2, 0, 0, 0],
    [WRITE, 2, 1, 1, 1000],
    [COMMIT, 2, 1, 1, 1],
    [MOUNT, 2, 1, 1, 0],
    [CHECKPOINT, 2, 1, 1, 3],
    [MOUNT, 2, 1, 1, 8],
    [MOUNT, 2, 1, 1, 1000],
    // Row 8: a wide writer who is closed, with six entries, with an entry outside the pages, with a line twice.
    [EDIT, 1, 0, 0, 0],
    [BEGIN, 0, 0, 0, 0],
    [MOUNT, 0, 0, 0, 0],
    [BEGIN_WIDE, 1, 0, 0, 0],
    [EDIT, 1, 6, 0, 0],
    [ABORT, 1, 0, 0, 0],
    [EDIT, 1, 1, 256, 0],
    [ABORT, 1, 0, 0, 0],
    [EDIT, 1, 2, 0, 0],
    [ABORT, 1, 0, 0, 0],
    [EDIT, 1, 1, 255, 0],
    [WRITE, 1, 3, 63, 0],
    [MOUNT, 0, 0, 0, 0],
    // An event and a prepare as before, and no wide begin beside it.
    [EVENT, 0, 1, 0, 1000],
    [BEGIN, 3, 0, 0, 0],
    [WRITE, 3, 0, 9, 1000],
    [PREPARE, 3, 0, 9, 1000],
    [BEGIN_WIDE, 1, 0, 0, 0],
    [CONFIRM, 3, 0, 9, 1000],
];

/// The walk's calls with their stores; writer, page and line are picked.
const WALK: [(u64, u64); 32] = [
    (BEGIN_WIDE, 0),
    (BEGIN_WIDE, 0),
    (BEGIN_WIDE, 0),
    (BEGIN_WIDE, 0),
    (BEGIN_WIDE, 0),
    (BEGIN, 0),
    (BEGIN, 0),
    (ABORT, 0),
    (WRITE, 1000),
    (WRITE, 1000),
    (WRITE, 1000),
    (WRITE, 1000),
    (WRITE, 1000),
    (WRITE, 1000),
    (WRITE, 1000),
    (WRITE, 1000),
    (WRITE, 0),
    (WRITE, 7),
    (COMMIT, 1000),
    (COMMIT, 1000),
    (COMMIT, 1000),
    (COMMIT, 1),
    (COMMIT, 9),
    (CONSOLIDATE, 1000),
    (CHECKPOINT, 1000),
    (MOUNT, 0),
    (MOUNT, 5),
    (FREE_SLOT, 1000),
    (EVENT, 1000),
    (PREPARE, 1000),
    (CONFIRM, 1000),
    (WITHDRAW, 0),
];

/// The walk's call at a place.
fn picked(place: u64) -> Row {
    let x = place * 1_103_515_245 % 2_147_483_647;
    let x = (x ^ (x / 65_536)) % 4_294_967_296 * 48_271 % 2_147_483_647;
    let (kind, stores) = WALK[(x % 32) as usize];
    [kind, x / 32 % 2, x / 64 % 4, [0, 1, 3, 63][(x / 256 % 4) as usize], stores]
}

/// One number more in a checksum.
fn with(sum: u64, number: u64) -> u64 {
    (31 * sum + number) % PRIME
}

fn hash(bytes: &[u8]) -> u64 {
    bytes.iter().fold(0, |sum, &byte| with(sum, u64::from(byte)))
}

/// The stores of a taken call, or 1,000 times a refused one's number.
fn code(answer: Answer<u64>) -> u64 {
    answer.unwrap_or_else(|refusal| 1000 * u64::from(refusal.number()))
}

struct Store {
    state: State,
    image: Vec<u8>,
}

impl Store {
    fn fresh() -> Store {
        let mut image = vec![0; SIZES.image_length()];
        let state = format(SIZES, &mut image).expect("sizes in range");
        Store { state, image }
    }

    /// A call; `byte` is what a write writes.
    fn make(&mut self, [kind, writer, page, line, _]: Row, byte: u8) -> Answer<u64> {
        let Store { state, image } = self;
        match kind {
            BEGIN => begin(state, writer),
            ABORT => abort(state, writer),
            WRITE => write(state, image, (writer, page, line), Patch { offset: 0, length: 1, data: &[byte] }),
            COMMIT => commit(state, image, writer),
            CONSOLIDATE => consolidate(state, image, page),
            CHECKPOINT => checkpoint(state, image),
            MOUNT => mount(image).map(|mounted| *state = mounted).map(|()| 0),
            FREE_SLOT => free_slot(state, image),
            PREPARE => prepare(state, image, writer),
            CONFIRM => confirm(state, image, writer),
            WITHDRAW => withdraw(state, image, writer),
            EVENT => event(state, image, Asked { kind: page, meter: 23, amount: 1 }, &fixed_moduli()),
            BEGIN_WIDE => begin_wide(state, writer),
            _ => {
                let used = state.wide.used as usize;
                state.wide.keys[used..].fill(0);
                (state.wide.writer, state.wide.used) = (Some(writer), page);
                if page > 0 {
                    state.wide.keys[0] = line;
                }
                Ok(0)
            }
        }
    }

    fn run(&mut self, stores: u64) -> u64 {
        code(run(&mut self.state, &mut self.image, stores))
    }

    fn mount(&mut self) -> u64 {
        code(mount(&self.image).map(|mounted| self.state = mounted).map(|()| 0))
    }

    /// The first word of a line that a recall shows, or 1,000 times the number of its refusal.
    fn recalled(&self, page: u64, line: u64) -> u64 {
        let mut target = [0; 64];
        code(recall(page, line, &self.image, &mut target).map(|()| word(&target, 0)))
    }

    fn read(&self, writer: u64, page: u64, line: u64) -> u64 {
        let mut target = [0; 64];
        code(read(&self.state, &self.image, (writer, page, line), &mut target).map(|()| word(&target, 0)))
    }
}

/// A wide round's commit cut after so many stores; what the mount then finds is cut, too, and mounted again.
fn show_cut(cut: u64) {
    let mut store = Store::fresh();
    for (i, row) in (0..).zip(ROUND) {
        store.make(row, i + 1).expect("a call that is taken");
        store.run(row[4]);
    }
    let needed = code(commit(&mut store.state, &store.image, 2));
    print!("{cut},{needed},{}", store.run(cut));
    show_lines(&store);
    print!(",{}", store.mount());
    print!(",{}", store.run(cut * 5 % 42));
    show_lines(&store);
    print!(",{}", store.mount());
    print!(",{}", store.run(1000));
    show_lines(&store);
    println!(",{}", hash(&store.image));
}

fn show_lines(store: &Store) {
    for (page, line) in LINES {
        print!(",{}", store.recalled(page, line));
    }
}

/// A call and its run, and the line of both that a recall and a read show; all of it goes into the checksum.
fn turn(store: &mut Store, place: u64, row: Row, sum: u64) -> (u64, [u64; 4]) {
    let made = code(store.make(row, (1 + place / 2 % 3) as u8));
    let ran = store.run(row[4]);
    let shown = [made, ran, store.recalled(row[2], row[3]), store.read(row[1], row[2], row[3])];
    (shown.into_iter().fold(sum, with), shown)
}

fn main() {
    (0..=42).for_each(show_cut);
    let mut store = Store::fresh();
    let mut sum = 0;
    for (place, row) in (0..).zip(TABLE) {
        let shown;
        (sum, shown) = turn(&mut store, place, row, sum);
        println!("{},{},{},{},{}", shown[0], shown[1], shown[2], shown[3], hash(&store.image));
    }
    for place in TABLE.len() as u64..5000 {
        (sum, _) = turn(&mut store, place, picked(place), sum);
        if place % 100 == 99 {
            println!("{place},{sum},{}", hash(&store.image));
        }
    }
}
