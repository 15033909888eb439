//! The store's program `slots_freed`, by the model: calls of a table that frees slots and prepares transactions in chosen situations, then calls that a generator picks.
//!
//! A call is a number. Its decimal digits are the call, its writer, its page, its first and last line, and the stores of the run after it.

#![allow(clippy::inconsistent_digit_grouping)] // the groups are those fields

use model::calls::{
    abort, begin, checkpoint, commit, confirm, consolidate, free_slot, prepare, run, withdraw, write, Patch,
};
use model::layout::Sizes;
use model::mount::{format, mount};
use model::refusal::Answer;
use model::state::State;

/// The largest prime below 2^32.
const MODULUS: u64 = 4_294_967_291;

const TABLE: [u64; 102] = [
    // No slot is taken.
    8_0_0_00_00_1000,
    // The only taken slot is held.
    1_0_0_00_00_0000,
    3_0_3_00_00_1000,
    8_0_0_00_00_1000,
    // It is committed, with one line; then pending; then free.
    4_0_0_00_00_1000,
    8_0_0_00_00_0000,
    8_0_0_00_00_1000,
    8_0_0_00_00_1000,
    // Bitmaps with 33, 32, 63 and 1 ones: two slots tie with one line to copy, and then the journal is full.
    6_0_0_00_00_1000,
    1_0_0_00_00_0000,
    3_0_0_00_32_1000,
    3_0_1_00_31_1000,
    3_0_2_00_62_1000,
    3_0_3_00_00_1000,
    4_0_0_00_00_1000,
    8_0_0_00_00_1000,
    8_0_0_00_00_1000,
    8_0_0_00_00_1000,
    // Of the slots left one needs 31 lines and one 32; then none is taken.
    6_0_0_00_00_1000,
    8_0_0_00_00_1000,
    8_0_0_00_00_1000,
    8_0_0_00_00_1000,
    // Bitmaps with 64 ones and, of a slot whose writer aborted, with none.
    6_0_0_00_00_1000,
    1_0_0_00_00_0000,
    3_0_4_00_63_1000,
    4_0_0_00_00_1000,
    1_1_0_00_00_0000,
    3_1_5_00_00_1000,
    2_1_0_00_00_0000,
    8_0_0_00_00_1000,
    8_0_0_00_00_1000,
    // A held slot with two lines is skipped for one with three.
    6_0_0_00_00_1000,
    1_0_0_00_00_0000,
    3_0_0_00_01_1000,
    3_0_1_00_02_1000,
    4_0_0_00_00_1000,
    1_2_0_00_00_0000,
    3_2_0_00_00_1000,
    8_0_0_00_00_0000,
    // A cut before the first store, and it is not held; then one before the last store but one.
    7_0_0_00_00_0000,
    8_0_0_00_00_0020,
    7_0_0_00_00_0000,
    8_0_0_00_00_0000,
    7_0_0_00_00_0000,
    // All taken slots are held and the journal is full: 22 comes before 19.
    1_0_0_00_00_0000,
    3_0_0_00_00_1000,
    4_0_0_00_00_1000,
    1_0_0_00_00_0000,
    3_0_0_00_00_1000,
    4_0_0_00_00_1000,
    1_0_0_00_00_0000,
    3_0_0_00_00_1000,
    4_0_0_00_00_1000,
    1_0_0_00_00_0000,
    3_0_0_00_00_1000,
    4_0_0_00_00_1000,
    1_3_0_00_00_0000,
    3_3_0_00_00_1000,
    3_3_1_00_00_1000,
    8_0_0_00_00_1000,
    // The journal is full; and the buffer is short.
    2_3_0_00_00_0000,
    8_0_0_00_00_1000,
    9_0_0_00_00_0000,
    // The next slot to try is 4, of 4; and the buffer is short.
    10_0_4_04_04_0000,
    8_0_0_00_00_0000,
    9_0_0_00_00_0000,
    7_0_0_00_00_0000,
    // 17 slots.
    10_0_0_17_17_0000,
    8_0_0_00_00_0000,
    7_0_0_00_00_0000,
    // A transaction is prepared: a slot to free, another's prepare and commit, its own abort, write and commit, a consolidation, and a confirm and a
    // withdraw by another writer; another's write and a checkpoint are taken.
    6_0_0_00_00_1000,
    1_0_0_00_00_0000,
    3_0_0_00_01_1000,
    1_1_0_00_00_0000,
    11_0_0_00_00_1000,
    8_0_0_00_00_1000,
    11_1_0_00_00_1000,
    4_1_0_00_00_1000,
    2_0_0_00_00_0000,
    3_0_1_00_00_1000,
    4_0_0_00_00_1000,
    5_0_0_00_00_1000,
    12_1_0_00_00_1000,
    13_1_0_00_00_0000,
    3_1_1_00_00_1000,
    6_0_0_00_00_1000,
    // A cut before confirm's store; one before prepare's last.
    12_0_0_00_00_0000,
    7_0_0_00_00_0000,
    1_0_0_00_00_0000,
    3_0_0_00_00_1000,
    11_0_0_00_00_0003,
    7_0_0_00_00_0000,
    // Withdrawn, prepared again with a slot more, confirmed; then an empty one.
    1_0_0_00_00_0000,
    3_0_0_00_00_1000,
    11_0_0_00_00_1000,
    13_0_0_00_00_0000,
    3_0_1_00_00_1000,
    11_0_0_00_00_1000,
    12_0_0_00_00_1000,
    1_2_0_00_00_0000,
    11_2_0_00_00_1000,
    12_2_0_00_00_1000,
];

/// The walk's calls; writer, page and line are added.
const WALK: [u64; 32] = [
    1_0_0_00_00_0000,
    1_0_0_00_00_0000,
    1_0_0_00_00_0000,
    1_0_0_00_00_0000,
    1_0_0_00_00_0000,
    2_0_0_00_00_0000,
    3_0_0_00_00_1000,
    3_0_0_00_00_1000,
    3_0_0_00_00_1000,
    3_0_0_00_00_1000,
    3_0_0_00_00_1000,
    3_0_0_00_00_1000,
    3_0_0_00_00_1000,
    3_0_0_00_00_1000,
    3_0_0_00_00_1000,
    3_0_0_00_00_1000,
    11_0_0_00_00_1000,
    12_0_0_00_00_1000,
    13_0_0_00_00_0000,
    3_0_0_00_00_0000,
    3_0_0_00_00_0007,
    3_0_0_00_00_0009,
    4_0_0_00_00_1000,
    4_0_0_00_00_1000,
    4_0_0_00_00_1000,
    4_0_0_00_00_1000,
    4_0_0_00_00_0004,
    5_0_0_00_00_1000,
    6_0_0_00_00_1000,
    7_0_0_00_00_0000,
    8_0_0_00_00_1000,
    8_0_0_00_00_0009,
];

struct Store {
    state: State,
    image: Vec<u8>,
}

/// A call of the list, with a place in it from 1 on.
struct Call {
    place: u64,
    kind: u64,
    writer: u64,
    page: u64,
    line: u64,
    stores: u64,
}

impl Call {
    /// The calls that a number stands for, one for each of its lines.
    fn all(place: u64, mut number: u64) -> Vec<Call> {
        let mut digits = |count: u32| {
            let value = number % 10u64.pow(count);
            number /= 10u64.pow(count);
            value
        };
        let stores = digits(4);
        let (last, first) = (digits(2), digits(2));
        let (page, writer, kind) = (digits(1), digits(1), digits(2));
        (first..=last).map(|line| Call { place, kind, writer, page, line, stores }).collect()
    }

    /// Frees a slot, prepares, confirms or withdraws.
    fn shows(&self) -> bool {
        [8, 9, 11, 12, 13].contains(&self.kind)
    }

    /// A byte to write that differs from call to call.
    fn byte(&self) -> u8 {
        let number = (((self.place * 100 + self.kind) * 10 + self.writer) * 10 + self.page) * 100 + self.line;
        (number % 251) as u8
    }
}

/// The number of the walk's call at a place.
fn picked(place: u64) -> u64 {
    let x = (place - 1) * 1_103_515_245 % 2_147_483_647;
    let x = (x ^ (x >> 16)) * 48_271 % 2_147_483_647;
    let (writer, page, line) = (x / 32 % 2, x / 64 % 6, x / 384 % 64);
    WALK[(x % 32) as usize] + writer * 1_000_000_000 + page * 100_000_000 + line * 1_010_000
}

fn hash(bytes: &[u8]) -> u64 {
    bytes.iter().fold(0, |sum, &byte| (31 * sum + u64::from(byte)) % MODULUS)
}

/// The stores of a taken call, or 1,000 times a refused one's number.
fn code(answer: Answer<u64>) -> u64 {
    answer.unwrap_or_else(|refusal| 1000 * u64::from(refusal.number()))
}

impl Store {
    fn fresh() -> Store {
        let sizes = Sizes { p: 6, s: 4, j: 6, l: 0 };
        let mut image = vec![0; sizes.image_length()];
        let state = format(sizes, &mut image).expect("sizes in range");
        Store { state, image }
    }

    fn make(&mut self, call: &Call) -> Answer<u64> {
        let &Call { writer, page, line, .. } = call;
        let Store { state, image } = self;
        match call.kind {
            1 => begin(state, writer),
            2 => abort(state, writer),
            3 => {
                let patch = Patch { offset: 0, length: 1, data: &[call.byte()] };
                write(state, image, (writer, page, line), patch)
            }
            4 => commit(state, image, writer),
            5 => consolidate(state, image, page),
            6 => checkpoint(state, image),
            7 => mount(image).map(|mounted| *state = mounted).map(|()| 0),
            8 => free_slot(state, image),
            9 => free_slot(state, &image[1..]),
            11 => prepare(state, image, writer),
            12 => confirm(state, image, writer),
            13 => withdraw(state, image, writer),
            _ => {
                (state.next, state.sizes.s) = (page, line);
                Ok(0)
            }
        }
    }
}

fn main() {
    let mut store = Store::fresh();
    let table = TABLE.iter().copied();
    let walk = (TABLE.len() as u64 + 1..).map(picked).take(6000);
    let mut sum = 0;
    for call in (1..).zip(table.chain(walk)).flat_map(|(place, number)| Call::all(place, number)) {
        let made = code(store.make(&call));
        let ran = code(run(&mut store.state, &mut store.image, call.stores));
        sum = (31 * (31 * sum + made) + ran) % MODULUS;
        if call.shows() {
            println!("{made},{},{sum}", hash(&store.image));
        }
    }
}
