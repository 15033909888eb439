//! A script of probe lines: right and damaged images, mounted. Each image is formatted, damaged word by word and mounted, and the state is
//! printed; formats that are turned back are followed by the buffer's hash. Its outputs come from model-probe.

use model::layout::{Sizes, COUNT_AT, ENTRIES_AT, HEAD_AT, J_AT, LAYOUT_AT, P_AT, S_AT, TAIL_AT};
use model::slots::{FREE_ORIGINAL, FREE_PAGE};

const ALL: u64 = u64::MAX;
const HALF: u64 = u32::MAX as u64;
const SMALL: Sizes = Sizes { p: 2, s: 1, j: 2, l: 0 };
const LARGE: Sizes = Sizes { p: 3, s: 2, j: 3, l: 0 };
const WIDE: Sizes = Sizes { l: 3, ..SMALL };
const BUFFER: usize = 65_536;

/// Page, original, spare and bitmap.
type Quad = (u64, u64, u64, u64);

/// An image under damage, as the lines that make it.
struct Damaged {
    sizes: Sizes,
    lines: String,
}

impl Damaged {
    fn fresh(sizes: Sizes) -> Damaged {
        let lines = format!("L,{BUFFER}\nF,{},{},{}\nN,9999\n", sizes.p, sizes.s, sizes.j);
        Damaged { sizes, lines }
    }

    fn put(mut self, at: usize, value: u64) -> Damaged {
        self.lines += &format!("U,{},{value}\n", at / 8);
        self
    }

    fn ends(self, head: u64, tail: u64) -> Damaged {
        self.put(HEAD_AT, head).put(TAIL_AT, tail)
    }

    fn home(self, page: u64, frame: u64) -> Damaged {
        let at = self.sizes.page_word(page);
        self.put(at, frame)
    }

    fn slot(mut self, slot: u64, (page, original, spare, bitmap): Quad) -> Damaged {
        for (i, value) in [page, original | spare << 32, bitmap].into_iter().enumerate() {
            let at = self.sizes.slot_word(slot, i as u64);
            self = self.put(at, value);
        }
        self
    }

    fn leads(self, position: u64, first: u64, slot: u64) -> Damaged {
        let at = self.sizes.record_word(position, 0);
        self.put(at, first | slot << 32)
    }

    fn record(mut self, position: u64, (page, original, spare, bitmap): Quad) -> Damaged {
        for (i, value) in [page, original | spare << 32, bitmap].into_iter().enumerate() {
            let at = self.sizes.record_word(position, i as u64 + 1);
            self = self.put(at, value);
        }
        self
    }

    /// A mount with some bytes lent, what it found, and recall's answer.
    fn within(self, length: usize) {
        print!("{}L,{length}\nM\nG\nE,0,0,64\n", self.lines);
    }

    fn found(self) {
        self.within(BUFFER);
    }
}

/// A format that is turned back keeps every byte, a taken one the bytes past the image.
fn formats() {
    let end = SMALL.image_length();
    let case = |p: u64, s: u64, j: u64, length: usize| {
        println!("U,4,9\nU,{},7\nL,{length}\nF,{p},{s},{j}\nH\nN,9999\nH", end / 8);
    };
    let ranges = [(0, 1, 2), (1025, 1, 2), (2, 0, 2), (2, 17, 17), (2, 1, 0), (3, 2, 1), (2, 1, 257)];
    for (p, s, j) in ranges {
        case(p, s, j, BUFFER);
    }
    case(0, 1, 2, 0);
    for length in [0, 63, end - 1, end] {
        case(2, 1, 2, length);
    }
}

/// Rows 1 to 5.
fn headers() {
    let image = || Damaged::fresh(SMALL);
    let length = SMALL.image_length();
    for lent in [0, 63, 64, length - 1, length, BUFFER] {
        image().within(lent);
    }
    image().put(LAYOUT_AT, 0).found(); // layout 0
    image().put(LAYOUT_AT, 2).found(); // layout 2 without entries
    image().put(LAYOUT_AT, 3).found(); // layout 3
    image().put(LAYOUT_AT, 1 + (1 << 32)).found(); // layout 1 + 2^32
    image().put(LAYOUT_AT, 0).within(63); // rows 1 and 2
    image().put(P_AT, 0).found(); // P 0
    image().put(P_AT, 1_025).found(); // P 1025
    image().put(P_AT, ALL).found(); // P 2^64 - 1
    image().put(P_AT, 1_024).found(); // P 1024
    image().put(S_AT, 0).found(); // S 0
    image().put(S_AT, 17).found(); // S 17
    image().put(S_AT, 3).found(); // S over J
    image().put(J_AT, 0).found(); // J 0
    image().put(J_AT, 257).found(); // J 257
    image().put(J_AT, ALL).found(); // J 2^64 - 1
    image().put(J_AT, 0).within(64); // rows 3 and 4
    image().put(HEAD_AT, 4).within(length - 1); // rows 4 and 5
    image().put(LAYOUT_AT, 0).put(P_AT, 0).found(); // rows 2 and 3
    image().put(P_AT, 0).put(HEAD_AT, 4).found(); // rows 3 and 5
    image().ends(4, 0).found(); // head 2J
    image().ends(0, 4).found(); // tail 2J
    image().ends(4, 4).found(); // head and tail 2J
    image().ends(ALL, 0).found(); // head 2^64 - 1
    image().ends(3, 0).found(); // J + 1 live
    image().ends(1, 2).found(); // J + 1 live across the wrap
    image().ends(2, 3).found(); // 2J - 1 live
}

/// One slot in the slot table, row 7.
fn tables() {
    let table = |slot| Damaged::fresh(SMALL).slot(0, slot).found();
    let home = |page, frame| Damaged::fresh(SMALL).home(page, frame).found();
    table((0, 0, 2, 1)); // table owning
    table((1, 1, 2, ALL)); // table all in the spare
    table((0, 2, 0, 1 << 63)); // table original F - 1 spare 0
    table((0, 0, 0, 0)); // table zeros
    table((2, 0, 2, 0)); // table page P
    table((0, 3, 2, 0)); // table original F
    table((0, 0, 3, 0)); // table spare F
    table((FREE_PAGE, FREE_ORIGINAL, 2, 1)); // table free with a bitmap
    table((FREE_PAGE, 0, 2, 0)); // table free with an original
    table((FREE_PAGE, FREE_ORIGINAL, 3, 0)); // table free spare F
    table((FREE_PAGE, FREE_ORIGINAL, 1, 0)); // a spare that is a home
    table((0, 1, 2, 0)); // an original that is a home
    home(0, 1); // a home twice
    home(1, 2); // a home that is a spare
    home(0, 3); // a page-table word F
    home(0, 1 << 32); // a page-table word 2^32
    home(1, ALL); // a page-table word 2^64 - 1
}

/// One live record, row 6.
fn records() {
    let record = |slot| Damaged::fresh(SMALL).record(0, slot).ends(1, 0).found();
    record((0, 0, 2, 1)); // record owning
    record((1, 1, 2, ALL)); // record all in the spare
    record((0, 2, 0, 0)); // record original F - 1 spare 0
    record((FREE_PAGE, FREE_ORIGINAL, 2, 0)); // record free
    record((FREE_PAGE, FREE_ORIGINAL, 0, 0)); // record free spare a home
    record((0, 1, 2, 0)); // record original a home
    record((0, 0, 0, 0)); // record zeros
    record((2, 0, 2, 0)); // record page P
    record((0, 3, 2, 0)); // record original F
    record((0, 0, 3, 0)); // record spare F
    record((FREE_PAGE, FREE_ORIGINAL, 2, 1)); // record free with a bitmap
    record((FREE_PAGE, 0, 2, 0)); // record free with an original
    record((FREE_PAGE, FREE_ORIGINAL, 3, 0)); // record free spare F
    record((FREE_PAGE - 1, FREE_ORIGINAL, 2, 0)); // record page 2^64 - 2
    let right = || Damaged::fresh(SMALL).record(0, (0, 0, 2, 1)).ends(1, 0);
    right().leads(0, 0, 1).found(); // record slot S
    right().leads(0, 0, HALF).found(); // record slot 2^32 - 1
    right().leads(0, 1, 0).found(); // record first 1
    right().leads(0, 2, 0).found(); // record first J
    right().leads(0, HALF, 0).found(); // record first 2^32 - 1
}

/// Two live records on two slots.
fn two_slots() {
    let two = || {
        let image = Damaged::fresh(LARGE).record(0, (0, 0, 3, 1));
        image.leads(1, 0, 1).record(1, (1, 1, 4, 2)).ends(2, 0)
    };
    let leads = |first: (u64, u64), second: (u64, u64)| {
        two().leads(0, first.0, first.1).leads(1, second.0, second.1).found()
    };
    leads((0, 0), (0, 1)); // two of one transaction
    leads((0, 0), (1, 1)); // two transactions
    leads((0, 1), (1, 0)); // two transactions the slots falling
    leads((0, 1), (0, 0)); // one transaction the slots falling
    leads((0, 0), (0, 0)); // one transaction one slot
    leads((1, 0), (1, 1)); // the first record carrying the second's position
    leads((0, 0), (2, 1)); // a first to come
    leads((0, 0), (0, 2)); // slot S in the second
    leads((0, 0), (1, 0)); // slot 0 with slot 1's spare
    two().leads(1, 1, 0).record(1, (0, 0, 3, 3)).found(); // a record over another of its slot
    two().leads(1, 1, 0).record(1, (FREE_PAGE, FREE_ORIGINAL, 3, 0)).found(); // a free record over an owning one

    let second = |slot| two().record(1, slot).found();
    second((0, 0, 4, 2)); // a page in two slots
    second((1, 1, 3, 2)); // a spare in two slots
    second((1, 0, 4, 2)); // an original in two slots
    second((1, 2, 4, 2)); // an original and a home
    second((1, 1, 2, 2)); // a spare and a home
    second((1, 3, 4, 2)); // an original and a spare
    second((1, 4, 1, 2)); // the frames exchanged

    let junk = two().home(0, 77).home(1, 2).slot(0, (5, 5, 5, 5)).slot(1, (0, 0, 0, 0));
    junk.found(); // under live records
    two().home(2, LARGE.frames()).found(); // page 2 in frame F
    two().home(2, 3).found(); // page 2 in a spare
    two().home(2, 0).found(); // page 2 in an original

    two().ends(1, 0).found(); // the record at head
    two().ends(2, 1).found(); // a transaction cut at tail
    two().ends(0, 0).found(); // none live
    two().ends(3, 3).found(); // none live at 3
    two().ends(4, 0).found(); // rows 5 and 6

    two().home(2, LARGE.frames()).leads(0, 0, 2).found(); // rows 6 and 7
    two().home(2, LARGE.frames()).leads(0, 0, 2).ends(6, 0).found(); // rows 5, 6 and 7
}

/// Positions about the wrap.
fn wraps() {
    let two = |(f0, f1), (tail, head)| {
        let image = Damaged::fresh(SMALL).record(0, (0, 0, 2, 1)).record(1, (1, 1, 2, 2));
        image.leads(0, f0, 0).leads(1, f1, 0).ends(head, tail).found();
    };
    two((0, 1), (0, 2)); // tail 0 head 2
    two((2, 1), (1, 3)); // tail 1 head 3
    two((2, 3), (2, 0)); // tail 2 head 0
    two((0, 3), (3, 1)); // tail 3 head 1
    two((0, 3), (3, 0)); // tail 3 head 0
    two((2, 3), (2, 3)); // tail 2 head 3
    two((2, 3), (3, 1)); // tail 3 head 1 the other lap
    two((3, 3), (3, 1)); // tail 3 head 1 the predecessor's
    two((0, 1), (3, 1)); // tail 3 head 1 the first of place 1
    two((0, 0), (2, 2)); // tail 2 head 2
    two((0, 0), (3, 3)); // tail 3 head 3

    let three = |firsts: [u64; 3]| {
        let image = Damaged::fresh(LARGE).record(0, (0, 0, 3, 1));
        let image = image.record(1, (1, 1, 4, 2)).record(2, (1, 1, 4, 4));
        image.leads(0, firsts[0], 0).leads(1, firsts[1], 1).leads(2, firsts[2], 1)
    };
    let from_4 = |firsts, head| three(firsts).ends(head, 4).found();
    from_4([0, 4, 5], 5); // tail 4 head 5
    from_4([0, 4, 5], 0); // tail 4 head 0
    from_4([0, 4, 5], 1); // tail 4 head 1
    from_4([5, 4, 5], 1); // tail 4 head 1 slots falling in one
    from_4([0, 4, 4], 1); // tail 4 head 1 one slot in one
    from_4([0, 4, 5], 2); // tail 4 head 2
    from_4([9, 9, 9], 4); // tail 4 head 4
    three([5, 1, 5]).leads(2, 5, 0).leads(0, 5, 1).ends(1, 5).found(); // one transaction across the wrap
}

/// Layout 2: L and the count in rows 3, 4 and 6, the keys of the entries counted, and recall of an entry.
fn entries() {
    let image = |l: u64| Damaged::fresh(SMALL).put(LAYOUT_AT, 2).put(ENTRIES_AT, l);
    let counted = |count: u64, keys: [u64; 3]| {
        let mut image = image(3).put(COUNT_AT, count);
        for (entry, key) in (0..).zip(keys) {
            let at = WIDE.entry_word(entry, 0);
            image = image.put(at, key).put(at + 8, 1_000 + entry).put(at + 64, 2_000 + entry);
        }
        image
    };
    image(1).found(); // L 1
    image(64).found(); // L 64
    image(65).found(); // L 65
    image(ALL).found(); // L 2^64 - 1
    image(65).within(64); // rows 3 and 4
    for lent in [WIDE.image_length() - 1, WIDE.image_length()] {
        image(3).within(lent);
    }
    Damaged::fresh(SMALL).put(COUNT_AT, 9).put(ENTRIES_AT, 9).found(); // not read under layout 1
    counted(0, [9, 9, ALL]).found(); // none counted
    counted(1, [0, 0, 0]).found(); // the line that is recalled
    counted(1, [127, ALL, ALL]).found(); // the last line
    counted(2, [63, 0, 0]).found(); // in the second entry
    counted(3, [127, 64, 0]).found(); // all of them
    counted(3, [127, 64, 0]).ends(4, 0).found(); // rows 5 and 6
    counted(4, [127, 64, 0]).found(); // more than L
    counted(ALL, [127, 64, 0]).found(); // far more
    counted(1, [128, 0, 0]).found(); // page P
    counted(1, [ALL, 0, 0]).found(); // a key of all ones
    counted(2, [5, 5, 0]).found(); // a line twice
    counted(3, [5, 6, 5]).found(); // a line twice, apart
    counted(2, [5, 6, 5]).found(); // twice, but not counted
    counted(3, [5, 6, 128]).found(); // the last outside
    counted(4, [127, 64, 0]).home(0, 3).found(); // rows 6 and 7
    counted(2, [0, 64, 0]).home(0, 3).found(); // row 7
    counted(2, [0, 64, 0]).slot(0, (0, 0, 2, 1)).found(); // under a slot's committed copy
    counted(2, [64, 1, 0]).record(0, (1, 1, 2, ALL)).ends(1, 0).found(); // beside a live record
}

fn main() {
    formats();
    headers();
    tables();
    records();
    two_slots();
    wraps();
    entries();
}
