//! The store's program `reasons_shown`, by the model: sentences of refusals (request L1), and what texts read back as.
//!
//! Its tables stand by call, where document 01's table stands by number, and its reader goes from left to right.

use model::calls::{
    abort, begin, begin_wide, confirm, consolidate, event, free_slot, prepare, run, withdraw, write, Patch,
};
use model::layout::Sizes;
use model::meters::{fixed_moduli, Asked};
use model::mount::format;
use model::refusal::Refusal;
use model::state::State;

/// A call: its name, what it is given, and the numbers that it can return.
struct Call {
    name: &'static str,
    writer: bool,
    page: bool,
    line: bool,
    numbers: &'static [u64],
}

const fn call(name: &'static str, given: &str, numbers: &'static [u64]) -> Call {
    let given = given.as_bytes();
    let (mut writer, mut page, mut line) = (false, false, false);
    let mut i = 0;
    while i < given.len() {
        writer |= given[i] == b'w';
        page |= given[i] == b'p';
        line |= given[i] == b'l';
        i += 1;
    }
    Call { name, writer, page, line, numbers }
}

const CALLS: [Call; 19] = [
    call("Format", "", &[3, 4]),
    call("Mount", "", &[1, 2, 3, 4, 5, 6, 7]),
    call("Recall", "pl", &[1, 2, 3, 4, 5, 6, 7, 11]),
    call("Begin", "w", &[8, 9, 11, 12, 29]),
    call("Abort", "w", &[8, 9, 11, 13, 23]),
    call("Write", "wpl", &[4, 8, 9, 11, 13, 14, 15, 23, 30]),
    call("Commit", "w", &[4, 8, 9, 11, 13, 19, 23]),
    call("Consolidate", "p", &[4, 8, 9, 11, 17, 18, 19, 23]),
    call("Checkpoint", "", &[4, 8, 9]),
    call("Read", "wpl", &[4, 8, 9, 11]),
    call("Step", "", &[4, 8, 10]),
    call("Run", "", &[4, 8, 10]),
    call("Free slot", "", &[4, 8, 9, 19, 22, 23]),
    call("Event", "", &[4, 8, 9, 12, 14, 15, 19, 20, 21, 23, 26, 29]),
    call("Prepare", "w", &[4, 8, 9, 11, 13, 19, 23, 29]),
    call("A confirm", "w", &[4, 8, 9, 11, 24]),
    call("Withdraw", "w", &[4, 8, 9, 11, 24]),
    call("Load", "", &[4, 8, 9, 25, 26, 27]),
    call("Wide begin", "w", &[8, 9, 11, 28, 29]),
];
const WRITE: usize = 5;
const CONSOLIDATE: usize = 7;
const FREE_SLOT: usize = 12;
const EVENT: usize = 13;
const ABORT: usize = 4;
const PREPARE: usize = 14;
const CONFIRM: usize = 15;
const WITHDRAW: usize = 16;
const BEGIN: usize = 3;
const BEGIN_WIDE: usize = 18;

fn text(number: u64) -> &'static str {
    match number {
        1 => "the image is shorter than its header",
        2 => "the layout of the image is unknown",
        3 => "pages, slots, places or entries are out of range",
        4 => "the buffer is shorter than the sizes need",
        5 => "head or tail of the journal is out of range",
        6 => "a live record or entry is damaged",
        7 => "slots and page table do not name each frame once",
        8 => "the state breaks its rules",
        9 => "an operation is pending",
        10 => "no operation is pending",
        11 => "an argument is out of range",
        12 => "the writer is already open",
        13 => "the writer is not open",
        14 => "another writer holds the line",
        15 => "the page has no slot and none is free",
        17 => "the page has no slot",
        18 => "a writer holds a line of the page",
        19 => "the journal has no room for the records",
        20 => "the event or its meter is unknown",
        21 => "the amount or the new credit is out of range",
        22 => "there is no taken slot without a held line",
        23 => "a transaction is prepared",
        24 => "the writer is not prepared",
        25 => "a line of the table is wrong",
        26 => "a modulus is out of range",
        27 => "a stored meter is not below its modulus",
        28 => "the image has no entries for wide rounds",
        29 => "a wide transaction must be the only open one",
        30 => "all entries for wide rounds are used",
        _ => unreachable!("no number of the table"),
    }
}

fn has_holder(number: u64) -> bool {
    number == 14 || number == 18
}

#[derive(Clone, Copy)]
struct Met {
    writer: u64,
    page: u64,
    line: u64,
    holder: u64,
}

/// The sentence, where the call can return the number.
fn compose(place: usize, number: u64, met: Met) -> Option<String> {
    let call = CALLS.get(place)?;
    if !call.numbers.contains(&number) {
        return None;
    }
    let mut fields = Vec::new();
    if call.writer {
        fields.push(format!("writer {}", met.writer));
    }
    if call.page {
        fields.push(format!("page {}", met.page));
    }
    if call.line {
        fields.push(format!("line {}", met.line));
    }
    if has_holder(number) {
        fields.push(format!("held by writer {}", met.holder));
    }
    let mut list = fields.join(", ");
    if !list.is_empty() {
        list = format!(" {}{}.", list[..1].to_uppercase(), &list[1..]);
    }
    Some(format!("{} refused ({number}): {}.{list}", call.name, text(number)))
}

/// A decimal as the sentence has it, and what follows it.
fn number(text: &str) -> Option<(u64, &str)> {
    let end = text.find(|c: char| !c.is_ascii_digit()).unwrap_or(text.len());
    let (digits, rest) = text.split_at(end);
    let value: u64 = digits.parse().ok()?;
    (digits.len() == 1 || !digits.starts_with('0')).then_some((value, rest))
}

/// A field after its label: as the first with a capital after a blank, as a later one after a comma.
fn field<'a>(text: &'a str, first: &mut bool, label: &str) -> Option<(u64, &'a str)> {
    let start = if *first {
        format!(" {}{} ", label[..1].to_uppercase(), &label[1..])
    } else {
        format!(", {label} ")
    };
    *first = false;
    number(text.strip_prefix(&start)?)
}

/// The call, the number and what it met, if the text is a sentence.
fn read_back(whole: &str) -> Option<(usize, u64, Met)> {
    let place = CALLS.iter().position(|call| whole.starts_with(&format!("{} refused (", call.name)))?;
    let call = &CALLS[place];
    let (number, rest) = number(&whole[call.name.len() + " refused (".len()..])?;
    if !call.numbers.contains(&number) {
        return None;
    }
    let mut rest = rest.strip_prefix("): ")?.strip_prefix(text(number))?.strip_prefix('.')?;
    let mut met = Met { writer: 0, page: 0, line: 0, holder: 0 };
    let mut first = true;
    let fields = [
        (call.writer, "writer", &mut met.writer),
        (call.page, "page", &mut met.page),
        (call.line, "line", &mut met.line),
        (has_holder(number), "held by writer", &mut met.holder),
    ];
    for (has, label, value) in fields {
        if has {
            (*value, rest) = field(rest, &mut first, label)?;
        }
    }
    let end = if first { "" } else { "." };
    (rest == end).then_some((place, number, met))
}

fn back(text: &str) -> String {
    match read_back(text) {
        Some((call, number, Met { writer, page, line, holder })) => {
            format!(
                "  call {call}, number {number}, writer {writer}, page {page}, line {line}, holder {holder}"
            )
        }
        None => "  nothing".to_string(),
    }
}

/// How many copies, each with the lowest bit of one byte changed, read back as nothing.
fn damaged(sentence: &str) -> usize {
    (0..sentence.len())
        .filter(|&i| {
            let mut bytes = sentence.as_bytes().to_vec();
            bytes[i] ^= 1;
            read_back(std::str::from_utf8(&bytes).expect("ASCII")).is_none()
        })
        .count()
}

fn show_call(place: usize) {
    let samples = [
        Met { writer: 0, page: 0, line: 0, holder: 0 },
        Met { writer: 3, page: 1023, line: 63, holder: 2 },
        Met { writer: u64::MAX, page: u64::MAX, line: u64::MAX, holder: u64::MAX },
    ];
    let mut turned_back = 0;
    for number in 0..33 {
        let sentences: Vec<String> = samples.iter().filter_map(|&met| compose(place, number, met)).collect();
        turned_back += usize::from(sentences.is_empty());
        for sentence in sentences {
            assert!(sentence.len() <= 200 && sentence.bytes().all(|b| (32..127).contains(&b)));
            println!(
                "{sentence}\n{}; damaged {}, nothing {}",
                back(&sentence),
                sentence.len(),
                damaged(&sentence)
            );
        }
    }
    println!("call {place}: turned back {turned_back}");
}

fn show_odd() {
    let sentence = compose(WRITE, 14, Met { writer: 0, page: 3, line: 5, holder: 2 }).expect("a sentence");
    let mount = compose(1, 2, Met { writer: 0, page: 0, line: 0, holder: 0 }).expect("a sentence");
    let texts = [
        sentence.clone(),
        sentence.replace("Writer 0", "Writer 00"),
        sentence.replace("Writer 0", &format!("Writer {}", u128::from(u64::MAX) + 1)),
        sentence.replace(", page", ". Page"),
        "Commit refused (13): the writer is not open. Writer 0, page 3.".to_string(),
        sentence.replace(", held by writer 2", ""),
        sentence.replace("Write ", "Begin ").replace(", page 3, line 5", ""),
        sentence.replace("(14)", "(13)").replace(", held by writer 2", ""),
        "Free slot refused (31): .".to_string(),
        format!("{mount} "),
        mount.trim_end_matches('.').to_string(),
        String::new(),
    ];
    for text in texts {
        println!("{text}\n{}", back(&text));
    }
}

struct Store {
    state: State,
    image: Vec<u8>,
}

impl Store {
    fn fresh(l: u64) -> Store {
        let mut image = vec![0; 12_552];
        let state = format(Sizes { p: 2, s: 1, j: 2, l }, &mut image).expect("a taken format");
        Store { state, image }
    }

    /// The lowest writer but `but` with a line of the page that passes the test.
    fn holder(&self, page: u64, but: Option<u64>, test: impl Fn(u64) -> bool) -> u64 {
        let slot = (0..self.state.slot_count()).find(|&s| self.state.slots[s].page == page);
        let holds = |v: &u64| slot.is_some_and(|s| test(self.state.writers[*v as usize].held[s]));
        (0..4).filter(|v| Some(*v) != but).find(holds).unwrap_or(4)
    }

    fn tell(&self, place: usize, refusal: Refusal, met: Met) {
        let number = u64::from(refusal.number());
        let sentence = compose(place, number, met).expect("a number of the call");
        println!("{sentence}\n{}", back(&sentence));
    }

    fn write(&mut self, writer: u64, page: u64, line: u64) {
        let patch = Patch { offset: 0, length: 1, data: b"x" };
        match write(&mut self.state, &self.image, (writer, page, line), patch) {
            Ok(_) => {
                run(&mut self.state, &mut self.image, 9).expect("a pending write");
            }
            Err(refusal) => {
                let holder = self.holder(page, Some(writer), |lines| line < 64 && lines >> line & 1 == 1);
                self.tell(WRITE, refusal, Met { writer, page, line, holder });
            }
        }
    }

    fn consolidate(&mut self, page: u64) {
        let refusal = consolidate(&mut self.state, &self.image, page).expect_err("a refusal");
        let holder = self.holder(page, None, |lines| lines != 0);
        self.tell(CONSOLIDATE, refusal, Met { writer: 0, page, line: 0, holder });
    }

    /// Turned back, or run to its end.
    fn event(&mut self, kind: u64, meter: u64) {
        let asked = Asked { kind, meter, amount: 1 };
        match event(&mut self.state, &self.image, asked, &fixed_moduli()) {
            Ok(needed) => assert_eq!(run(&mut self.state, &mut self.image, needed), Ok(needed)),
            Err(refusal) => {
                let lines = asked.meters();
                let holder = self.holder(0, Some(1), |held| lines.iter().any(|line| held >> line & 1 == 1));
                self.tell(EVENT, refusal, Met { writer: 0, page: 0, line: 0, holder });
            }
        }
    }

    fn events(&mut self) {
        self.event(6, 0);
        self.event(3, 0);
        for writer in [1, 3] {
            abort(&mut self.state, writer).expect("a taken abort");
        }
        self.event(3, 0);
        let needed = consolidate(&mut self.state, &self.image, 1).expect("a taken consolidation");
        assert_eq!(run(&mut self.state, &mut self.image, needed), Ok(needed));
        begin(&mut self.state, 2).expect("a taken begin");
        self.write(2, 0, 3);
        self.write(0, 0, 0);
        self.event(3, 0);
        abort(&mut self.state, 0).expect("a taken abort");
        self.event(3, 0);
        self.event(2, 0);
        self.event(5, 5);
        self.event(5, 5);
    }

    /// Of writer `writer`, turned back.
    fn refused(&self, place: usize, writer: u64, answer: Result<u64, Refusal>) {
        let refusal = answer.expect_err("a refusal");
        self.tell(place, refusal, Met { writer, page: 0, line: 0, holder: 0 });
    }

    /// Writer 0, who holds nothing, is prepared, and then not.
    fn prepared(&mut self) {
        begin(&mut self.state, 0).expect("a taken begin");
        prepare(&mut self.state, &self.image, 0).expect("a taken prepare");
        let answer = prepare(&mut self.state, &self.image, 2);
        self.refused(PREPARE, 2, answer);
        let answer = abort(&mut self.state, 0);
        self.refused(ABORT, 0, answer);
        self.write(0, 0, 9);
        self.consolidate(0);
        self.free_slot();
        self.event(5, 5);
        let answer = confirm(&mut self.state, &self.image, 2);
        self.refused(CONFIRM, 2, answer);
        let answer = withdraw(&mut self.state, &self.image, 2);
        self.refused(WITHDRAW, 2, answer);
        withdraw(&mut self.state, &self.image, 0).expect("a taken withdraw");
        let answer = prepare(&mut self.state, &self.image, 2);
        self.refused(PREPARE, 2, answer);
    }

    /// Turned back for want of entries; then, with one entry, what is turned back beside a wide transaction and of it.
    fn wide(&mut self) {
        let answer = begin_wide(&mut self.state, 0);
        self.refused(BEGIN_WIDE, 0, answer);
        *self = Store::fresh(1);
        begin(&mut self.state, 0).expect("a taken begin");
        let answer = begin_wide(&mut self.state, 1);
        self.refused(BEGIN_WIDE, 1, answer);
        abort(&mut self.state, 0).expect("a taken abort");
        let answer = begin_wide(&mut self.state, 4);
        self.refused(BEGIN_WIDE, 4, answer);
        begin_wide(&mut self.state, 1).expect("a taken begin");
        let answer = begin(&mut self.state, 0);
        self.refused(BEGIN, 0, answer);
        self.event(3, 0);
        let answer = prepare(&mut self.state, &self.image, 1);
        self.refused(PREPARE, 1, answer);
        let answer = confirm(&mut self.state, &self.image, 1);
        self.refused(CONFIRM, 1, answer);
        for (writer, page) in [(1, 0), (1, 1), (0, 1)] {
            self.write(writer, page, 5);
        }
    }

    fn free_slot(&mut self) {
        let refusal = free_slot(&mut self.state, &self.image).expect_err("a refusal");
        self.tell(FREE_SLOT, refusal, Met { writer: 0, page: 0, line: 0, holder: 0 });
    }
}

fn show_met() {
    let mut store = Store::fresh(0);
    for writer in [3, 1, 0] {
        begin(&mut store.state, writer).expect("a taken begin");
    }
    for (writer, page, line) in
        [(3, 1, 5), (1, 1, 6), (0, 1, 6), (3, 1, 6), (0, 1, 5), (0, 0, 5), (2, 1, 7), (0, 2, 64)]
    {
        store.write(writer, page, line);
    }
    store.consolidate(1);
    store.consolidate(0);
    store.free_slot();
    store.events();
    store.prepared();
    store.wide();
}

fn main() {
    (0..20).for_each(show_call);
    show_odd();
    show_met();
}
