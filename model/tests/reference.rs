//! The reference machine of demand 3 (document 01: the book) beside the model, over random lists of calls with cuts between any two stores.

mod common;

use std::collections::BTreeMap;

use common::{numbered, Store};
use model::calls::{self, Patch};
use model::compare::rng::Rng;
use model::layout::Sizes;
use model::meters::{fixed_moduli, Asked, CREDIT, METERS};
use model::mount::recall;
use model::state::Operation;

/// A byte's page, line and offset.
type Spot = (u64, u64, u64);

#[derive(Clone)]
enum Underway {
    Write {
        writer: usize,
        spot: Spot,
        data: Vec<u8>,
    },
    Commit {
        writer: usize,
    },
    /// The commit of a wide round, before its first store.
    Copying {
        writer: usize,
    },
    Event(Asked, Vec<u64>),
    Other,
}

/// Pages hold what was laid on them; a byte not there is zero.
#[derive(Default)]
struct Reference {
    pages: BTreeMap<Spot, u8>,
    unfinished: [BTreeMap<Spot, u8>; 4],
    wide: Option<usize>,
    /// Wide rounds taken.
    rounds: u64,
    underway: Option<(Underway, u64)>,
    /// The completed events, in their order.
    events: Vec<Asked>,
}

impl Reference {
    fn commit_of(&self, writer: usize) -> Underway {
        if self.wide == Some(writer) {
            Underway::Copying { writer }
        } else {
            Underway::Commit { writer }
        }
    }

    fn aborted(&mut self, writer: usize) {
        self.unfinished[writer].clear();
        self.wide = self.wide.filter(|&wide| wide != writer);
    }

    /// A taken call that needs so many stores.
    fn taken(&mut self, call: Underway, needs: u64) {
        self.underway = Some((call, needs));
        self.stored(0);
    }

    /// So many stores were made; with none left the operation does what it does.
    fn stored(&mut self, made: u64) {
        let Some((mut call, left)) = self.underway.take() else { return };
        if let (Underway::Copying { writer }, true) = (&call, made > 0 || left == 0) {
            self.rounds += u64::from(left > 0);
            self.committed(*writer);
            self.wide = None;
            call = Underway::Other;
        }
        if left > made {
            self.underway = Some((call, left - made));
            return;
        }
        match call {
            Underway::Write { writer, spot: (page, line, offset), data } => {
                let spots = (offset..).map(|offset| (page, line, offset));
                self.unfinished[writer].extend(spots.zip(data));
            }
            Underway::Commit { writer } => self.committed(writer),
            Underway::Event(asked, moduli) => self.moved(asked, &moduli),
            Underway::Copying { .. } | Underway::Other => {}
        }
    }

    fn committed(&mut self, writer: usize) {
        let unfinished = std::mem::take(&mut self.unfinished[writer]);
        self.pages.extend(unfinished);
    }

    /// A completed event moves its meters on the pages.
    fn moved(&mut self, asked: Asked, moduli: &[u64]) {
        for meter in asked.meters() {
            let number = asked.moved(meter, self.meter(meter), moduli).expect("row 21: in range");
            let spots = (0..).map(|offset| (0, meter, offset));
            self.pages.extend(spots.zip(number.to_le_bytes()));
        }
        self.events.push(asked);
    }

    fn meter(&self, meter: u64) -> u64 {
        u64::from_le_bytes(self.line(None, 0, meter)[..8].try_into().expect("eight bytes"))
    }

    fn mounted(&mut self) {
        self.unfinished = Default::default();
        (self.underway, self.wide) = (None, None);
    }

    fn line(&self, writer: Option<u64>, page: u64, line: u64) -> Vec<u8> {
        let unfinished = |spot| writer.and_then(|writer| self.unfinished[writer as usize].get(&spot));
        let byte =
            |offset| unfinished((page, line, offset)).or_else(|| self.pages.get(&(page, line, offset)));
        (0..64).map(|offset| byte(offset).copied().unwrap_or(0)).collect()
    }
}

struct Both {
    store: Store,
    reference: Reference,
    rng: Rng,
    taken: u64,
    freed: u64,
    /// Where the last write went, and how many were taken with no stores.
    written: Option<(u64, u64, u64)>,
    idle: u64,
    confirmed: u64,
    /// Mounts that left lines to copy.
    copyings: u64,
    /// Only events write to page 0.
    metered: bool,
    /// The moduli last loaded, each meter's number then, and the events completed before.
    moduli: Vec<u64>,
    starts: Vec<u64>,
    before: usize,
    loads: u64,
}

/// Among them the lines of credit, cash in, bet and one count.
const LINES: [u64; 5] = [0, 1, 3, 23, 63];

impl Both {
    fn new(seed: u64, metered: bool) -> Both {
        Both::with_entries(seed, metered, 0)
    }

    fn with_entries(seed: u64, metered: bool, l: u64) -> Both {
        let mut rng = Rng::new(seed, 0);
        let (p, s) = (rng.between(1, 3), rng.between(1, 3));
        let j = rng.between(s, 4);
        let (store, moduli) = (Store::of(Sizes { p, s, j, l }), fixed_moduli());
        Both {
            store,
            reference: Reference::default(),
            rng,
            taken: 0,
            freed: 0,
            written: None,
            idle: 0,
            confirmed: 0,
            copyings: 0,
            metered,
            moduli,
            starts: vec![0; METERS],
            before: 0,
            loads: 0,
        }
    }

    fn note(&mut self, call: Underway, answer: Result<u64, u8>) {
        match answer {
            Ok(needs) => {
                self.taken += 1;
                self.reference.taken(call, needs);
            }
            Err(number) => assert!((9..=30).contains(&number) && number != 16, "{number} on such a list"),
        }
    }

    fn event(&mut self) {
        let kind = self.rng.pick(&[1, 1, 3, 3, 3, 5, 5, 0]);
        let (meter, amount) =
            (self.rng.pick(&[23, 23, 23, 4]), self.rng.pick(&[0, 7, 300, 9_999, 60_000_000]));
        let short = self.rng.percent(5);
        let lent = if short { self.moduli[1..].to_vec() } else { self.moduli.clone() };
        let answer = self.store.ask_event_with(kind, meter, amount, &lent);
        assert!(!short || answer.is_err());
        self.note(Underway::Event(Asked { kind, meter, amount }, lent), answer);
    }

    /// A load changes nothing in the reference machine; it is taken if the text is right and each meter of the pages is below its modulus.
    fn load(&mut self) {
        let any = [100, 301, 9_999, 10_007, 1_000_000, 100_000_000, 1_000_000_000_000];
        let moduli: Vec<u64> = (0..METERS as u64)
            .map(|meter| {
                if self.rng.percent(70) {
                    self.reference.meter(meter) + self.rng.pick(&any)
                } else {
                    self.rng.pick(&any)
                }
            })
            .map(|modulus| modulus.min(1_000_000_000_000))
            .collect();
        let lines = if self.rng.percent(90) { METERS } else { METERS - 1 };
        let text: String = (0..lines).map(|meter| format!("{meter},{}\n", moduli[meter])).collect();
        let below = (0..METERS).all(|meter| self.reference.meter(meter as u64) < moduli[meter]);
        match self.store.load(text.as_bytes()) {
            Ok(loaded) => {
                assert!(below && loaded == moduli);
                self.starts = (0..METERS as u64).map(|meter| self.reference.meter(meter)).collect();
                (self.moduli, self.before) = (loaded, self.reference.events.len());
                self.loads += 1;
            }
            Err(9) => assert!(self.store.state.pending.is_some()),
            Err(25) => assert!(lines < METERS),
            Err(number) => assert!(number == 27 && !below, "{number} on such a list"),
        }
    }

    fn write(&mut self) {
        let first = u64::from(self.metered);
        if self.store.state.sizes.p == first {
            return;
        }
        let (writer, page) =
            (self.rng.pick(&[0, 0, 1, 2]), self.rng.between(first, self.store.state.sizes.p - 1));
        let place = (self.often_wide(writer), page, self.rng.pick(&LINES));
        // In a third of them the bytes that the writer of the last one reads there.
        let again = self.written.filter(|_| self.rng.percent(33));
        let (writer, page, line) = again.unwrap_or(place);
        self.written = Some((writer, page, line));
        let offset = self.rng.pick(&[0, 3, 63]);
        let length = self.rng.between(1, 64 - offset) as usize;
        let data: Vec<u8> = if again.is_some() {
            self.reference.line(Some(writer), page, line)[offset as usize..][..length].to_vec()
        } else {
            (0..length).map(|_| self.rng.below(256) as u8).collect()
        };
        let patch = Patch { offset, length: data.len() as u64, data: &data };
        let answer = calls::write(&mut self.store.state, &self.store.image, (writer, page, line), patch);
        let call = Underway::Write { writer: writer as usize, spot: (page, line, offset), data };
        self.idle += u64::from(answer.is_ok_and(|needs| needs == 0));
        self.note(call, numbered(answer));
    }

    /// The wide writer, where there is one, in most calls.
    fn often_wide(&mut self, writer: u64) -> u64 {
        let wide = self.store.state.wide.writer;
        wide.filter(|_| self.rng.percent(80)).unwrap_or(writer)
    }

    fn abort(&mut self, writer: u64) {
        if self.store.abort(writer).is_ok() {
            self.reference.aborted(writer as usize);
        }
    }

    fn copies(&self) -> bool {
        self.store.state.pending.as_ref().is_some_and(|pending| pending.operation == Operation::Copying)
    }

    fn mount(&mut self) {
        self.store.mount().expect("a mount is taken");
        self.copyings += u64::from(self.copies());
        self.reference.mounted();
    }

    fn turn(&mut self) {
        let writer = self.rng.pick(&[0, 0, 0, 1, 1, 2, 3]);
        let writer = self.often_wide(writer);
        match self.rng.below(23) {
            0..=2 if self.store.state.sizes.l > 0 && self.rng.percent(60) => {
                let alone = self.store.state.wide.writer.is_none() && self.rng.percent(60);
                (0..4).filter(|_| alone).for_each(|other| self.abort(other));
                if self.store.begin_wide(writer).is_ok() {
                    self.reference.wide = Some(writer as usize);
                }
            }
            0..=2 => self.store.begin(writer).map_or((), |_| ()),
            3 => self.abort(writer),
            4..=8 if self.rng.percent(if self.metered { 60 } else { 20 }) => self.event(),
            4..=8 => self.write(),
            9 if self.rng.percent(25) => self.load(),
            9..=11 => {
                let call = self.reference.commit_of(writer as usize);
                let answer = self.store.ask_commit(writer);
                self.note(call, answer);
            }
            20 => {
                let answer = self.store.ask_prepare(writer);
                self.note(Underway::Other, answer);
            }
            21 | 22 if self.rng.percent(25) => {
                let answer = self.store.withdraw(writer);
                self.note(Underway::Other, answer);
            }
            21 | 22 => {
                let writer = self.store.state.prepared.unwrap_or(writer);
                let answer = self.store.ask_confirm(writer);
                self.confirmed += u64::from(answer.is_ok());
                self.note(Underway::Commit { writer: writer as usize }, answer);
            }
            12 => {
                let page = self.rng.below(self.store.state.sizes.p);
                let answer = self.store.ask_consolidate(page);
                self.note(Underway::Other, answer);
            }
            13 if self.rng.percent(50) => {
                let answer = self.store.ask_free_slot();
                self.freed += u64::from(answer.is_ok());
                self.note(Underway::Other, answer);
            }
            13 => {
                let answer = self.store.ask_checkpoint();
                self.note(Underway::Other, answer);
            }
            14 if self.rng.percent(20) => self.mount(),
            15 if self.copies() => self.mount(),
            _ => {
                let k = self.rng.pick(&[0, 1, 3, 9, 600, 600, 600]);
                let made = self.store.run(k).unwrap_or(0);
                self.reference.stored(made);
            }
        }
    }

    /// The meters that a mount of the image finds are the totals of the completed events.
    fn adds_up(&self) {
        let total_from = |first: usize, meter| {
            let own =
                self.reference.events[first..].iter().filter(|asked| asked.meters().last() == Some(&meter));
            own.map(|asked| asked.amount).sum::<u64>()
        };
        let total = |meter| total_from(0, meter);
        let found = |meter| {
            let mut target = [9; 64];
            numbered(recall(0, meter, &self.store.image, &mut target)).expect("a recall is taken");
            u64::from_le_bytes(target[..8].try_into().expect("eight bytes"))
        };
        assert_eq!(found(CREDIT) + total(2) + total(3), total(1) + total(4), "credit");
        assert!(found(CREDIT) < self.moduli[0]);
        for (meter, modulus) in (0..).zip(&self.moduli).skip(1) {
            let sum = self.starts[meter as usize] + total_from(self.before, meter);
            assert_eq!(found(meter), sum % modulus, "meter {meter}");
        }
    }

    /// Every reader sees the reference's bytes, and a cut here would leave the pages.
    fn agree(&self) {
        for page in 0..self.store.state.sizes.p {
            for line in LINES {
                let mut target = [9; 64];
                numbered(recall(page, line, &self.store.image, &mut target)).expect("a recall is taken");
                assert_eq!(
                    target.to_vec(),
                    self.reference.line(None, page, line),
                    "recall of {page}, {line}"
                );
                for writer in (0..4).filter(|_| self.store.state.pending.is_none()) {
                    let place = (writer, page, line);
                    numbered(calls::read(&self.store.state, &self.store.image, place, &mut target))
                        .expect("taken");
                    assert_eq!(
                        target.to_vec(),
                        self.reference.line(Some(writer), page, line),
                        "read of {place:?}"
                    );
                }
            }
        }
    }
}

#[test]
fn the_model_agrees_with_the_reference() {
    let (mut taken, mut freed, mut confirmed, mut events, mut idle) = (0, 0, 0, 0, 0);
    for seed in 0..120 {
        let mut both = Both::new(seed, false);
        for _ in 0..120 {
            both.turn();
            both.agree();
        }
        taken += both.taken;
        freed += both.freed;
        confirmed += both.confirmed;
        events += both.reference.events.len();
        idle += both.idle;
    }
    assert!(taken > 1_000, "only {taken} operations were taken");
    assert!(freed > 30, "only {freed} slots were freed");
    assert!(confirmed > 50, "only {confirmed} transactions were confirmed");
    assert!(events > 30, "only {events} events were completed");
    assert!(idle > 30, "only {idle} writes changed nothing");
}

/// Document 02, L14: the reference takes a wide round with the first store of its commit, and what a mount left to copy changes nothing there.
#[test]
fn wide_rounds_agree_with_the_reference() {
    let (mut rounds, mut copyings, mut idle, mut events, mut freed) = (0, 0, 0, 0, 0);
    for seed in 0..200 {
        let mut both = Both::with_entries(seed, false, [1, 2, 3, 64][seed as usize % 4]);
        for _ in 0..200 {
            both.turn();
            both.agree();
        }
        rounds += both.reference.rounds;
        copyings += both.copyings;
        idle += both.idle;
        events += both.reference.events.len();
        freed += both.freed;
    }
    assert!(rounds > 150, "only {rounds} wide rounds were taken");
    assert!(copyings > 20, "only {copyings} mounts left lines to copy");
    assert!(idle > 30, "only {idle} writes changed nothing");
    assert!(events > 20, "only {events} events were completed");
    assert!(freed > 20, "only {freed} slots were freed");
}

/// Document 02: where nothing but events writes to page 0, each lent the moduli last loaded, credit is cash in minus cash out minus bet plus won over the
/// completed events, and the other meters are their numbers at loading and their totals since then, by remainder.
#[test]
fn the_meters_add_up() {
    let (mut events, mut loads) = (0, 0);
    for seed in 0..160 {
        let mut both = Both::new(seed, true);
        for _ in 0..120 {
            both.turn();
            both.adds_up();
        }
        both.agree();
        events += both.reference.events.len();
        loads += both.loads;
    }
    assert!(events > 300, "only {events} events were completed");
    assert!(loads > 50, "only {loads} loads were taken");
}
