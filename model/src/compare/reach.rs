//! What probe's scripts must reach, written out, and the count of what they did reach.
//!
//! Three lists: the answers of each call, the clauses of row 8 that can stand alone, and the stores of each kind of pending
//! operation at which a script asks `n` and at which it mounts (a cut).

use std::collections::BTreeMap;
use std::fmt;

use crate::fresh::{not_fresh, Part};
use crate::plan::plan;
use crate::script::probe::Session;
use crate::state::{Operation, State};
use crate::validity::{broken_clauses, Clause};

/// Each call and every answer that documents 01 and 02 let it give, in the order in which its rows come; 0 is taken. Row 16 is
/// nobody's (L5).
pub const ANSWERS: &[(char, &[u8])] = &[
    ('F', &[3, 4, 0]),
    ('M', &[1, 2, 3, 4, 5, 6, 7, 0]),
    ('E', &[1, 2, 3, 4, 5, 6, 7, 11, 0]),
    ('B', &[8, 9, 11, 29, 12, 0]),
    ('A', &[8, 9, 11, 13, 23, 0]),
    ('V', &[8, 9, 11, 28, 29, 0]),
    ('W', &[8, 4, 9, 11, 13, 30, 23, 14, 15, 0]),
    ('C', &[8, 4, 9, 11, 13, 23, 19, 0]),
    ('D', &[8, 4, 9, 11, 23, 17, 18, 19, 0]),
    ('X', &[8, 4, 9, 23, 22, 19, 0]),
    ('P', &[8, 4, 9, 0]),
    ('I', &[8, 4, 9, 11, 29, 13, 23, 19, 0]),
    ('J', &[8, 4, 9, 11, 24, 0]),
    ('Z', &[8, 4, 9, 11, 24, 0]),
    ('K', &[8, 4, 9, 29, 20, 26, 12, 23, 14, 15, 21, 19, 0]),
    ('l', &[8, 4, 9, 25, 26, 27, 0]),
    ('R', &[8, 4, 9, 11, 0]),
    ('S', &[8, 4, 10, 0]),
    ('N', &[8, 4, 10, 0]),
    ('n', &[8, 4, 10, 0]),
    // the calls in place
    ('b', &[8, 9, 11, 29, 12, 0]),
    ('a', &[8, 9, 11, 13, 23, 0]),
    ('v', &[8, 9, 11, 28, 29, 0]),
    ('w', &[8, 4, 9, 11, 13, 30, 23, 14, 15, 0]),
    ('c', &[8, 4, 9, 11, 13, 23, 19, 0]),
    ('d', &[8, 4, 9, 11, 23, 17, 18, 19, 0]),
    ('p', &[8, 4, 9, 0]),
];

/// The clauses of row 8 but those on the pending operation.
pub const CLAUSES: &[Clause] = &[
    Clause::PZero,
    Clause::PAbove,
    Clause::SZero,
    Clause::SAbove,
    Clause::JBelowS,
    Clause::JAbove,
    Clause::LAbove,
    Clause::HeadBeyond,
    Clause::TailBeyond,
    Clause::OverJLive,
    Clause::SlotShape,
    Clause::PageTwice,
    Clause::EntryNotOriginal,
    Clause::FrameNotOnce,
    Clause::HeldTwice,
    Clause::HeldByClosed,
    Clause::HeldInFree,
    Clause::NextSlot,
    Clause::LastNotLive,
    Clause::LastTwice,
    Clause::PreparedClosed,
    Clause::PreparedNoRoom,
    Clause::EntriesAbove,
    Clause::EntryOutside,
    Clause::EntryTwice,
    Clause::WideClosed,
    Clause::WidePrepared,
    Clause::WideBesideHeld,
    Clause::WideBesideOpen,
];

/// Of each kind of pending operation the rows from 11 on that row 8 asks again. Of a wide write 13 is that there is no wide
/// writer; one who is closed is a clause of its own. A checkpoint has no rows, a copying beside its writer none that could apply.
pub const PENDING_ROWS: &[(u64, &[u8])] = &[
    (1, &[11, 13, 23, 14, 15]),
    (2, &[11, 13, 23, 19]),
    (3, &[11, 23, 17, 18, 19]),
    (5, &[29, 20, 12, 23, 14, 15, 19]),
    (6, &[11, 29, 13, 23, 19]),
    (7, &[11, 24]),
    (8, &[11, 13, 30]),
];

/// The parts of a state that can be other than fresh beside a pending format while all else is. A last position needs a live
/// record, a held line, a prepared and a wide writer an open one.
pub const NOT_FRESH: &[Part] =
    &[Part::HeadAndTail, Part::NextSlot, Part::Slots, Part::Map, Part::OpenWriters, Part::EntriesUsed];

/// The kinds of pending operations as PROBE.md numbers them.
pub const KINDS: &[(u64, &str)] = &[
    (1, "write"),
    (2, "commit"),
    (3, "consolidate"),
    (4, "checkpoint"),
    (5, "event"),
    (6, "prepare"),
    (7, "confirm"),
    (8, "wide write"),
    (9, "copying"),
    (10, "format"),
];

/// Which store of a pending operation comes next. A confirm has a single store, which is its first and its last.
#[derive(Clone, Copy, Debug, PartialEq, Eq, PartialOrd, Ord)]
pub enum Stage {
    First,
    Middle,
    Last,
}

/// What a script does at a stage.
#[derive(Clone, Copy, Debug, PartialEq, Eq, PartialOrd, Ord)]
pub enum At {
    /// It asks for the next store.
    Told,
    /// It mounts: a cut right before this store.
    Cut,
    /// It steps.
    Stepped,
}

#[derive(Clone, Copy, Debug, PartialEq, Eq, PartialOrd, Ord)]
pub enum Target {
    Answer(char, u8),
    /// Row 8 by this clause and no other.
    Clause(Clause),
    Store(u64, Stage, At),
    /// The same for a copying that a mount returned, whose first store is behind it.
    Returned(Stage, At),
}

/// Everything that must be reached.
pub fn targets() -> Vec<Target> {
    let answers = ANSWERS.iter().flat_map(|(call, rows)| rows.iter().map(|row| Target::Answer(*call, *row)));
    let rows =
        PENDING_ROWS.iter().flat_map(|(kind, rows)| rows.iter().map(|row| Clause::PendingRow(*kind, *row)));
    let made = KINDS.iter().map(|(kind, _)| Clause::PendingMade(*kind));
    let fresh = NOT_FRESH.iter().map(|part| Clause::NotFresh(*part));
    let clauses = CLAUSES.iter().copied().chain(rows).chain(made).chain(fresh).map(Target::Clause);
    let stages = [Stage::First, Stage::Middle, Stage::Last];
    let all = || stages.into_iter().flat_map(|stage| [At::Told, At::Cut, At::Stepped].map(|at| (stage, at)));
    let stores = KINDS.iter().flat_map(|(kind, _)| all().map(|(stage, at)| Target::Store(*kind, stage, at)));
    let stores = stores.filter(|target| !matches!(target, Target::Store(7, Stage::Middle, _)));
    let returned = all().map(|(stage, at)| Target::Returned(stage, at));
    answers.chain(clauses).chain(stores).chain(returned).collect()
}

/// The targets that a line reaches, by the state before it and what it printed.
pub fn reached(before: &State, printed: &str) -> Vec<Target> {
    let mut fields = printed.split(',').skip(1);
    let call = fields.next().and_then(|field| field.chars().next()).unwrap_or('?');
    let Some(answer) = fields.next().and_then(|field| field.parse::<u8>().ok()) else { return vec![] };
    let mut targets = vec![Target::Answer(call, answer)];
    if answer == 8 {
        targets.extend(alone(before).map(Target::Clause));
    }
    let at = match (call, answer) {
        ('n', 0) => At::Told,
        ('S', 0) => At::Stepped,
        ('M', _) => At::Cut,
        _ => return targets,
    };
    targets.extend(store_targets(before, at));
    targets
}

/// The clause that breaks a state, if it is a single one.
pub fn alone(state: &State) -> Option<Clause> {
    match broken_clauses(state)[..] {
        [Clause::NotFresh(part)] => (not_fresh(state) == [part]).then_some(Clause::NotFresh(part)),
        [clause] => Some(clause),
        _ => None,
    }
}

/// At which store a right state's pending operation stands.
fn store_targets(state: &State, at: At) -> Vec<Target> {
    let Some(pending) = state.pending.as_ref().filter(|_| broken_clauses(state).is_empty()) else {
        return vec![];
    };
    let kind = pending.operation.kind();
    let returned = pending.operation == Operation::Copying && state.wide.writer.is_none();
    let (first, last) = (u64::from(returned), plan(state, &pending.operation).len() as u64 - 1);
    let stages = [
        (Stage::First, pending.made == first),
        (Stage::Middle, first < pending.made && pending.made < last),
        (Stage::Last, pending.made == last),
    ];
    let target = |stage| if returned { Target::Returned(stage, at) } else { Target::Store(kind, stage, at) };
    stages.into_iter().filter(|(_, here)| *here).map(|(stage, _)| target(stage)).collect()
}

/// How often each target was reached.
#[derive(Default)]
pub struct Reached(BTreeMap<Target, u64>);

impl Reached {
    /// Plays a script once more and counts.
    pub fn add(&mut self, script: &[u8]) {
        let mut session = Session::default();
        for line in crate::script::lines::lines(script) {
            let before = session.state().clone();
            let printed = session.turn(line);
            for target in reached(&before, &printed) {
                *self.0.entry(target).or_default() += 1;
            }
        }
    }

    pub fn missing(&self) -> Vec<Target> {
        targets().into_iter().filter(|target| !self.0.contains_key(target)).collect()
    }
}

/// How many of each list, and the least often reached one.
impl fmt::Display for Reached {
    fn fmt(&self, f: &mut fmt::Formatter) -> fmt::Result {
        let count = |target: &Target| self.0.get(target).copied().unwrap_or(0);
        let list = |name, of: fn(&Target) -> bool| {
            let targets: Vec<Target> = targets().into_iter().filter(of).collect();
            let seen = targets.iter().filter(|target| count(target) > 0).count();
            let least = targets.iter().min_by_key(|target| count(target)).expect("no list is empty");
            (name, seen, targets.len(), *least, count(least))
        };
        let lists = [
            list("answers of calls", |target| matches!(target, Target::Answer(..))),
            list("clauses of row 8 alone", |target| matches!(target, Target::Clause(_))),
            list("stores of pending operations", |target| {
                matches!(target, Target::Store(..) | Target::Returned(..))
            }),
        ];
        for (name, seen, all, least, count) in lists {
            writeln!(f, "reached {seen} of {all} {name}; least often, {count} times: {least:?}")?;
        }
        Ok(())
    }
}
