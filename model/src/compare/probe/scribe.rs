//! A script of probe as it grows. Each line also goes to the model's own session, and what it reached is noted, so that a part of
//! a script can be drafted, looked at, and dropped.

use super::asked::{self, HUGE};
use super::pending::left_open;
use crate::compare::reach::{reached, Target};
use crate::compare::rng::Rng;
use crate::script::probe::Session;
use crate::script::BUFFER;
use crate::state::State;
use crate::validity::is_broken;

/// Lines of these letters set or show something; all others are calls.
const NO_CALLS: &[u8] = b"LYUTOQmkGH";

/// How often a part that is to reach something is drafted.
const DRAFTS: usize = 4_000;

#[derive(Clone)]
pub struct Scribe {
    pub rng: Rng,
    pub session: Session,
    lines: Vec<Vec<u8>>,
    /// What the part under way has reached.
    reached: Vec<Target>,
    /// Whether it called on a state that PROBE.md leaves open.
    left_open: bool,
}

impl Scribe {
    pub fn new(rng: Rng) -> Scribe {
        Scribe { rng, session: Session::default(), lines: vec![], reached: vec![], left_open: false }
    }

    pub fn say(&mut self, line: impl AsRef<[u8]>) {
        let line = line.as_ref();
        let before = self.session.state().clone();
        let is_call = line.first().is_some_and(|letter| !NO_CALLS.contains(letter));
        self.left_open |= is_call && left_open(&before);
        let printed = self.session.turn(line);
        self.reached.extend(reached(&before, &printed));
        self.lines.push(line.to_vec());
    }

    /// A call by its letter, for the state at hand.
    pub fn ask(&mut self, letter: char) {
        let line = asked::line(&mut self.rng, self.session.state(), letter);
        self.say(line);
    }

    pub fn ask_any(&mut self) {
        let line = asked::any(&mut self.rng, self.session.state());
        self.say(line);
    }

    /// A format of a right size or, mostly, of a wrong one.
    pub fn ask_format(&mut self, wrong: bool) {
        let line = asked::format(&mut self.rng, wrong);
        self.say(line);
    }

    pub fn say_all(&mut self, lines: Vec<String>) {
        lines.iter().for_each(|line| self.say(line));
    }

    pub fn state(&self) -> &State {
        self.session.state()
    }

    pub fn length(&self) -> usize {
        self.lines.len()
    }

    /// Adds a part that says nothing on a state left open and, if a target is given, reaches it.
    pub fn part(&mut self, target: Option<Target>, act: impl Fn(&mut Scribe)) -> bool {
        for _ in 0..DRAFTS {
            let mut draft = self.clone();
            (draft.reached, draft.left_open) = (vec![], false);
            act(&mut draft);
            self.rng = draft.rng.clone();
            let reaches = target.is_none_or(|target| draft.reached.contains(&target));
            if reaches && !draft.left_open {
                *self = draft;
                return true;
            }
        }
        false
    }

    /// Runs what is pending to its end.
    pub fn finish(&mut self) {
        if self.state().pending.is_some() {
            self.say(format!("N,{HUGE}"));
        }
    }

    /// Out of a broken state, a short buffer and a copying that a mount returned.
    pub fn mend(&mut self) {
        if self.session.lent() != BUFFER {
            self.say(format!("L,{BUFFER}"));
        }
        if is_broken(self.state()) {
            self.say("M");
        }
        if is_broken(self.state()) {
            self.ask_format(false);
        }
        self.finish();
    }

    /// The script's bytes. Now and then the final newline is left out.
    pub fn script(mut self) -> Vec<u8> {
        let ended = self.rng.percent(90);
        let mut script = self.lines.join(&b'\n');
        if ended && !self.lines.is_empty() {
            script.push(b'\n');
        }
        script
    }
}
