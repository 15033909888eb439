//! A script as it grows. Each line also goes to the model's own session, so that the next choice can
//! follow the state that the script has led to.

use super::rng::Rng;
use crate::layout::Sizes;
use crate::script::powerhit;
use crate::state::State;

pub trait Session {
    fn turn(&mut self, line: &[u8]);
    /// The state that the script has led to; an empty one if there is none.
    fn state(&self) -> State;
}

impl Session for powerhit::Session {
    fn turn(&mut self, line: &[u8]) {
        powerhit::Session::turn(self, line);
    }

    fn state(&self) -> State {
        powerhit::Session::state(self).cloned().unwrap_or_else(|| State::empty(Sizes::default()))
    }
}

pub struct Scribe<S> {
    pub rng: Rng,
    pub session: S,
    script: Vec<u8>,
    lines: usize,
    limit: usize,
}

impl<S: Session + Default> Scribe<S> {
    pub fn new(rng: Rng, limit: usize) -> Scribe<S> {
        Scribe { rng, session: S::default(), script: vec![], lines: 0, limit }
    }

    pub fn say(&mut self, line: impl AsRef<[u8]>) {
        let line = line.as_ref();
        self.session.turn(line);
        self.script.extend_from_slice(line);
        self.script.push(b'\n');
        self.lines += 1;
    }

    /// Whether the script is as long as it was to be.
    pub fn full(&self) -> bool {
        self.lines >= self.limit
    }

    pub fn state(&self) -> State {
        self.session.state()
    }

    /// The script's bytes. Now and then the final newline is left out.
    pub fn finish(mut self) -> Vec<u8> {
        if self.rng.percent(10) {
            self.script.pop();
        }
        self.script
    }
}
