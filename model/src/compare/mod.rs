//! Random scripts, and holding another program against the model.
//!
//! - `rng`: the numbers behind every choice
//! - `scribe`: a script as it grows, beside the model's own session, so that choices can follow the state
//! - `aim`: sensible arguments for the state at hand, and some that are not
//! - `malform`: lines of another form
//! - `powerhit_scripts`, `probe`, `wear_scripts`: the generators
//! - `reach`: what probe's scripts must reach
//! - `coverage`: how often each answer was seen
//! - `program`, `shrink`: running the other program, and the shortest script that shows a difference

pub mod aim;
pub mod coverage;
pub mod malform;
pub mod powerhit_scripts;
pub mod probe;
pub mod program;
pub mod reach;
pub mod rng;
pub mod scribe;
pub mod shrink;
mod wear_scripts;

use crate::script::{powerhit, probe as probe_program, wear};
use rng::Rng;

#[derive(Clone, Copy, Debug, PartialEq, Eq)]
pub enum Kind {
    Powerhit,
    Probe,
    Wear,
}

impl Kind {
    pub fn from_name(name: &str) -> Option<Kind> {
        match name {
            "powerhit" => Some(Kind::Powerhit),
            "probe" => Some(Kind::Probe),
            "wear" => Some(Kind::Wear),
            _ => None,
        }
    }

    /// What the model prints for a script.
    pub fn model(self, script: &[u8]) -> Vec<u8> {
        match self {
            Kind::Powerhit => powerhit::powerhit(script),
            Kind::Probe => probe_program::probe(script),
            Kind::Wear => wear::wear(script),
        }
    }

    /// Script number `index` of a seed, of at most `calls` lines or so.
    pub fn script(self, seed: u64, index: u64, calls: u64) -> Vec<u8> {
        let mut rng = Rng::new(seed, index);
        let short = rng.percent(25);
        let lines = if short { rng.between(1, calls.min(12)) } else { rng.between(calls.div_ceil(2), calls) };
        match self {
            Kind::Powerhit => powerhit_scripts::script(rng, lines as usize),
            Kind::Probe => probe::script(rng, index, lines as usize),
            Kind::Wear => wear_scripts::script(rng, lines as usize),
        }
    }
}
