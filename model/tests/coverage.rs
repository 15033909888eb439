//! The generators reach what they are to reach, with as many scripts as the gate makes.

use std::sync::OnceLock;

use model::compare::coverage::Coverage;
use model::compare::probe::left_open;
use model::compare::reach::{targets, Reached};
use model::compare::Kind;
use model::script::lines::lines;
use model::script::probe::Session;

/// As tests/random.sh.
const SEED: u64 = 1;
const SCRIPTS: u64 = 600;
const CALLS: u64 = 80;

/// The gate's scripts of probe, made once for all tests.
fn probe_scripts() -> &'static [Vec<u8>] {
    static MADE: OnceLock<Vec<Vec<u8>>> = OnceLock::new();
    MADE.get_or_init(|| (0..SCRIPTS).map(|index| Kind::Probe.script(SEED, index, CALLS)).collect())
}

#[test]
fn powerhit_scripts_reach_every_answer() {
    let mut coverage = Coverage::default();
    for index in 0..SCRIPTS {
        coverage.add(Kind::Powerhit, &Kind::Powerhit.model(&Kind::Powerhit.script(SEED, index, CALLS)));
    }
    assert_eq!(coverage.missing(Kind::Powerhit), vec![]);
}

#[test]
fn probe_scripts_reach_every_target() {
    let mut reached = Reached::default();
    probe_scripts().iter().for_each(|script| reached.add(script));
    println!("{reached}");
    assert_eq!(reached.missing(), vec![]);
}

/// A script that stops short of something is seen.
#[test]
fn what_is_not_reached_is_said() {
    let mut reached = Reached::default();
    reached.add(b"F,2,1,2\nn\nS\nM\nN,1561\nB,0\n");
    assert_eq!(
        targets().len() - reached.missing().len(),
        9,
        "six answers, and a format told, stepped and cut"
    );
    let none = Reached::default();
    assert_eq!(none.missing(), targets());
}

#[test]
fn scripts_depend_on_the_seed_alone() {
    for kind in [Kind::Powerhit, Kind::Probe] {
        assert_eq!(kind.script(3, 5, CALLS), kind.script(3, 5, CALLS));
        assert_ne!(kind.script(3, 5, CALLS), kind.script(3, 6, CALLS));
        assert_ne!(kind.script(3, 5, CALLS), kind.script(4, 5, CALLS));
    }
}

/// PROBE.md leaves some states open: no script calls on one.
#[test]
fn no_script_calls_on_a_state_left_open() {
    for (index, script) in probe_scripts().iter().enumerate() {
        let mut session = Session::default();
        for line in lines(script) {
            let is_call = line.first().is_some_and(|letter| !b"LYUTOQmkGH".contains(letter));
            assert!(!(is_call && left_open(session.state())), "script {index}");
            session.turn(line);
        }
    }
}
