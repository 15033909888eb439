//! Which wrong rules the scripts of the gate show: seen SCRIPTS CALLS SEED LEAST. Each rule is put into the model alone, and what
//! it prints is held to what the right model prints. Exit status 1 where fewer than LEAST are seen.

use std::panic;
use std::process::ExitCode;

use model::compare::Kind;
use model::mutant;
use model::script::probe::probe;

const RULES: &[(u64, &str)] = include!("rules.in");

fn main() -> ExitCode {
    let numbers: Vec<u64> = std::env::args().skip(1).map(|field| field.parse().expect("a number")).collect();
    let [scripts, calls, seed, least] = numbers[..] else { panic!("seen SCRIPTS CALLS SEED LEAST") };
    let scripts: Vec<Vec<u8>> = (0..scripts).map(|index| Kind::Probe.script(seed, index, calls)).collect();
    let right: Vec<Option<Vec<u8>>> = scripts.iter().map(|script| printed(script)).collect();
    // a wrong rule may also end the program
    panic::set_hook(Box::new(|_| {}));
    let mut unseen = vec![];
    println!("rule  scripts  first  what it misreads");
    for (rule, paper) in RULES {
        mutant::set(*rule);
        let showing: Vec<usize> = (0..scripts.len()).filter(|&i| printed(&scripts[i]) != right[i]).collect();
        let first = showing.first().map_or("-".to_string(), |first| first.to_string());
        println!("{rule:>4}  {:>7}  {first:>5}  {paper}", showing.len());
        if showing.is_empty() {
            unseen.push(rule);
        }
    }
    println!("mutants: {} wrong rules, {} seen; not seen: {unseen:?}", RULES.len(), RULES.len() - unseen.len());
    ExitCode::from(u8::from(RULES.len() - unseen.len() < least as usize))
}

/// What the model prints, or none where it ends badly.
fn printed(script: &[u8]) -> Option<Vec<u8>> {
    panic::catch_unwind(|| probe(script)).ok()
}
