//! Holds another program against the model on random scripts.

use std::collections::BTreeMap;
use std::env;
use std::path::PathBuf;
use std::process::ExitCode;

use model::compare::coverage::Coverage;
use model::compare::program::Program;
use model::compare::reach::Reached;
use model::compare::shrink::shrink;
use model::compare::Kind;
use model::script::lines::lines;

const USAGE: &str =
    "compare --kind powerhit|probe|wear [--program PATH] --scripts N --calls M --seed S [--skip-recall]
  N scripts of at most M lines or so are made from seed S; without a program only the coverage is printed";

struct Wanted {
    kind: Kind,
    program: Option<Program>,
    scripts: u64,
    calls: u64,
    seed: u64,
    skip_recall: bool,
}

fn main() -> ExitCode {
    let Some(wanted) = wanted(env::args().skip(1).collect()) else {
        eprintln!("{USAGE}");
        return ExitCode::from(2);
    };
    let (mut coverage, mut reached) = (Coverage::default(), Reached::default());
    for index in 0..wanted.scripts {
        let script = wanted.kind.script(wanted.seed, index, wanted.calls);
        coverage.add(wanted.kind, &wanted.kind.model(&script));
        if wanted.kind == Kind::Probe {
            reached.add(&script);
        }
        if let Some(difference) = wanted.difference(&script) {
            println!("script {index} of seed {} differs: {difference}", wanted.seed);
            wanted.report(&script);
            return ExitCode::from(1);
        }
    }
    print!("{coverage}");
    let mut missing: Vec<String> =
        coverage.missing(wanted.kind).iter().map(|(call, answer)| format!("{call} {answer}")).collect();
    if wanted.kind == Kind::Probe {
        print!("{reached}");
        missing = reached.missing().iter().map(|target| format!("{target:?}")).collect();
    }
    if missing.is_empty() {
        return ExitCode::SUCCESS;
    }
    println!("not reached: {}", missing.join(", "));
    ExitCode::from(3)
}

/// None where an argument is missing, unknown or wrong.
fn wanted(arguments: Vec<String>) -> Option<Wanted> {
    let mut skip_recall = false;
    let mut values: BTreeMap<String, String> = BTreeMap::new();
    let mut arguments = arguments.into_iter();
    while let Some(name) = arguments.next() {
        if name == "--skip-recall" {
            skip_recall = true;
        } else {
            values.insert(name, arguments.next()?);
        }
    }
    let mut number = |name: &str| values.remove(name)?.parse::<u64>().ok();
    let (scripts, calls, seed) = (number("--scripts")?, number("--calls")?, number("--seed")?);
    let kind = Kind::from_name(&values.remove("--kind")?)?;
    let program = values.remove("--program").map(|path| Program { path: PathBuf::from(path) });
    let all_known = values.is_empty() && calls > 0;
    all_known.then_some(Wanted { kind, program, scripts, calls, seed, skip_recall })
}

impl Wanted {
    /// Where the other program parts from the model on a script, if it does.
    fn difference(&self, script: &[u8]) -> Option<String> {
        let ended = match self.program.as_ref()?.run(script) {
            Ok(ended) => ended,
            Err(error) => {
                eprintln!("the program could not be run: {error}");
                std::process::exit(2);
            }
        };
        let ours = self.kind.model(script);
        let (ours, theirs) = (self.kept(&ours, &ours), self.kept(&ended.printed, &ours));
        if ours == theirs {
            return (!ended.well).then(|| "the program ended badly".to_string());
        }
        let at = (0..).find(|&i| ours.get(i) != theirs.get(i)).unwrap_or(0);
        let show = |lines: &[&[u8]]| match lines.get(at) {
            Some(line) => readable(line),
            None => "(no line)".to_string(),
        };
        Some(format!("\n  model    {}\n  program  {}", show(&ours), show(&theirs)))
    }

    /// The printed lines, without those of recall where they are left out. Which lines these are
    /// is the model's word, so that both lose the same ones.
    fn kept<'a>(&self, printed: &'a [u8], ours: &[u8]) -> Vec<&'a [u8]> {
        let is_recall = |line: &[u8]| line.split(|&byte| byte == b',').nth(1) == Some(b"E");
        let recalls: Vec<bool> = ours.split(|&byte| byte == b'\n').map(is_recall).collect();
        let lines = printed.split(|&byte| byte == b'\n').enumerate();
        lines
            .filter(|(i, _)| !(self.skip_recall && recalls.get(*i) == Some(&true)))
            .map(|(_, line)| line)
            .collect()
    }

    fn report(&self, script: &[u8]) {
        let short = shrink(script, &mut |script| self.difference(script).is_some());
        let difference = self.difference(&short).unwrap_or_default();
        println!("the shortest script found that shows a difference: {difference}");
        for line in lines(&short) {
            println!("{}", readable(line));
        }
        if short.is_empty() {
            println!("(an empty input)");
        } else if !short.ends_with(b"\n") {
            println!("(its last line has no newline)");
        }
    }
}

/// Printable bytes as they are, others escaped.
fn readable(line: &[u8]) -> String {
    line.escape_ascii().to_string()
}
