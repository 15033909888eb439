//! How often each call was given each answer.

use std::collections::BTreeMap;
use std::fmt;

use super::reach::ANSWERS;
use super::Kind;

/// Lines of these letters are calls of the store; the others set or show something.
const CALLS: &str = "FMXBACDPWSNREVIJZKlnbavwcdp";

#[derive(Default)]
pub struct Coverage {
    scripts: u64,
    lines: u64,
    calls: u64,
    /// By answer, then by call. Answers are numbers, or `?` for a line of another form.
    answers: BTreeMap<String, BTreeMap<char, u64>>,
}

impl Coverage {
    /// Counts what the model printed for a script.
    pub fn add(&mut self, kind: Kind, printed: &[u8]) {
        self.scripts += 1;
        let printed = String::from_utf8_lossy(printed);
        let heading = match kind {
            Kind::Powerhit => 1,
            Kind::Probe => 0,
            // the 22 numbers tell no call's answer
            Kind::Wear => {
                self.lines += printed.lines().count() as u64;
                return;
            }
        };
        for line in printed.lines().skip(heading) {
            let mut fields = line.split(',').skip(1);
            let call = fields.next().and_then(|field| field.chars().next()).unwrap_or('?');
            let answer = format!("{:>2}", fields.next().unwrap_or("?"));
            self.lines += 1;
            self.calls += u64::from(CALLS.contains(call));
            *self.answers.entry(answer).or_default().entry(call).or_default() += 1;
        }
    }

    pub fn seen(&self, call: char, answer: u8) -> u64 {
        let calls = self.answers.get(&format!("{answer:>2}"));
        calls.and_then(|calls| calls.get(&call)).copied().unwrap_or(0)
    }

    /// Every answer that a call can give and that was not seen.
    pub fn missing(&self, kind: Kind) -> Vec<(char, u8)> {
        let possible = reachable(kind).iter();
        let all = possible.flat_map(|&(call, answers)| answers.iter().map(move |&answer| (call, answer)));
        all.filter(|&(call, answer)| self.seen(call, answer) == 0).collect()
    }
}

/// The answers that each call can give in a kind of script. In powerhit the state and the image are
/// always right, so rows 1 and 5 to 10 are out of reach, and row 2 for all but a format that is cut.
fn reachable(kind: Kind) -> &'static [(char, &'static [u8])] {
    match kind {
        Kind::Powerhit => &[
            ('F', &[0, 2, 3, 4]),
            ('X', &[0]),
            ('K', &[0]),
            ('B', &[0, 11, 12]),
            ('A', &[0, 11, 13]),
            ('C', &[0, 11, 13, 19]),
            ('D', &[0, 11, 17, 18, 19]),
            ('P', &[0]),
            ('W', &[0, 11, 13, 14, 15]),
            ('R', &[0, 11]),
        ],
        Kind::Probe => ANSWERS,
        // its 22 numbers tell no call's answer
        Kind::Wear => &[],
    }
}

impl fmt::Display for Coverage {
    fn fmt(&self, f: &mut fmt::Formatter) -> fmt::Result {
        writeln!(f, "{} scripts, {} lines printed, {} calls told", self.scripts, self.lines, self.calls)?;
        writeln!(f, "answer   lines  by call")?;
        for (answer, calls) in &self.answers {
            let by_call: Vec<String> = calls.iter().map(|(call, count)| format!("{call} {count}")).collect();
            writeln!(f, "{answer:>6} {:>7}  {}", calls.values().sum::<u64>(), by_call.join("  "))?;
        }
        Ok(())
    }
}
