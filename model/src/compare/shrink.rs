//! The shortest script that still shows a difference: first without lines, then with smaller numbers.

use crate::script::lines;

/// How often the other program may be run.
const TRIES: usize = 4_000;

type Lines = Vec<Vec<u8>>;

struct Shrinker<'a> {
    differs: &'a mut dyn FnMut(&[u8]) -> bool,
    tries: usize,
    /// Whether the last line is ended by a newline.
    ended: bool,
}

pub fn shrink(script: &[u8], differs: &mut dyn FnMut(&[u8]) -> bool) -> Vec<u8> {
    let mut best: Lines = lines::lines(script).into_iter().map(<[u8]>::to_vec).collect();
    let mut shrinker = Shrinker { differs, tries: TRIES, ended: script.ends_with(b"\n") };
    shrinker.end_last_line(&best);
    loop {
        let before = best.clone();
        shrinker.drop_lines(&mut best);
        shrinker.lessen_lines(&mut best);
        if best == before {
            return shrinker.joined(&best);
        }
    }
}

impl Shrinker<'_> {
    fn joined(&self, lines: &Lines) -> Vec<u8> {
        let mut script = lines.join(&b'\n');
        if self.ended && !lines.is_empty() {
            script.push(b'\n');
        }
        script
    }

    fn end_last_line(&mut self, best: &Lines) {
        let was = self.ended;
        self.ended = true;
        self.ended = was || self.still_differs(best);
    }

    fn still_differs(&mut self, lines: &Lines) -> bool {
        if self.tries == 0 {
            return false;
        }
        self.tries -= 1;
        let script = self.joined(lines);
        (self.differs)(&script)
    }

    /// Drops runs of lines, long ones first.
    fn drop_lines(&mut self, best: &mut Lines) {
        let mut run = best.len().div_ceil(2);
        while run > 0 {
            let mut at = 0;
            while at < best.len() {
                let mut shorter = best.clone();
                shorter.drain(at..(at + run).min(best.len()));
                if self.still_differs(&shorter) {
                    *best = shorter;
                } else {
                    at += run;
                }
            }
            run /= 2;
        }
    }

    fn lessen_lines(&mut self, best: &mut Lines) {
        for at in 0..best.len() {
            while let Some(less) = smaller(&best[at]).into_iter().find(|line| {
                let mut lines = best.clone();
                lines[at] = line.clone();
                self.still_differs(&lines)
            }) {
                best[at] = less;
            }
        }
    }
}

/// Forms of a line that are smaller: shorter, or with a smaller number in one field.
fn smaller(line: &[u8]) -> Lines {
    let fields: Vec<&[u8]> = line.split(|&byte| byte == b',').collect();
    let mut forms: Lines = vec![];
    if fields.len() > 6 {
        forms.extend([6, fields.len() / 2, fields.len() - 1].map(|n| fields[..n.max(6)].join(&b',')));
    }
    if line.len() > 40 {
        forms.push(line[..line.len() / 2].to_vec());
    }
    for (at, field) in fields.iter().enumerate().skip(1) {
        let Some(value) = lines::number(field, 20) else { continue };
        for less in [0, 1, value / 2, value.saturating_sub(1)] {
            let digits = less.to_string();
            if less < value || (less == value && digits.len() < field.len()) {
                let mut changed = fields.clone();
                changed[at] = digits.as_bytes();
                forms.push(changed.join(&b','));
            }
        }
    }
    forms
}

#[cfg(test)]
mod tests {
    use super::*;

    #[test]
    fn lines_and_numbers_that_do_not_matter_go() {
        let script = b"F,2,1,2\nB,0\nW,0,1,00005,7,9,1,2,3\nB,1\nC,0\nR,9,9,9,9";
        let mut differs = |script: &[u8]| {
            let text = String::from_utf8_lossy(script).to_string();
            let fits = |line: &str| {
                line.starts_with('W')
                    && line.split(',').nth(3).is_some_and(|n| n.parse::<u64>().is_ok_and(|n| n >= 3))
            };
            let writes = text.lines().any(fits);
            writes && text.contains("B,1")
        };
        assert_eq!(shrink(script, &mut differs), b"W,0,0,3,0,0\nB,1\n");
    }
}
