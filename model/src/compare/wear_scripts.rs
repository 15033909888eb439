//! Scripts for wear_by_frame: powerhit's own, parted by lines `=` and by some that are nearly so.

use super::powerhit_scripts;
use super::rng::Rng;

const NEARLY: [&[u8]; 6] = [b"=,", b" =", b"= ", b"==", b"=\r", b""];

pub fn script(mut rng: Rng, lines: usize) -> Vec<u8> {
    let inputs = rng.between(1, 4) as usize;
    let mut script = vec![];
    for i in 0..inputs {
        let part = Rng::new(rng.between(0, u64::MAX / 2), i as u64);
        script.extend(powerhit_scripts::script(part, lines.div_ceil(inputs)));
        if !script.ends_with(b"\n") && !script.is_empty() {
            script.push(b'\n');
        }
        if i + 1 < inputs || rng.percent(10) {
            let nearly = rng.percent(15);
            script.extend(if nearly { NEARLY[rng.between(0, 5) as usize] } else { b"=" });
            script.extend(if rng.percent(97) { &b"\n"[..] } else { b"" });
        }
    }
    script
}
