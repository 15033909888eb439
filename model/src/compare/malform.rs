//! Lines of another form, made from a right one; now and then the change leaves it right (leading zeros).

use super::rng::Rng;

pub fn malform(rng: &mut Rng, line: &[u8], digits: usize) -> Vec<u8> {
    match rng.below(9) {
        0 | 1 => junk(rng),
        2 | 3 => with_byte(rng, line),
        4 | 5 => with_field(rng, line, digits),
        6 | 7 => with_other_count(rng, line),
        _ => [line, rng.pick(&[b"\r", b" ", b","])].concat(),
    }
}

/// Not made from any line.
fn junk(rng: &mut Rng) -> Vec<u8> {
    match rng.below(9) {
        0 => vec![],
        1 => b" ".to_vec(),
        2 => b"\r".to_vec(),
        3 => b",".to_vec(),
        4 => b"?".to_vec(),
        5 => (0..rng.between(1, 20)).map(|_| rng.below(256) as u8).filter(|&b| b != b'\n').collect(),
        6 => vec![rng.pick(b"9,WF\xff "); rng.pick(&[700, 1_500, 5_000])],
        7 => long_write(rng, 65),
        _ => long_write(rng, 64),
    }
}

/// A write with so many bytes; one byte may be 256.
fn long_write(rng: &mut Rng, bytes: u64) -> Vec<u8> {
    let mut line = b"W,0,0,0,0,1".to_vec();
    let last = rng.pick(&["255", "255", "256", "0255"]);
    for i in 0..bytes {
        line.extend(if i + 1 == bytes { format!(",{last}") } else { ",7".to_string() }.bytes());
    }
    line
}

/// One byte more, less or other.
fn with_byte(rng: &mut Rng, line: &[u8]) -> Vec<u8> {
    let mut line = line.to_vec();
    let odd = rng.pick(b" \t\r,,+-.0az\0\x7f\xb2\xff\"");
    match rng.below(5) {
        0 => line.push(odd),
        1 => line.insert(0, odd),
        2 => line.insert(rng.below(line.len() as u64 + 1) as usize, odd),
        3 if !line.is_empty() => {
            line.remove(rng.below(line.len() as u64) as usize);
        }
        _ => line.make_ascii_lowercase(),
    }
    line
}

/// One field replaced by a number too long, too large, or of no number's form.
fn with_field(rng: &mut Rng, line: &[u8], digits: usize) -> Vec<u8> {
    let mut fields: Vec<Vec<u8>> = line.split(|&byte| byte == b',').map(<[u8]>::to_vec).collect();
    let at = rng.below(fields.len() as u64) as usize;
    let zeros = |n: usize| [&b"0".repeat(n)[..], &b"1"[..]].concat();
    fields[at] = match rng.below(8) {
        0 => b"9".repeat(digits + 1),
        1 => b"9".repeat(digits),
        2 => zeros(digits),
        3 => zeros(digits - 1),
        4 => b"18446744073709551616".to_vec(),
        5 => b"18446744073709551615".to_vec(),
        6 => vec![],
        _ => {
            rng.pick(&[&b"256"[..], b"65536", b"65537", b"8192", b"129", b"4294967296", b"-1", b"x"]).to_vec()
        }
    };
    fields.join(&b',')
}

/// A field more or less.
fn with_other_count(rng: &mut Rng, line: &[u8]) -> Vec<u8> {
    let mut fields: Vec<&[u8]> = line.split(|&byte| byte == b',').collect();
    match rng.below(3) {
        0 => fields.push(b"0"),
        1 if fields.len() > 1 => {
            fields.pop();
        }
        _ => fields.insert(rng.below(fields.len() as u64 + 1) as usize, b"1"),
    }
    fields.join(&b',')
}
