//! Lines, fields and numbers. No quoting: a comma parts fields, a newline ends a line, and every
//! other byte that is not a digit has no place in a number.

/// The lines of an input. A final newline ends the last line and starts none.
pub fn lines(input: &[u8]) -> Vec<&[u8]> {
    let mut pieces: Vec<&[u8]> = input.split(|&byte| byte == b'\n').collect();
    if pieces.last().is_some_and(|piece| piece.is_empty()) {
        pieces.pop();
    }
    pieces
}

/// A line's letter and its numbers of at most `digits` digits, or none for a line of another form.
pub fn letter_and_numbers(line: &[u8], digits: usize) -> Option<(u8, Vec<u64>)> {
    let mut fields = line.split(|&byte| byte == b',');
    let &[letter] = fields.next()? else { return None };
    let numbers = fields.map(|field| number(field, digits)).collect::<Option<Vec<u64>>>()?;
    Some((letter, numbers))
}

/// 1 to `digits` decimal digits (at most 38, so that u128 has room), of worth at most 2^64−1.
pub fn number(field: &[u8], digits: usize) -> Option<u64> {
    let right = (1..=digits).contains(&field.len()) && field.iter().all(u8::is_ascii_digit);
    if !right {
        return None;
    }
    let value = field.iter().fold(0u128, |sum, &digit| 10 * sum + u128::from(digit - b'0'));
    u64::try_from(value).ok()
}

/// A write's bytes: at most 64 numbers, each at most 255.
pub fn data(numbers: &[u64]) -> Option<Vec<u8>> {
    if numbers.len() > 64 {
        return None;
    }
    numbers.iter().map(|&number| u8::try_from(number).ok()).collect()
}

#[cfg(test)]
mod tests {
    use super::*;

    #[test]
    fn a_final_newline_starts_no_line() {
        assert_eq!(lines(b"").len(), 0);
        assert_eq!(lines(b"\n"), vec![b""]);
        assert_eq!(lines(b"P"), vec![b"P"]);
        assert_eq!(lines(b"P\n"), vec![b"P"]);
        assert_eq!(lines(b"P\n\n"), vec![&b"P"[..], b""]);
        assert_eq!(lines(b"\n\nP"), vec![&b""[..], b"", b"P"]);
    }

    #[test]
    fn numbers_have_digits_alone_and_not_too_many() {
        assert_eq!(number(b"0", 9), Some(0));
        assert_eq!(number(b"000000012", 9), Some(12));
        assert_eq!(number(b"999999999", 9), Some(999_999_999));
        assert_eq!(number(b"18446744073709551615", 20), Some(u64::MAX));
        for wrong in ["", "1234567890", "0000000000", "+1", "-1", " 1", "1 ", "1\r", "0x1", "1.0", "\u{661}"]
        {
            assert_eq!(number(wrong.as_bytes(), 9), None, "{wrong:?}");
        }
        assert_eq!(number(b"18446744073709551616", 20), None);
        assert_eq!(number(b"99999999999999999999", 20), None);
        assert_eq!(number(b"000000000000000000001", 20), None, "21 digits");
    }

    #[test]
    fn a_line_is_one_letter_and_numbers() {
        assert_eq!(letter_and_numbers(b"P", 9), Some((b'P', vec![])));
        assert_eq!(letter_and_numbers(b"F,2,01,2", 9), Some((b'F', vec![2, 1, 2])));
        for wrong in [&b""[..], b",", b"P,", b"BB,0", b",B,0", b"B,0,", b"B,,0", b"B;0", b"B,\xb2"] {
            assert_eq!(letter_and_numbers(wrong, 9), None, "{wrong:?}");
        }
        assert_eq!(letter_and_numbers(b"\xff,1", 9), Some((0xff, vec![1])), "no letter of a call");
    }

    #[test]
    fn data_are_up_to_64_bytes() {
        assert_eq!(data(&[]), Some(vec![]));
        assert_eq!(data(&[0, 255]), Some(vec![0, 255]));
        assert_eq!(data(&[256]), None);
        assert_eq!(data(&[7; 64]).map(|bytes| bytes.len()), Some(64));
        assert_eq!(data(&[7; 65]), None);
    }
}
