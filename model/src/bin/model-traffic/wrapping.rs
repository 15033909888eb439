//! Text in lines that a document may have.

/// The longest line of a document, in bytes.
const WIDTH: usize = 120;

/// The text's words in lines, each line but the first behind an indent.
pub fn wrapped(text: &str, indent: &str) -> String {
    let mut lines = vec![String::new()];
    for word in text.split_whitespace() {
        let line = lines.last_mut().expect("there is a line");
        if line.is_empty() {
            *line = word.to_string();
        } else if line.len() + 1 + word.len() <= WIDTH {
            *line += &format!(" {word}");
        } else {
            lines.push(format!("{indent}{word}"));
        }
    }
    lines.join("\n")
}

#[cfg(test)]
mod tests {
    use super::*;

    #[test]
    fn a_line_has_at_most_120_bytes() {
        let words = ["word"; 60].join(" ");
        let lines: Vec<usize> = wrapped(&words, "  ").lines().map(str::len).collect();
        // 24 words make 119 bytes; behind the indent 23 make 116, and one more would make 121
        assert_eq!(lines, [119, 116, 64 + 2]);
    }
}
