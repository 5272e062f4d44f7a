//! Text files that people write, and numbers as people read them.

use crate::{read_within, Failure};
use std::path::Path;

/// The text of a file of at most `limit` bytes. `what` says what such a file has, for an error.
pub fn read(path: &Path, limit: usize, what: &str) -> Result<String, Failure> {
    let bytes = read_within(path, limit)?;
    if bytes.len() > limit {
        let wrong = format!("longer than {limit} bytes, the most that a file of {what} has");
        return Err(Failure::about(path, wrong));
    }
    String::from_utf8(bytes).map_err(|error| {
        let place = error.utf8_error().valid_up_to();
        Failure::about(path, format!("not a text: byte {place} is not UTF-8"))
    })
}

/// A line without its comment, which begins with `#`.
pub fn uncommented(line: &str) -> &str {
    line.split_once('#').map_or(line, |(before, _)| before)
}

/// The start of a word, if it is long.
pub fn cut(word: &str) -> String {
    match word.char_indices().nth(20) {
        Some((end, _)) => format!("{}..", &word[..end]),
        None => word.into(),
    }
}

/// A number with a comma before every three digits.
pub fn grouped(number: usize) -> String {
    let digits = number.to_string();
    let mut grouped = String::new();
    for (k, digit) in digits.chars().enumerate() {
        if k > 0 && (digits.len() - k) % 3 == 0 {
            grouped.push(',');
        }
        grouped.push(digit);
    }
    grouped
}

/// How many of something there are, by its name in the singular.
pub fn counted(number: usize, name: &str) -> String {
    let ending = if number == 1 { "" } else { "s" };
    format!("{} {name}{ending}", grouped(number))
}

#[cfg(test)]
mod tests {
    use super::*;

    #[test]
    fn groups_of_three_digits() {
        for (number, shown) in [
            (0, "0"),
            (999, "999"),
            (1_000, "1,000"),
            (99_999, "99,999"),
            (1_099_000, "1,099,000"),
        ] {
            assert_eq!(grouped(number), shown);
        }
        assert_eq!(counted(1, "turn"), "1 turn");
        assert_eq!(counted(0, "turn"), "0 turns");
        assert_eq!(counted(1_000, "print"), "1,000 prints");
    }

    #[test]
    fn words_without_comments() {
        assert_eq!(uncommented("1 2 # 3 # 4"), "1 2 ");
        assert_eq!(uncommented("#"), "");
        assert_eq!(uncommented("1 2"), "1 2");
        assert_eq!(cut(&"é".repeat(20)), "é".repeat(20));
        assert_eq!(cut(&"é".repeat(21)), "é".repeat(20) + "..");
    }
}
