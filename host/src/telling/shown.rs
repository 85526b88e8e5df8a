//! Names as they are told to people: what a terminal would obey, or what turns the text around, is shown and not sent.

use std::fmt::Display;
use std::path::Path;

/// Whether a letter steers a terminal, or the direction of the text: a name may be written so that it reads as another.
pub fn steers(letter: char) -> bool {
    letter.is_control()
        || matches!(letter, '\u{61c}' | '\u{200e}' | '\u{200f}' | '\u{2028}'..='\u{202e}' | '\u{2066}'..='\u{2069}')
}

fn escaped(text: &str, keeps: impl Fn(char) -> bool) -> String {
    let mut out = String::with_capacity(text.len());
    for letter in text.chars() {
        match steers(letter) && !keeps(letter) {
            true => out.extend(letter.escape_default()),
            false => out.push(letter),
        }
    }
    out
}

/// A name in one line.
pub fn shown(path: &Path) -> String {
    escaped(&path.to_string_lossy(), |_| false)
}

/// A name as a shell takes it, so that a command with it can be pasted.
pub fn quoted(path: &Path) -> String {
    let path = path.display().to_string();
    let is_plain = path.chars().all(|c| c.is_alphanumeric() || "._/-+,:@%".contains(c)) && !path.starts_with('-');
    match is_plain && !path.is_empty() {
        true => path,
        false => format!("'{}'", path.replace('\'', r"'\''")),
    }
}

/// What is said of a file, in one line.
pub fn line_of(path: &Path, words: impl Display) -> String {
    format!("{}: {words}", shown(path))
}

/// A text whose lines are its own.
pub fn safe(text: &str) -> String {
    escaped(text, |letter| letter == '\n' || letter == '\t')
}

#[cfg(test)]
mod tests {
    use super::*;

    #[test]
    fn what_steers_is_shown() {
        assert_eq!(shown(Path::new("a\u{1b}[31m\nb\t\u{9b}é")), "a\\u{1b}[31m\\nb\\t\\u{9b}é");
        assert_eq!(shown(Path::new("tfel\u{202e}thgir.wav")), "tfel\\u{202e}thgir.wav");
        assert_eq!(safe("one\n\ttwo\u{7}"), "one\n\ttwo\\u{7}");
    }
}
