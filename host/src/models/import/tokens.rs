//! A text in C, cut into its words and marks. Comments, quotations, directives and what stands between `#if` and
//! `#endif` are passed over.

use super::number::is_space;
use crate::error::{Error, Result};

/// A word, or one byte that belongs to none.
#[derive(Clone, Copy)]
pub struct Token<'a> {
    pub text: &'a [u8],
    pub line: usize,
}

pub fn is_word(byte: u8) -> bool {
    byte.is_ascii_alphanumeric() || byte == b'_' || byte == b'.'
}

/// What is left of a text that is cut into tokens.
struct Rest<'a> {
    text: &'a [u8],
    at: usize,
    line: usize,
    /// Whether nothing but white space and comments stands before this on its line.
    fresh: bool,
    /// How many `#if` are not ended.
    within: usize,
}

impl<'a> Rest<'a> {
    fn begins(&self, with: &[u8]) -> bool {
        self.text[self.at..].starts_with(with)
    }

    /// Goes on by so many bytes.
    fn pass(&mut self, bytes: usize) -> &'a [u8] {
        let passed = &self.text[self.at..][..bytes];
        self.line += passed.iter().filter(|byte| **byte == b'\n').count();
        self.at += bytes;
        passed
    }

    fn comment(&mut self) -> Result<()> {
        let behind = &self.text[self.at + 2..];
        let Some(length) = behind.windows(2).position(|pair| pair == b"*/") else {
            return Err(Error::undone(format!("line {}: a comment begins and does not end", self.line)));
        };
        self.pass(length + 4);
        Ok(())
    }

    /// Whether something is left on this line.
    fn on_line(&self) -> bool {
        self.at < self.text.len() && !self.begins(b"\n")
    }

    /// One byte of a line; behind a backslash at its end the line goes on.
    fn pass_on_line(&mut self) {
        let joined = [&b"\\\r\n"[..], b"\\\n"].into_iter().find(|end| self.begins(end));
        self.pass(joined.map_or(1, <[u8]>::len));
    }

    fn line_comment(&mut self) {
        while self.on_line() {
            self.pass_on_line();
        }
    }

    fn directive(&mut self) -> Result<()> {
        self.pass(1);
        let name = self.text[self.at..].iter().copied().skip_while(|byte| matches!(byte, b' ' | b'\t'));
        let name: Vec<u8> = name.take_while(|byte| is_word(*byte)).take(6).collect();
        if name.starts_with(b"if") {
            self.within += 1;
        } else if name == b"endif" {
            self.within = self.within.saturating_sub(1);
        }
        while self.on_line() {
            if self.begins(b"/*") {
                self.comment()?;
            } else if self.begins(b"//") {
                self.line_comment();
            } else {
                self.pass_on_line();
            }
        }
        Ok(())
    }

    /// A quoted text or character, on one line.
    fn quoted(&mut self, quote: u8) -> Result<()> {
        let line = self.line;
        self.pass(1);
        while let Some(byte) = self.text.get(self.at).filter(|byte| **byte != b'\n') {
            let escaped = *byte == b'\\' && self.at + 1 < self.text.len();
            self.pass(if escaped { 2 } else { 1 });
            if *byte == quote {
                return Ok(());
            }
        }
        Err(Error::undone(format!("line {line}: a quotation begins and does not end")))
    }

    /// Passes over one thing, and hands out what is a token and counts.
    fn next(&mut self) -> Result<Option<Token<'a>>> {
        let (byte, line) = (self.text[self.at], self.line);
        let fresh = std::mem::replace(&mut self.fresh, false);
        if is_space(byte) {
            self.pass(1);
            self.fresh = fresh || byte == b'\n';
        } else if self.begins(b"/*") {
            self.comment()?;
            self.fresh = fresh;
        } else if self.begins(b"//") {
            self.line_comment();
        } else if byte == b'#' && fresh {
            self.directive()?;
        } else if byte == b'"' || byte == b'\'' {
            self.quoted(byte)?;
        } else {
            let length = self.text[self.at..].iter().take_while(|byte| is_word(**byte)).count();
            let text = self.pass(length.max(1));
            return Ok(Some(Token { text, line }).filter(|_| self.within == 0));
        }
        Ok(None)
    }
}

pub fn tokens(text: &[u8]) -> Result<Vec<Token<'_>>> {
    let mut rest = Rest { text, at: 0, line: 1, fresh: true, within: 0 };
    let mut found = Vec::new();
    while rest.at < text.len() {
        found.extend(rest.next()?);
    }
    Ok(found)
}

#[cfg(test)]
mod tests {
    use super::*;

    fn cut(text: &str) -> Result<String> {
        let words = tokens(text.as_bytes())?;
        Ok(words
            .iter()
            .map(|token| format!("{}:{}", token.line, token.text.escape_ascii()))
            .collect::<Vec<_>>()
            .join(" "))
    }

    #[test]
    fn what_counts() {
        for (text, wanted) in [
            ("a[3]={-1,\n2}", "1:a 1:[ 1:3 1:] 1:= 1:{ 1:- 1:1 1:, 2:2 2:}"),
            ("/* a\n * b */ c", "2:c"),
            ("a /**/ b /* * / */ c", "1:a 1:b 1:c"),
            ("a // b\r\nc // d \\\ne\nf", "1:a 2:c 4:f"),
            ("#define a \\\r\n b\nc", "3:c"),
            ("#define a /* b\n c */ d\ne", "3:e"),
            ("a # b", "1:a 1:# 1:b"),
            ("  /* */ # include <a>\nb", "2:b"),
            ("#if 1\na\n#ifdef B\nc\n#endif\nd\n#else\ne\n#endif\nf", "10:f"),
            ("#endif\na", "2:a"),
            ("a \"b \\\" c\" d '\\'' e", "1:a 1:d 1:e"),
            ("", ""),
        ] {
            assert_eq!(cut(text).unwrap(), wanted, "{text}");
        }
        for text in ["a /* b", "/*/", "a\n\"b\nc\"", "'", "\"\\"] {
            assert!(cut(text).is_err(), "{text}");
        }
    }
}
