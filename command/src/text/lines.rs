//! The lines and words of a text, each with its place.

use std::fmt;

use crate::words::on_one_line;

/// What is wrong at a place of a text. Lines and columns count from 1.
#[derive(Clone, Debug, PartialEq, Eq)]
pub struct Problem {
    pub line: usize,
    pub column: usize,
    pub message: String,
}

impl Problem {
    pub fn expected(word: &Word, expected: &str) -> Self {
        let message = match word.text {
            "" => format!("expected {expected}, and the line ends"),
            found => no_utf8(found)
                .unwrap_or_else(|| format!("expected {expected}, found {}", quoted(found))),
        };
        word.problem(message)
    }
}

impl fmt::Display for Problem {
    fn fmt(&self, f: &mut fmt::Formatter<'_>) -> fmt::Result {
        write!(f, "{}:{}: {}", self.line, self.column, self.message)
    }
}

/// That something is no UTF-8, which has been read as this sign.
pub fn no_utf8(found: &str) -> Option<String> {
    let is_wrong = found.contains(char::REPLACEMENT_CHARACTER);
    is_wrong.then(|| {
        format!(
            "expected text in UTF-8, without U+FFFD, found {}",
            quoted(found)
        )
    })
}

/// What was found, as far as a reader wants to see it, without signs that move what is printed.
fn quoted(found: &str) -> String {
    const MOST: usize = 60;
    let start: String = found.chars().take(MOST).collect();
    let more = if start == found { "" } else { ".." };
    format!("\"{}{more}\"", on_one_line(&start))
}

/// All that is wrong with a text, in its order.
pub type Problems = Vec<Problem>;

/// A word and where it stands. The end of a line is a word without letters.
#[derive(Clone, Copy, Debug)]
pub struct Word<'t> {
    pub text: &'t str,
    pub line: usize,
    pub column: usize,
}

impl Word<'_> {
    pub fn problem(&self, message: impl Into<String>) -> Problem {
        Problem {
            line: self.line,
            column: self.column,
            message: message.into(),
        }
    }
}

/// A line that has words, read from left to right.
#[derive(Clone, Debug)]
pub struct Line<'t> {
    text: &'t str,
    /// The same with its comment.
    whole: &'t str,
    number: usize,
    /// The bytes that have been read.
    read: usize,
}

/// The lines of a text that have words.
pub fn lines(text: &str) -> impl Iterator<Item = Line<'_>> {
    let lines = text.lines().enumerate();
    lines
        .map(|(before, line)| Line {
            text: line.split('#').next().unwrap_or_default().trim_end(),
            whole: line.trim_end(),
            number: before + 1,
            read: 0,
        })
        .filter(|line| !line.text.is_empty())
}

impl<'t> Line<'t> {
    /// How far its first word is indented, and what is wrong with the indent.
    pub fn indent(&self) -> (usize, Option<Problem>) {
        let before = &self.text[..self.text.len() - self.text.trim_start().len()];
        let is_wrong = before.contains(|sign| sign != ' ');
        let message = "expected spaces alone before the first word";
        let problem = is_wrong.then(|| self.peek().problem(message));
        (before.chars().count(), problem)
    }

    /// The next word, which stays the next.
    pub fn peek(&self) -> Word<'t> {
        self.clone().next()
    }

    /// The next word.
    pub fn next(&mut self) -> Word<'t> {
        let left = self.text[self.read..].trim_start();
        let word = left.split(char::is_whitespace).next().unwrap_or_default();
        let start = self.text.len() - left.len();
        self.read = start + word.len();
        self.word(start, word)
    }

    fn word(&self, start: usize, text: &'t str) -> Word<'t> {
        Word {
            text,
            line: self.number,
            column: self.whole[..start].chars().count() + 1,
        }
    }

    /// Takes the next word if it is this one.
    pub fn take(&mut self, word: &str) -> bool {
        let is_next = self.peek().text == word;
        if is_next {
            self.next();
        }
        is_next
    }

    /// Reads the words of a phrase.
    pub fn want(&mut self, phrase: &str) -> Result<(), Problem> {
        for wanted in phrase.split(' ') {
            let word = self.next();
            if word.text != wanted {
                return Err(Problem::expected(&word, &format!("\"{wanted}\"")));
            }
        }
        Ok(())
    }

    /// The words that are left, as one, with the spaces between them and whatever else stands there: `#` begins no comment here.
    pub fn rest(&mut self) -> Word<'t> {
        let text = self.whole[self.read..].trim_start();
        self.read = self.text.len();
        self.word(self.whole.len() - text.len(), text)
    }

    pub fn want_end(&mut self) -> Result<(), Problem> {
        let word = self.next();
        match word.text {
            "" => Ok(()),
            _ => Err(Problem::expected(&word, "the end of the line")),
        }
    }
}

/// The number that a word is, up to a largest one.
pub fn number(word: &Word, most: u64) -> Option<u64> {
    digits(word.text, most)
}

/// How an address is written.
pub const ADDRESS: &str = "0x and 1 to 8 hexadecimal digits";

/// The address that is written so.
pub fn address(text: &str) -> Option<u32> {
    let digits = text.strip_prefix("0x")?;
    let is_address = digits.len() <= 8 && digits.bytes().all(|digit| digit.is_ascii_hexdigit());
    is_address
        .then(|| u32::from_str_radix(digits, 16).ok())
        .flatten()
}

/// The number of these digits, up to a largest one. A sign is none.
pub fn digits(text: &str, most: u64) -> Option<u64> {
    let is_number = !text.is_empty() && text.bytes().all(|byte| byte.is_ascii_digit());
    let number = is_number.then(|| text.parse().ok()).flatten();
    number.filter(|&number| number <= most)
}
