//! Text in the picture: how wide it can be, where it is broken, and how XML wants it.

/// As wide as a letter of a label can be: monospace letters have 0.602 of their font's size, which is 13 here.
pub const CELL: usize = 8;
/// The same for a heading, of size 16.
pub const HEADING_CELL: usize = 10;
/// The same for small text, of size 11.
pub const SMALL_CELL: usize = 7;

/// Every monospace font has the letters before this one: Latin, Greek, Cyrillic. Others may come from any font.
const FIRST_OTHER: char = '\u{530}';

/// How many cells a text takes at most, where all but the usual letters count double, as CJK letters do.
pub fn cells(text: &str) -> usize {
    text.chars().map(letter_cells).sum()
}

fn letter_cells(letter: char) -> usize {
    if letter < FIRST_OTHER {
        1
    } else {
        2
    }
}

/// The text in lines of at most so many cells, so that a long name makes its box higher and not its whole column wider. Lines are broken
/// between words, and in a word where it is longer than a line.
pub fn wrapped(text: &str, most: usize) -> Vec<String> {
    let mut lines = Vec::new();
    let (mut line, mut filled) = (String::new(), 0);
    for word in text.split_whitespace() {
        if filled > 0 && filled + 1 + cells(word) > most {
            lines.push(std::mem::take(&mut line));
            filled = 0;
        }
        if filled > 0 {
            line.push(' ');
            filled += 1;
        }
        for letter in word.chars() {
            if filled + letter_cells(letter) > most {
                lines.push(std::mem::take(&mut line));
                filled = 0;
            }
            line.push(letter);
            filled += letter_cells(letter);
        }
    }
    lines.push(line);
    lines
}

/// The text as XML has it. What no XML can hold shows as a replacement character.
pub fn escaped(text: &str) -> String {
    let mut escaped = String::with_capacity(text.len());
    for letter in text.chars() {
        match letter {
            '&' => escaped.push_str("&amp;"),
            '<' => escaped.push_str("&lt;"),
            '>' => escaped.push_str("&gt;"),
            '"' => escaped.push_str("&quot;"),
            '\'' => escaped.push_str("&apos;"),
            '\u{fffe}' | '\u{ffff}' => escaped.push(char::REPLACEMENT_CHARACTER),
            letter if letter.is_control() => escaped.push(char::REPLACEMENT_CHARACTER),
            letter => escaped.push(letter),
        }
    }
    escaped
}
