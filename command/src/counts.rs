//! The values that a desk gives: for each symbol a number or none, and for each paired one a later number or none. One that is not given
//! counts as the largest, but a later one as its first.

use std::path::Path;

use volefleece::{ceiling, later, Refusal, SYMBOLS, VALUES};

use crate::failure::Outcome;
use crate::names::Names;
use crate::table::{Amount, Kind, Node};
use crate::words::value_words;
use crate::{files, text};

const VALUE_BYTES: usize = 8;

/// What values are given.
#[derive(Clone, Debug, PartialEq, Eq)]
pub struct Counts {
    /// In the order of a file: by symbol, then the later ones.
    given: [Option<u64>; VALUES],
    /// The length of a file of values that no file of values has, which the library is to refuse.
    wrong_length: Option<usize>,
}

impl Default for Counts {
    fn default() -> Self {
        Counts {
            given: [None; VALUES],
            wrong_length: None,
        }
    }
}

impl Counts {
    /// The most bytes of a file of values.
    pub const MOST_BYTES: usize = VALUES * VALUE_BYTES;

    /// What a file of values gives: its last ones may be absent.
    pub fn from_bytes(bytes: &[u8]) -> Self {
        let mut counts = Counts::default();
        if bytes.len() > Self::MOST_BYTES || bytes.len() % VALUE_BYTES != 0 {
            counts.wrong_length = Some(bytes.len());
        }
        for (given, value) in counts.given.iter_mut().zip(bytes.chunks_exact(VALUE_BYTES)) {
            *given = Some(u64::from_le_bytes(value.try_into().expect("eight bytes")));
        }
        counts
    }

    /// What a file gives: values, or a text whose names are taken in beside those that are known.
    pub fn read(path: &Path, names: &mut Names) -> Outcome<Self> {
        if files::is_text(path) {
            Self::from_text(path, &files::read_text(path)?, names)
        } else {
            Ok(Self::from_bytes(&files::read(path, Self::MOST_BYTES)?))
        }
    }

    pub fn from_text(path: &Path, text: &str, names: &mut Names) -> Outcome<Self> {
        let parsed = text::values::parse(text, names);
        parsed.map_err(|problems| files::wrong_text(path, &problems))
    }

    /// The file of values that gives these, as short as can be. A value before the last given one that is not given itself is written as
    /// what it counts.
    pub fn bytes(&self) -> Vec<u8> {
        let last = self.given.iter().rposition(Option::is_some);
        bytes_of(&self.values()[..last.map_or(0, |last| last + 1)])
    }

    /// What is given for a symbol; for a paired one, its first value.
    pub fn given(&self, symbol: usize) -> Option<u64> {
        self.given[symbol]
    }

    /// The later value that is given for a symbol: none unless it is paired.
    pub fn given_later(&self, symbol: usize) -> Option<u64> {
        later(symbol).and_then(|value| self.given[value])
    }

    /// Gives a symbol's value, and with it both of a paired one: the later is the same where it is not given apart. One that is not paired
    /// has no later value.
    pub fn set(&mut self, symbol: usize, value: u64, later_value: Option<u64>) {
        self.given[symbol] = Some(value);
        if let Some(later) = later(symbol) {
            self.given[later] = later_value;
        }
    }

    /// Whether any value is given.
    pub fn any(&self) -> bool {
        self.given.iter().any(Option::is_some)
    }

    /// Every value, in the order of a file.
    pub fn values(&self) -> [u64; VALUES] {
        let mut values = std::array::from_fn(|value| self.given[value].unwrap_or(ceiling(value)));
        for (symbol, later) in pairs() {
            values[later] = self.given[later].unwrap_or(values[symbol]);
        }
        values
    }

    /// What a symbol counts at a block's later passes in a run: none unless it is paired.
    pub fn later_value(&self, symbol: usize) -> Option<u64> {
        later(symbol).map(|later| self.values()[later])
    }

    /// What the library is lent: every value, or none for a file of a wrong length, which question 9 then refuses in its turn.
    pub fn lent(&self) -> Vec<u64> {
        match self.wrong_length {
            None => self.values().to_vec(),
            Some(_) => Vec::new(),
        }
    }

    /// The library's refusal of these values whatever the tree: by a block of no time, which no other question refuses.
    pub fn refusal(&self) -> Option<Refusal> {
        let block = Node::new(Kind::Block(Amount::Plain(0))).record();
        volefleece::figure(&block.bytes(), &self.lent()).err()
    }

    /// Whether these come from a file of a length that no file of values has.
    pub fn has_wrong_length(&self) -> bool {
        self.wrong_length.is_some()
    }

    /// What a question about the values alone says no to, for a reader.
    pub fn fault(&self, refusal: Refusal, names: &Names) -> Option<String> {
        match refusal {
            Refusal::Values => self.length_fault().or_else(|| self.range_fault(names)),
            Refusal::LaterValue => self.later_fault(names),
            _ => None,
        }
    }

    fn length_fault(&self) -> Option<String> {
        let most = Self::MOST_BYTES;
        let length = match self.wrong_length? {
            length if length > most => format!("more than {most}"),
            length => length.to_string(),
        };
        Some(format!(
            "the file of values has {length} bytes; expected a multiple of {VALUE_BYTES}, at most {most}"
        ))
    }

    fn range_fault(&self, names: &Names) -> Option<String> {
        let values = self.values();
        let above = (0..VALUES).find(|&value| values[value] > ceiling(value))?;
        let later = pairs().find(|&(_, later)| later == above);
        let name = later.map_or_else(
            || names.symbol(above),
            |(symbol, _)| format!("the later value of {}", names.symbol(symbol)),
        );
        let (value, most) = (values[above], ceiling(above));
        Some(format!("{name} is {value}, and at most {most} is allowed"))
    }

    fn later_fault(&self, names: &Names) -> Option<String> {
        let values = self.values();
        let (symbol, _) = pairs().find(|&(symbol, later)| values[later] > values[symbol])?;
        let (name, words) = (names.symbol(symbol), value_words(symbol, self));
        let most = values[symbol];
        Some(format!(
            "{name} is {words}, and later at most {most} is allowed"
        ))
    }
}

/// The paired symbols, each with the place of its later value in a file.
fn pairs() -> impl Iterator<Item = (usize, usize)> {
    (0..SYMBOLS).filter_map(|symbol| Some((symbol, later(symbol)?)))
}

/// Values as a file has them.
pub fn bytes_of(values: &[u64]) -> Vec<u8> {
    values
        .iter()
        .flat_map(|value| value.to_le_bytes())
        .collect()
}
