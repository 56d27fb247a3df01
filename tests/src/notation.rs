//! Trees as docs/FORMAT.md writes them on a line, which are document 01's words with four signs more:
//! `X16` is symbol 16, `T0` as a limit is the triangular number of symbol 0, braces hold a node
//! together, and square brackets hold its address.

use crate::trees::{Amount, Kind, Limit, Tree};
use std::mem;

/// The tree of such a line, or what is wrong with it.
pub fn tree(text: &str) -> Result<Tree, String> {
    let mut words = Words {
        left: words(text).into_iter(),
    };
    let tree = words.node()?;
    match words.left.as_slice() {
        [] => Ok(tree),
        [word, ..] => Err(format!("{word} comes after the tree: {text}")),
    }
}

/// Letters and digits in a row are a word, and every other sign is one by itself.
fn words(text: &str) -> Vec<&str> {
    let mut words = Vec::new();
    let mut left = text.trim_start();
    while let Some(first) = left.chars().next() {
        let in_word = |letter: char| letter.is_ascii_alphanumeric();
        let length = match left.find(|letter| !in_word(letter)) {
            None => left.len(),
            Some(0) => first.len_utf8(),
            Some(length) => length,
        };
        let (word, after) = left.split_at(length);
        words.push(word);
        left = after.trim_start();
    }
    words
}

struct Words<'t> {
    left: std::vec::IntoIter<&'t str>,
}

impl<'t> Words<'t> {
    fn next(&mut self) -> Result<&'t str, String> {
        self.left.next().ok_or_else(|| "the tree ends early".into())
    }

    /// Takes the next word if it is this one.
    fn take(&mut self, word: &str) -> bool {
        let is_next = self.left.as_slice().first() == Some(&word);
        if is_next {
            self.left.next();
        }
        is_next
    }

    fn want(&mut self, word: &str) -> Result<(), String> {
        match self.next()? {
            next if next == word => Ok(()),
            next => Err(format!("{next} stands where {word} should")),
        }
    }

    /// `NODE` or `NODE/LIMIT@BYTE3`, and then perhaps `[ADDRESS]`.
    fn node(&mut self) -> Result<Tree, String> {
        let mut tree = self.limited()?;
        if self.take("[") {
            let word = self.next()?;
            let address = u32::from_str_radix(word, 16);
            let address = address.map_err(|_| format!("{word} is no address"))?;
            self.want("]")?;
            if mem::replace(&mut tree.address, address) != 0 {
                return Err("a node has two addresses".into());
            }
        }
        Ok(tree)
    }

    fn limited(&mut self) -> Result<Tree, String> {
        let mut tree = self.unlimited()?;
        if self.take("/") {
            let amount = limit_amount(self.next()?)?;
            self.want("@")?;
            let names = number(self.next()?)?;
            let limit = Limit { names, amount };
            if tree.limit.replace(limit).is_some() {
                return Err("a node has two limits".into());
            }
        }
        Ok(tree)
    }

    fn unlimited(&mut self) -> Result<Tree, String> {
        match self.next()? {
            "{" => {
                let tree = self.node()?;
                self.want("}")?;
                Ok(tree)
            }
            "(" => Ok(Tree::new(Kind::Sequence, self.children(",")?)),
            "C" => {
                self.want("(")?;
                Ok(Tree::new(Kind::Choice, self.children("|")?))
            }
            "loop" => self.repeat(),
            word => Ok(Tree::new(Kind::Block(amount(word)?), Vec::new())),
        }
    }

    /// What is left of a sequence or choice behind its bracket.
    fn children(&mut self, between: &str) -> Result<Vec<Tree>, String> {
        let mut children = vec![self.node()?];
        while self.take(between) {
            children.push(self.node()?);
        }
        self.want(")")?;
        Ok(children)
    }

    /// What is left of a loop behind that word. An exit goes to the nearest loop.
    fn repeat(&mut self) -> Result<Tree, String> {
        let bound = amount(self.next()?)?;
        self.want("of")?;
        let body = self.node()?;
        let exit = if self.take("exit") {
            self.node()?
        } else {
            Tree::block(0)
        };
        Ok(Tree::new(Kind::Loop(bound), vec![body, exit]))
    }
}

fn amount(word: &str) -> Result<Amount, String> {
    match word.strip_prefix('X') {
        Some(symbol) => number(symbol).map(Amount::Symbol),
        None => number(word).map(Amount::Plain),
    }
}

fn limit_amount(word: &str) -> Result<Amount, String> {
    match word.strip_prefix('T') {
        Some(symbol) => number(symbol).map(Amount::Triangular),
        None => amount(word),
    }
}

fn number<N: std::str::FromStr>(word: &str) -> Result<N, String> {
    word.parse()
        .map_err(|_| format!("{word} is no number here"))
}
