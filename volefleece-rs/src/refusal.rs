//! The questions that a call may answer with "no".

use std::error::Error;
use std::fmt;

/// A call's refusal: the first question that says no, with the number that documents 01 and 02 give it.
///
/// ```
/// use volefleece::Refusal;
///
/// let refusal = volefleece::check(&[]).unwrap_err();
/// assert_eq!(refusal, Refusal::Length);
/// assert_eq!(refusal.number(), 1);
/// assert_eq!(refusal.to_string(), "refused 1: the length is not a multiple of 24 from 24 to 12,288");
/// ```
#[derive(Clone, Copy, Debug, PartialEq, Eq, Hash)]
#[non_exhaustive]
pub enum Refusal {
    /// 1, of a table's length.
    Length = 1,
    /// 2, of a record's fields.
    Fields,
    /// 3, of the ranges of numbers and symbols.
    Numbers,
    /// 4, of the records as one tree.
    Shape,
    /// 5, of the depth and the loops around a node.
    Depth,
    /// 6, of the loops that limits name.
    NamedLoop,
    /// 7, of the weight of limits and paired symbols.
    Weight,
    /// 8, of the output buffer.
    Room,
    /// 9, of the values.
    Values,
    /// 10, of a node's first member.
    Ceiling,
    /// 11, of the symbol that a graft replaces, and of the sent table's.
    ReplacedSymbol,
    /// 12, of what a graft makes.
    GraftedTable,
    /// 13, of the values whose triangular numbers are limits.
    TriangularNumber,
    /// 14, of the later values.
    LaterValue,
    /// 15, of the symbol that is filled or opened, and of its number.
    FilledSymbol,
    /// 16, of the marks to open by.
    Marks,
    /// 17, of the block that is retimed, its old time and the new one.
    RetimedBlock,
}

impl Refusal {
    /// Every refusal, by its number, from 1 on.
    pub const ALL: [Refusal; 17] = [
        Refusal::Length,
        Refusal::Fields,
        Refusal::Numbers,
        Refusal::Shape,
        Refusal::Depth,
        Refusal::NamedLoop,
        Refusal::Weight,
        Refusal::Room,
        Refusal::Values,
        Refusal::Ceiling,
        Refusal::ReplacedSymbol,
        Refusal::GraftedTable,
        Refusal::TriangularNumber,
        Refusal::LaterValue,
        Refusal::FilledSymbol,
        Refusal::Marks,
        Refusal::RetimedBlock,
    ];

    /// The refusal of that number, if it is one's.
    pub fn from_number(number: u64) -> Option<Self> {
        let before = usize::try_from(number.checked_sub(1)?).ok()?;
        Self::ALL.get(before).copied()
    }

    /// The question's number.
    pub fn number(self) -> u64 {
        self as u64
    }

    /// What is wrong, in the question's words.
    pub fn reason(self) -> &'static str {
        match self {
            Refusal::Length => "the length is not a multiple of 24 from 24 to 12,288",
            Refusal::Fields => {
                "a record's kind, flags, children or byte 3 are not as listed, a field that it has no use for is not 0, or one of its last four bytes is not 255"
            }
            Refusal::Numbers => "a plain number or a symbol's number is out of range",
            Refusal::Shape => "the records do not form exactly one tree",
            Refusal::Depth => "the tree is more than 32 nodes deep, or more than 8 loops are around a node",
            Refusal::NamedLoop => "a limit names a loop that is not around its node",
            Refusal::Weight => "the limits and the paired symbols weigh more than 255 together",
            Refusal::Room => "the output buffer is too short",
            Refusal::Values => {
                "there are not exactly 40 values, or one is above 1,000,000 (0 to 15) or 1,000,000,000,000 (16 to 39)"
            }
            Refusal::Ceiling => "a node's first member, before its own limit, is above 1,000,000,000,000",
            Refusal::ReplacedSymbol => {
                "the replaced symbol is not 16 to 23, or the sent table uses it or a paired one, 24 to 31"
            }
            Refusal::GraftedTable => {
                "the grafted table is longer than 12,288 bytes, too deep, has too many loops around a node, or its limits and paired symbols weigh too much"
            }
            Refusal::TriangularNumber => "a value whose triangular number is a limit is above 1,000",
            Refusal::LaterValue => "a later value, 32 to 39, is above its symbol's first, 24 to 31",
            Refusal::FilledSymbol => {
                "the symbol is none of 0 to 23, the table uses it under flag 4, or the number is above 1,000,000 (0 to 15) or 1,000,000,000,000 (16 to 23)"
            }
            Refusal::Marks => {
                "the marks are not 128 bytes, one lies past the last record, or one is not on a plain field of that number in which the symbol is allowed"
            }
            Refusal::RetimedBlock => {
                "that record is no block of that plain old time, or the new time is above 1,000,000,000,000"
            }
        }
    }
}

impl fmt::Display for Refusal {
    fn fmt(&self, f: &mut fmt::Formatter<'_>) -> fmt::Result {
        write_refusal(f, self.number(), self.reason())
    }
}

impl Error for Refusal {}

/// A refusal to convert: question 1 as it was for former tables says no.
///
/// ```
/// let refusal = volefleece::convert(&[0; 24]).unwrap_err();
/// assert_eq!(refusal.to_string(), "refused 1: the length is not a multiple of 16 from 16 to 8,192");
/// ```
#[derive(Clone, Copy, Debug, PartialEq, Eq, Hash)]
pub struct FormerLength;

impl FormerLength {
    /// What is wrong, in the former question's words.
    pub const REASON: &'static str = "the length is not a multiple of 16 from 16 to 8,192";
}

impl fmt::Display for FormerLength {
    fn fmt(&self, f: &mut fmt::Formatter<'_>) -> fmt::Result {
        write_refusal(f, Refusal::Length.number(), Self::REASON)
    }
}

impl Error for FormerLength {}

fn write_refusal(f: &mut fmt::Formatter<'_>, number: u64, reason: &str) -> fmt::Result {
    write!(f, "refused {number}: {reason}")
}

#[cfg(test)]
mod tests {
    use super::*;

    #[test]
    fn numbers_count_from_1() {
        for (before, refusal) in Refusal::ALL.into_iter().enumerate() {
            assert_eq!(refusal.number(), before as u64 + 1);
            assert_eq!(Refusal::from_number(refusal.number()), Some(refusal));
        }
        for number in [0, Refusal::ALL.len() as u64 + 1, u64::MAX] {
            assert_eq!(Refusal::from_number(number), None);
        }
    }
}
