//! Document 01's cases A to N as far as the quoting calls go, in its order and words, with what they
//! answer at `VALUES`, document 02's branch included.

use crate::evaluator::{Pair, Quoted};
use crate::tables::*;

pub struct Case {
    pub name: &'static str,
    pub table: Vec<u8>,
    /// The whole list, whose first member is the figure, or the refusal's number.
    pub answer: Result<Vec<Pair>, u64>,
    branch: u64,
}

impl Case {
    /// What the figure call answers.
    pub fn quoted(&self) -> Result<Quoted, u64> {
        match &self.answer {
            Ok(pairs) => Ok(Quoted {
                figure: pairs[0].0,
                branch: self.branch,
            }),
            Err(question) => Err(*question),
        }
    }
}

/// Symbol 16, the X of cases J and K, stands for 100; no other is used.
pub const VALUES: [u64; 40] = {
    let mut values = [0; 40];
    values[16] = 100;
    values
};

pub fn cases() -> Vec<Case> {
    vec![
        listed("A", block(7), &[(7, 0)]),
        listed("B", repeat(0, block(9), block(4)), &[(4, 0)]),
        listed("C", case_c_or_d(1), &[(20, 0)]),
        listed("D", case_c_or_d(0), &[(15, 0)]),
        listed("E", example_4_5(2), &[(225, 0)]),
        listed("F", example_4_5(1), &[(245, 0)]),
        listed(
            "G, the outer loop being the run",
            case_g(255),
            &[(70, 1), (60, 0)],
        ),
        listed("G, once", in_loops(1, 1, case_g(2)), &[(70, 0)]),
        listed("G, 3 times", in_loops(1, 3, case_g(2)), &[(190, 0)]),
        listed("H", case_h(), &[(29, 0)]),
        listed("H shared out", case_h_shared_out(), &[(20, 0)]),
        listed(
            "I",
            case_i(&[limited(block(0), 1, 1), block(4)]),
            &[(66, 0)],
        ),
        listed("I without the limited 0", case_i(&[block(4)]), &[(46, 0)]),
        listed(
            "J",
            sequence(&[block(5), symbol_block(16), block(4)]),
            &[(109, 0)],
        ),
        listed(
            "J simplified",
            sequence(&[block(9), symbol_block(16)]),
            &[(109, 0)],
        ),
        of_branch(0, listed("K", case_k(), &[(105, 0)])),
        listed(
            "K simplified",
            sequence(&[block(5), symbol_block(16)]),
            &[(105, 0)],
        ),
        listed("L", case_l(0), &[(1_000_000_000_000, 0)]),
        refused("L with exit 1", case_l(1), 10),
        refused("L, a block past the ceiling", block(1_000_000_000_001), 3),
        listed("M under 7 loops", case_m(7), &[(7, 1), (0, 0)]),
        refused("M under 8 loops", case_m(8), 7),
        refused("M under 9 loops", case_m(9), 5),
        refused("N, 0 bytes", vec![], 1),
        refused("N, 12,312 bytes", vec![0; 12_312], 1),
    ]
}

/// A case whose root is no choice.
fn listed(name: &'static str, table: Vec<u8>, pairs: &[Pair]) -> Case {
    Case {
        name,
        table,
        answer: Ok(pairs.to_vec()),
        branch: 255,
    }
}

/// The case with the branch of its root choice.
fn of_branch(branch: u64, case: Case) -> Case {
    Case { branch, ..case }
}

fn refused(name: &'static str, table: Vec<u8>, question: u64) -> Case {
    Case {
        name,
        table,
        answer: Err(question),
        branch: 0,
    }
}

/// Loop 3 of C(10/m@1 | 5).
fn case_c_or_d(limit: u32) -> Vec<u8> {
    let body = choice(&[limited(block(10), limit, 1), block(5)]);
    repeat(3, body, block(0))
}

/// Loop 3 of (5, loop 3 of (5, C(10/1@k | 0), 15) exit 5) exit 5.
fn example_4_5(k: u8) -> Vec<u8> {
    let first_miss = choice(&[limited(block(10), 1, k), block(0)]);
    let inner = repeat(3, sequence(&[block(5), first_miss, block(15)]), block(5));
    repeat(3, sequence(&[block(5), inner]), block(5))
}

/// Loop 3 of a body with the list 30, 20, 20 and on.
fn case_g(names: u8) -> Vec<u8> {
    let body = choice(&[limited(block(30), 1, names), block(20)]);
    repeat(3, body, block(0))
}

/// Loop 2 of C((5, C(10/1@1 | 0)) | (4, C(10/1@1 | 0))).
fn case_h() -> Vec<u8> {
    let term = || choice(&[limited(block(10), 1, 1), block(0)]);
    let body = choice(&[sequence(&[block(5), term()]), sequence(&[block(4), term()])]);
    repeat(2, body, block(0))
}

fn case_h_shared_out() -> Vec<u8> {
    let term = choice(&[limited(block(10), 1, 1), block(0)]);
    let body = sequence(&[choice(&[block(5), block(4)]), term]);
    repeat(2, body, block(0))
}

/// Loop 3 of loop 3 of (C(first), C(10/1@2 | 0)).
fn case_i(first: &[Vec<u8>]) -> Vec<u8> {
    let ten = choice(&[limited(block(10), 1, 2), block(0)]);
    in_loops(2, 3, sequence(&[choice(first), ten]))
}

/// C((5, X) | (4, X)).
fn case_k() -> Vec<u8> {
    choice(&[
        sequence(&[block(5), symbol_block(16)]),
        sequence(&[block(4), symbol_block(16)]),
    ])
}

/// Loop 1,000,000 of 1,000,000.
fn case_l(exit: u64) -> Vec<u8> {
    repeat(1_000_000, block(1_000_000), block(exit))
}

/// One 255-limit under so many loops.
fn case_m(loops: usize) -> Vec<u8> {
    in_loops(loops, 3, limited(block(7), 1, 255))
}
