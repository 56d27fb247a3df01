//! Tests of the volefleece static library against a second implementation, written apart from it
//! and straight from documents 01 and 02.
//!
//! - `format`: the numbers of the table's format, each behind one name.
//! - `trees`: a plain tree, its encoder and its random generators.
//! - `reader`: the second reader, questions 1 to 7, of former tables too.
//! - `evaluator`: the second evaluator, questions 8 to 10, 13 and 14, and the branch, of former tables too.
//! - `simplifier`: the second simplifier.
//! - `grafter`: the second grafter, questions 11 and 12.
//! - `filler`: the second filler and opener, questions 15 and 16.
//! - `retimer`: the second previewer and committer, question 17.
//! - `converter`: the second converter of former tables.
//! - `fits`: where the rules of simplifying fit, for small tables.
//! - `members`, `runs`: lists member by member with their branches, and the dearest run, both for small
//!   trees.
//! - `probes`: the library's inner functions that tests and benchmark call.
//! - `notation`: trees as docs/FORMAT.md writes them on a line.
//! - `tables`, `records`, `cases`: hand-written tables, by their trees and by their records, and document 01's cases.
//! - `damage`, `faults`, `noise`: tables that are wrong in some way.
//! - `fenced`: memory that kills who reaches outside it.
//! - `compare`: one table, both readers, and what is lent to any call.
//! - `quotes`: one table with values, both evaluators.
//! - `simplifications`: one table with an allowance and a buffer, both simplifiers.
//! - `grafts`: two tables with a symbol and a buffer, both grafters.
//! - `fills`: one table with a symbol, a number and buffers, both fillers and openers.
//! - `retimes`: one table with a block's old and new time and values, both previewers and committers.
//! - `programs`: the programs as processes, and their files.
//! - `commands`: the repository's commands as processes, the real ones and copies beside stand-ins.
//! - `timing`: medians of times, for the benchmarks.
//! - `rng`: a small deterministic generator of random numbers.

pub mod cases;
pub mod commands;
pub mod compare;
pub mod converter;
pub mod damage;
pub mod evaluator;
pub mod faults;
pub mod fenced;
pub mod filler;
pub mod fills;
pub mod fits;
pub mod format;
pub mod grafter;
pub mod grafts;
pub mod members;
pub mod noise;
pub mod notation;
pub mod probes;
pub mod programs;
pub mod quotes;
pub mod reader;
pub mod records;
pub mod retimer;
pub mod retimes;
pub mod rng;
pub mod runs;
pub mod simplifications;
pub mod simplifier;
pub mod tables;
pub mod timing;
pub mod trees;
