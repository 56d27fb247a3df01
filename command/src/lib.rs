//! What the command `volefleece` is made of. It reads, asks, shows and draws; every acceptance, figure, list, branch, simplification,
//! graft, filling, opening, retiming and conversion comes from the library's calls.

pub mod cli;
pub mod commands;
pub mod counts;
pub mod draw;
pub mod failure;
pub mod files;
pub mod hint;
pub mod house;
pub mod marks;
pub mod names;
pub mod table;
pub mod text;
pub mod tree;
pub mod words;
