//! Trees and values as text: a header of names, then a node or a value on each line. `#` begins a comment, and empty lines say nothing.

mod header;
mod lines;
pub mod names;
pub mod tree;
pub mod values;

pub use lines::{address, digits, no_utf8, Problem, Problems, ADDRESS};
