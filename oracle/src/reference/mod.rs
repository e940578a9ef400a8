//! A plain implementation of document 01 with 02's changes, written from their text and not from
//! the original's code.
//!
//! Simple and slow on purpose. Each function has the exported C function's shape: what is lent for
//! reading, what is lent for output, and the seven words of the answer.

pub mod big;
pub mod link;
pub mod names;
pub mod parse;
pub mod read;
pub mod real;
pub mod spelling;
pub mod unbound;
pub mod utf8;
pub mod write;

pub use link::link;
pub use names::{canonical_index, canonical_name, names_equal};
pub use parse::parse;
pub use read::read;
pub use real::real;
pub use write::write;
