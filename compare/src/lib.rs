//! Holds the proved library against the reference, the original and the fixed lists, call by call
//! and word by word, and makes a failing input small.

pub mod exhaustive;
pub mod inputs;
pub mod library;
pub mod round_trip;
pub mod runs;
pub mod shrink;

pub use library::{Library, has, is_linked};
