//! The oracle: what documents 01 and 02 say that reading, parsing, writing and names answer.
//!
//! [`original`] asks the original Rust, built unchanged where its three files are present, and puts
//! its answers in 01's terms. [`reference`] is a plain implementation written from those texts
//! alone, with the refusals, the writing and the changes that the original does not have. Tests hold
//! the two together.

#[cfg(original)]
include!(concat!(env!("OUT_DIR"), "/original.rs"));

pub mod cases;
pub mod generate;
pub mod lists;
pub mod messages;
pub mod original;
pub mod reference;
pub mod terms;
