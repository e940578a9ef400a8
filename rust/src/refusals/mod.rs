//! Refusals: what a call answers when it does not do its work, and what each number means.

mod refusal;
mod table;

pub use refusal::Refusal;
pub use table::{Call, Example, Meaning, REFUSALS};

/// The meaning of a number.
///
/// ```
/// let meaning = refal5::meaning(21).unwrap();
/// assert_eq!((meaning.name, meaning.title), ("EMPTY_TEXT", "quotes without text"));
/// ```
pub fn meaning(number: u32) -> Option<&'static Meaning> {
    REFUSALS.iter().find(|meaning| meaning.number == number)
}
