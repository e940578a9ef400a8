//! A program laid out for people: a sentence on a line, quoted text whole, comments kept.
//!
//! The text is held against the source by the library itself before it is given: it reads to the same tokens as spelled, and
//! parses to a tree that is written the same.

mod lines;
mod pieces;
mod verify;

pub use lines::one_line;

use crate::Refusal;
use crate::rows::{NodeRows, Tokens};

/// Lays a program out.
///
/// ```
/// use refal5::rows::TokenRows;
///
/// let mut rows = TokenRows::new();
/// let tokens = rows.read(b"F{s1'ab'=<G(s1)>;/* so */=;}").unwrap();
/// let text = refal5::layout(tokens).unwrap();
/// assert_eq!(text, "F {\n  s1 'ab' = <G (s1)>; /* so */\n  = ;\n}\n");
/// ```
pub fn layout(tokens: Tokens<'_>) -> Result<String, NoLayout> {
    let mut nodes = NodeRows::new();
    let tree = nodes.parse(tokens).map_err(NoLayout::Refused)?;
    let text = lines::text(tokens);
    if verify::same(tokens, tree, &text) {
        Ok(text)
    } else {
        Err(NoLayout::Differs)
    }
}

/// Why a program is not laid out.
#[derive(Debug, Clone, Copy, PartialEq, Eq)]
pub enum NoLayout {
    /// It does not parse.
    Refused(Refusal),
    /// The text made would not be the same program.
    Differs,
}
