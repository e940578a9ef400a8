//! What a call answers when it does not do its work.

use std::error::Error;
use std::fmt;

use crate::Span;
use crate::diagnosis::messages;
use crate::rows::Kind;

/// A numbered refusal. Fields that its number does not use are 0.
///
/// `span` is the place shown. For 31 to 34 and 36 that is the token after the one found, which is the token meant:
/// [`Diagnosis`](crate::Diagnosis) names both.
///
/// ```
/// use refal5::rows::{Kind, NodeRows, TokenRows};
///
/// let mut token_rows = TokenRows::new();
/// let tokens = token_rows.read(b"F{A}").unwrap();
/// let refusal = NodeRows::new().parse(tokens).unwrap_err();
/// assert_eq!((refusal.number, refusal.found_kind()), (34, Some(Kind::RBrace)));
/// assert_eq!((refusal.span.start, refusal.span.end), (4, 4));
/// ```
#[derive(Debug, Clone, Copy, PartialEq, Eq)]
pub struct Refusal {
    pub number: u32,
    /// The kind of token wanted, as a number.
    pub expected: u32,
    /// The kind of token found, as a number; in 60, 61 and 62 the file, 1 or 2.
    pub found: u32,
    /// The place shown, in bytes.
    pub span: Span,
    /// The rows or bytes that would be enough.
    pub need: u64,
}

impl Refusal {
    pub fn expected_kind(&self) -> Option<Kind> {
        Kind::from_number(self.expected)
    }

    pub fn found_kind(&self) -> Option<Kind> {
        Kind::from_number(self.found)
    }

    /// What it says, without the source.
    pub fn message(&self) -> String {
        messages::message(self, None)
    }

    /// Whether reading gives this number.
    pub fn is_reading(&self) -> bool {
        self.number < 30
    }

    /// Whether the token found is the one before the place shown.
    pub fn shows_the_token_after(&self) -> bool {
        matches!(self.number, 31..=34 | 36) && self.found_kind() != Some(Kind::Eof)
    }
}

impl fmt::Display for Refusal {
    /// The number and what it says, without the source.
    fn fmt(&self, out: &mut fmt::Formatter<'_>) -> fmt::Result {
        write!(out, "refusal {}: {}", self.number, self.message())
    }
}

impl Error for Refusal {}
