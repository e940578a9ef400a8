//! A refusal explained to the person who wrote the source.

mod advice;
mod braces;
pub(crate) mod characters;
mod gap;
pub(crate) mod messages;
mod place;
mod sentence;

use std::error::Error;
use std::fmt;

pub use characters::cannot_be_seen;
pub use gap::Gap;
pub use place::Place;

use crate::rows::{Kind, NodeRows, TokenRows, Tokens};
use crate::{Refusal, Span};

/// Counts of a source that is accepted.
#[derive(Debug, Clone, Copy, PartialEq, Eq)]
pub struct Accepted {
    /// Without Eof.
    pub tokens: usize,
    pub nodes: usize,
}

/// Reads and parses a source, and explains the refusal if there is one.
///
/// ```
/// let diagnosis = refal5::check(b"F {\n  A = B\n  C = D }").unwrap_err();
/// assert_eq!(diagnosis.refusal.number, 34);
/// assert_eq!((diagnosis.meant.line, diagnosis.meant.column), (3, 5));
/// assert_eq!((diagnosis.shown.line, diagnosis.shown.column), (3, 7));
/// assert_eq!(diagnosis.message, "`=` has no place here");
/// assert_eq!(diagnosis.advice, "End the sentence before this one with `;`: a sentence has one `=`.");
/// ```
pub fn check(source: &[u8]) -> Result<Accepted, Box<Diagnosis>> {
    let mut token_rows = TokenRows::new();
    let tokens = token_rows
        .read(source)
        .map_err(|refusal| Box::new(Diagnosis::of_reading(source, refusal)))?;
    let mut node_rows = NodeRows::new();
    match node_rows.parse(tokens) {
        Ok(tree) => Ok(Accepted {
            tokens: tokens.len() - 1,
            nodes: tree.len(),
        }),
        Err(refusal) => Err(Box::new(Diagnosis::of_parsing(tokens, refusal))),
    }
}

/// A refusal with both its places, what is wrong and what to do.
#[derive(Debug, Clone, PartialEq, Eq)]
pub struct Diagnosis {
    pub refusal: Refusal,
    /// The token that is meant: the one found.
    pub meant: Place,
    /// The place shown: the refusal's span. For 31 to 34 and 36 the token after the one meant.
    pub shown: Place,
    /// The token shown, in plain words, where it is another than the one meant.
    pub shown_token: Option<String>,
    /// Where something is missing, right after the last token before it.
    pub gap: Option<Gap>,
    /// What is wrong, without the places.
    pub message: String,
    /// What to do, in one sentence.
    pub advice: String,
}

impl Diagnosis {
    /// Explains a refusal of [`Tokens::read`].
    pub fn of_reading(source: &[u8], refusal: Refusal) -> Self {
        let end = refusal.span.start.min(source.len());
        let mut rows = TokenRows::new();
        Self::after(source, rows.read(&source[..end]).ok(), refusal)
    }

    /// Explains a refusal of reading that comes after these tokens.
    pub(crate) fn after(source: &[u8], before: Option<Tokens<'_>>, refusal: Refusal) -> Self {
        let place = Place::of(source, refusal.span);
        let Span { start, end } = refusal.span;
        let spelling = source
            .get(start..end)
            .and_then(|bytes| std::str::from_utf8(bytes).ok());
        Self {
            refusal,
            meant: place,
            shown: place,
            shown_token: None,
            gap: None,
            message: messages::message(&refusal, spelling.filter(|text| !text.is_empty())),
            advice: advice::reading(source, &refusal, before),
        }
    }

    /// Explains a refusal of [`Tree::parse`](crate::rows::Tree::parse) over these tokens.
    pub fn of_parsing(tokens: Tokens<'_>, refusal: Refusal) -> Self {
        let source = tokens.source().as_bytes();
        let shown = Place::of(source, refusal.span);
        let found = meant(tokens, &refusal);
        let token = found.and_then(|at| tokens.get(at));
        let differs = token.is_some_and(|token| token.span() != refusal.span);
        let next = found.filter(|_| differs).and_then(|at| tokens.get(at + 1));
        Self {
            refusal,
            meant: token.map_or(shown, |token| Place::of(source, token.span())),
            shown,
            shown_token: next.map(|next| messages::describe(next.kind(), next.spelling())),
            gap: found.and_then(|at| gap::gap(tokens, at, &refusal)),
            message: messages::message(&refusal, token.map(|token| token.spelling())),
            advice: advice::parsing(tokens, found, &refusal),
        }
    }

    /// Whether the place shown is another than the token meant.
    pub fn differs(&self) -> bool {
        self.meant.span != self.shown.span
    }
}

impl fmt::Display for Diagnosis {
    /// What is wrong and both places, on one line.
    fn fmt(&self, out: &mut fmt::Formatter<'_>) -> fmt::Result {
        write!(out, "{}: {}", self.meant, self.message)?;
        if let Some(token) = &self.shown_token {
            write!(
                out,
                "; the place shown, {}, comes after it: {token}",
                self.shown
            )?;
        }
        Ok(())
    }
}

impl Error for Diagnosis {}

/// The index of the token that a refusal of parsing means.
///
/// The tokens of a literal share its span, so the one shown is the first with that span or follows it. The token before
/// is meant, unless only a literal's own first token has the kind found, as in `<'ab'>`.
fn meant(tokens: Tokens<'_>, refusal: &Refusal) -> Option<usize> {
    let shown = tokens.position(refusal.span)?;
    if !refusal.shows_the_token_after() {
        return Some(shown);
    }
    let has = |at: usize| tokens.get(at).map(|token| token.kind()) == refusal.found_kind();
    match shown.checked_sub(1) {
        Some(before) if has(before) => Some(before),
        _ => Some(shown),
    }
}

/// The kinds that open and close the same thing.
fn closing(kind: Kind) -> Option<Kind> {
    match kind {
        Kind::LParen => Some(Kind::RParen),
        Kind::LAngle => Some(Kind::RAngle),
        Kind::LBrace => Some(Kind::RBrace),
        _ => None,
    }
}
