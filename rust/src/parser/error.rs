//! Why a list of tokens is not parsed.

use std::error::Error;
use std::fmt;

use crate::Refusal;
use crate::diagnosis::{Place, messages};
use crate::lexer::{Span, Token, TokenKind};

/// Why a list of tokens is not parsed.
#[derive(Debug, Clone, PartialEq, Eq)]
pub struct ParseError {
    /// What is wrong and where, in plain words: the token meant, and the place shown where it is another.
    pub message: String,
    /// The place shown.
    pub span: Span,
    /// The span of the token meant.
    pub meant: Span,
    /// The library's own answer.
    pub refusal: Refusal,
}

impl ParseError {
    /// Explains a refusal whose span holds token indices.
    pub(super) fn new(refusal: Refusal, tokens: &[Token], source: Option<&str>) -> Self {
        let index = refusal.span.start;
        let meant = index - usize::from(refusal.shows_the_token_after());
        match (tokens.get(meant), tokens.get(index)) {
            (Some(meant), Some(shown)) if matches!(refusal.number, 31..=37) => {
                let message = message(&refusal, meant, shown, source);
                Self::at(refusal, shown.span, meant.span, message)
            }
            _ => {
                let none = Span { start: 0, end: 0 };
                Self::at(refusal, none, none, messages::message(&refusal, None))
            }
        }
    }

    fn at(refusal: Refusal, shown: Span, meant: Span, message: String) -> Self {
        Self {
            message,
            span: shown,
            meant,
            refusal: Refusal {
                span: shown.into(),
                ..refusal
            },
        }
    }
}

impl fmt::Display for ParseError {
    fn fmt(&self, out: &mut fmt::Formatter<'_>) -> fmt::Result {
        out.write_str(&self.message)
    }
}

impl Error for ParseError {}

/// What is wrong, with the token meant and the place shown.
fn message(refusal: &Refusal, meant: &Token, shown: &Token, source: Option<&str>) -> String {
    let what = messages::message(refusal, Some(&spelling(&meant.kind)));
    let mut message = format!("{}: {what}", place(meant.span, source));
    if refusal.shows_the_token_after() {
        let next = messages::describe(shown.kind.kind(), &spelling(&shown.kind));
        let place = place(shown.span, source);
        message += &format!("; the place shown, {place}, comes after it: {next}");
    }
    message
}

/// Line and column where the source is at hand, else bytes.
fn place(span: Span, source: Option<&str>) -> String {
    match source {
        Some(source) => Place::of(source.as_bytes(), span.into()).to_string(),
        None => format!("bytes {}-{}", span.start, span.end),
    }
}

/// A token as writing spells it.
fn spelling(kind: &TokenKind) -> String {
    match kind {
        TokenKind::Identifier(name) => name.clone(),
        TokenKind::Number(number) => number.clone(),
        TokenKind::Variable { kind, name } => format!("{kind}.{name}"),
        TokenKind::Char('\'') => "''''".into(),
        TokenKind::Char(character) => format!("'{character}'"),
        other => other.kind().words().trim_matches('`').into(),
    }
}
