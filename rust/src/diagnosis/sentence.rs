//! In which part of a sentence a token stands.

use crate::items::kind;
use crate::rows::{Kind, Tokens};

/// What the tokens before a place leave unfinished. Indices are those of tokens.
#[derive(Debug, Clone, Copy)]
pub(super) enum Part {
    /// Inside this `(` or `<`.
    Open(usize),
    /// A sentence's pattern, or a condition's after its `:`, from this token on.
    Pattern(usize),
    /// What a condition tests, after this comma, before its `:`.
    Tested(usize),
    /// After `=`, from this token on.
    Result(usize),
    /// After `= ,`, before the block's `:`.
    Argument,
}

/// The part that the token at `at` stands in. All before it was parsed, so that what is closed was opened.
pub(super) fn part(tokens: Tokens<'_>, at: usize) -> Part {
    let mut closed = 0;
    for index in (0..at).rev() {
        match kind(tokens, index) {
            Some(Kind::RParen | Kind::RAngle) => closed += 1,
            Some(Kind::LParen | Kind::LAngle) if closed > 0 => closed -= 1,
            Some(Kind::LParen | Kind::LAngle) => return Part::Open(index),
            Some(Kind::Equals) => return Part::Result(index + 1),
            Some(Kind::Comma) => return after_comma(tokens, index),
            Some(Kind::Colon | Kind::LBrace | Kind::RBrace | Kind::Semicolon) => {
                return Part::Pattern(index + 1);
            }
            _ => {}
        }
    }
    Part::Pattern(0)
}

fn after_comma(tokens: Tokens<'_>, comma: usize) -> Part {
    match comma.checked_sub(1).and_then(|at| kind(tokens, at)) {
        Some(Kind::Equals) => Part::Argument,
        _ => Part::Tested(comma),
    }
}
