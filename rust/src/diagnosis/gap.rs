//! The gap in which something is missing: right after the last token before it.

use super::Place;
use super::advice::{in_declaration, next_rule};
use super::sentence::{Part, part};
use crate::items::{between, kind, starts_an_item};
use crate::rows::{Kind, Tokens};
use crate::{Refusal, Span};

/// Where something is missing, and what.
#[derive(Debug, Clone, Copy, PartialEq, Eq)]
pub struct Gap {
    /// An empty span after the token that the missing text follows.
    pub place: Place,
    /// What to write there.
    pub write: &'static str,
    /// Whether the place is a guess from how the lines are set.
    pub guess: bool,
}

/// The gap that a refusal of parsing is about; `at` is the index of the token meant.
pub(super) fn gap(tokens: Tokens<'_>, at: usize, refusal: &Refusal) -> Option<Gap> {
    let before = at.checked_sub(1)?;
    match (refusal.number, refusal.found_kind()?, part(tokens, at)) {
        (34, Kind::Equals, Part::Result(start)) => {
            let doubled = kind(tokens, before)? == Kind::Equals;
            let last = last_of_the_sentence_before(tokens, at).filter(|&last| last >= start)?;
            (!doubled).then(|| after(tokens, last, ";", true))?
        }
        (34, Kind::Entry | Kind::Extern, part) => item_gap(tokens, before, part),
        (34, Kind::LBrace, part) if next_rule(tokens, at) => {
            let part = match part {
                Part::Pattern(_) => Part::Pattern(before),
                other => other,
            };
            item_gap(tokens, before.checked_sub(1)?, part)
        }
        (35, found, _) if refusal.expected_kind()? == Kind::Semicolon => {
            let ended = found == Kind::Eof || starts_an_item(tokens, at);
            match (in_declaration(tokens, at), found) {
                (true, _) if ended => after(tokens, before, ";", false),
                (true, Kind::Identifier) => after(tokens, before, ",", false),
                (false, _) if !ended => after(tokens, before, ";", false),
                _ => None,
            }
        }
        _ => None,
    }
}

/// The gap before an item inside a rule that is not closed.
fn item_gap(tokens: Tokens<'_>, last: usize, part: Part) -> Option<Gap> {
    match part {
        Part::Pattern(start) if start == last + 1 => after(tokens, last, "}", false),
        Part::Result(_) => after(tokens, last, "}", false),
        _ => None,
    }
}

/// The last token of the line before the one on which a sentence's second `=` stands, or, where that starts its line, of the
/// line before its pattern's.
fn last_of_the_sentence_before(tokens: Tokens<'_>, equals: usize) -> Option<usize> {
    let first_of_line = |at: usize| {
        (0..=at)
            .rev()
            .find(|&at| at == 0 || between(tokens, at - 1).contains('\n'))
    };
    let first = first_of_line(equals)?;
    let first = if first == equals {
        first_of_line(equals.checked_sub(1)?)?
    } else {
        first
    };
    first.checked_sub(1)
}

fn after(tokens: Tokens<'_>, last: usize, write: &'static str, guess: bool) -> Option<Gap> {
    let end = tokens.get(last)?.span().end;
    let span = Span { start: end, end };
    Some(Gap {
        place: Place::of(tokens.source().as_bytes(), span),
        write,
        guess,
    })
}
