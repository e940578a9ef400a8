//! Advice on 35, another kind than the one expected.

use super::item::closed_too_early;
use super::words::unclosed;
use crate::Refusal;
use crate::diagnosis::braces::Braces;
use crate::diagnosis::sentence::{Part, part};
use crate::items::{kind, starts_an_item};
use crate::rows::{Kind, Tokens};

pub(super) fn another(tokens: Tokens<'_>, at: usize, refusal: &Refusal) -> String {
    let before = at.checked_sub(1).and_then(|at| kind(tokens, at));
    let found = refusal.found_kind().unwrap_or(Kind::Eof);
    let this = found.words();
    // The rule is not closed where the file ends or the next item starts.
    let ended = found == Kind::Eof || starts_an_item(tokens, at);
    match (refusal.expected_kind(), before) {
        (Some(Kind::LBrace), Some(Kind::Colon)) => {
            "Write a block after the `:`: after `= ,` comes `argument : { .. };`.".into()
        }
        (Some(Kind::LBrace), _) => rule_without_brace(tokens, at),
        (Some(Kind::Semicolon), _) if in_declaration(tokens, at) => {
            "Write `,` between declared names and `;` after the last.".into()
        }
        (Some(Kind::RBrace), _) => Braces::before(tokens, at).write_the_missing(this),
        // The last sentence may be without its `;`.
        (Some(Kind::Semicolon), _) if ended => Braces::before(tokens, at).write_the_missing(this),
        (Some(Kind::RParen | Kind::RAngle), _) => match part(tokens, at) {
            Part::Open(open) => unclosed(tokens, open, this),
            _ => format!("Close what is open before {this}."),
        },
        (Some(Kind::Colon), _) => format!("Write `:` and a pattern or block before {this}."),
        (Some(Kind::Equals), Some(Kind::RBrace)) if ended => {
            let braces = Braces::before(tokens, at);
            braces.write_the_missing(&format!("{this}, with the rest of the sentence before it"))
        }
        (Some(Kind::Equals), Some(Kind::RBrace)) => {
            "Write `=` before the comma of a block that ends a sentence, as in `= , argument : { .. };`, or `=` and a \
             result after a condition's block."
                .into()
        }
        (Some(Kind::Equals), _) => format!("Write `=`, a result and `}}` before {this}."),
        _ => "Write `;` after the block's `}`.".into(),
    }
}

/// Advice on a rule's name without its `{`.
fn rule_without_brace(tokens: Tokens<'_>, at: usize) -> String {
    let name = at.saturating_sub(1);
    let text = |at: usize| tokens.get(at).map_or("", |token| token.text());
    if let Some(advice) = closed_too_early(tokens, name) {
        return advice;
    }
    if kind(tokens, at) == Some(Kind::Identifier) && kind(tokens, at + 1) == Some(Kind::LBrace) {
        let (first, second) = (text(name), text(at));
        return format!(
            "Write a rule's name as one word, as in `{first}-{second}`; a sentence stands inside its rule's `{{ }}`."
        );
    }
    "Write `{` after the rule's name, and `}` after its last sentence.".into()
}

/// Whether only names and commas stand between here and an Extern.
pub(in crate::diagnosis) fn in_declaration(tokens: Tokens<'_>, at: usize) -> bool {
    (0..at)
        .rev()
        .filter_map(|index| kind(tokens, index))
        .find(|kind| !matches!(kind, Kind::Identifier | Kind::Comma))
        == Some(Kind::Extern)
}
