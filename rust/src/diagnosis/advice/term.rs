//! Advice on 34, a token that starts no term.

use super::words::{adjacent, comparison, decimal_comma, ends_its_line, unclosed};
use crate::diagnosis::braces::Braces;
use crate::diagnosis::sentence::{Part, part};
use crate::items::{kind, starts_an_item};
use crate::rows::{Kind, Tokens};

pub(super) fn none(tokens: Tokens<'_>, at: usize) -> String {
    let found = kind(tokens, at).unwrap_or(Kind::Eof);
    let this = found.words();
    let before = at.checked_sub(1);
    let beside = |kind_before: Kind| {
        before.is_some_and(|at| kind(tokens, at) == Some(kind_before) && adjacent(tokens, at))
    };
    match (part(tokens, at), found) {
        (Part::Open(open), _) => {
            let in_pattern = matches!(part(tokens, open), Part::Pattern(_) | Part::Tested(_));
            let compared = comparison(tokens, open).filter(|_| in_pattern);
            compared.unwrap_or_else(|| unclosed(tokens, open, this))
        }
        (_, Kind::RParen) => "Remove this `)`, or write the `(` that is missing before it.".into(),
        (_, Kind::RAngle) if beside(Kind::Equals) => {
            "Write `=` alone: `=>` is read as the signs `=` and `>`.".into()
        }
        (Part::Pattern(_) | Part::Tested(_), Kind::RAngle) if comparison(tokens, at).is_some() => {
            comparison(tokens, at).unwrap_or_default()
        }
        (_, Kind::RAngle) => "Remove this `>`, or write the `<` that is missing before it.".into(),
        (_, Kind::Entry | Kind::Extern) => next_item(tokens, at, at),
        (_, Kind::LBrace) if next_rule(tokens, at) => next_item(tokens, at, at - 1),
        (Part::Result(_), Kind::Equals) if beside(Kind::Equals) => "Write one `=`, not two.".into(),
        (Part::Result(_), Kind::Equals) => {
            "End the sentence before this one with `;`: a sentence has one `=`.".into()
        }
        (Part::Result(_), Kind::Comma) if decimal_comma(tokens, at).is_some() => {
            decimal_comma(tokens, at).unwrap_or_default()
        }
        (Part::Result(_), Kind::Comma | Kind::Colon) if ends_its_line(tokens, at) => {
            format!("Write `;` in place of this {this}: `;` ends a sentence.")
        }
        (Part::Result(_), Kind::Comma | Kind::Colon) => {
            "Write conditions before the `=`, not after it.".into()
        }
        (Part::Pattern(_), Kind::Colon) => {
            "Write `,` and what is tested before this `:`: a condition is `, tested : pattern`."
                .into()
        }
        (Part::Pattern(start), Kind::Semicolon) if start == at => no_sentence(tokens, at),
        (Part::Tested(_) | Part::Argument, Kind::LBrace) => {
            "Write `:` before the block's `{`.".into()
        }
        (_, Kind::LBrace) => "Write a block only after `:`, as in `, argument : { .. }`.".into(),
        (Part::Tested(comma), _) => decimal_comma(tokens, comma).unwrap_or_else(|| {
            format!(
                "Write `:` and a pattern before this {this}: a condition is `, tested : pattern`."
            )
        }),
        (Part::Argument, _) => {
            format!(
                "Write `:` and a block before this {this}: after `= ,` comes `argument : {{ .. }};`."
            )
        }
        _ => format!(
            "Write the `=` that is missing before this {this}: a sentence is `pattern = result;`."
        ),
    }
}

/// Whether a rule's name stands before this `{`: no sentence has a name beside `{`.
pub(in crate::diagnosis) fn next_rule(tokens: Tokens<'_>, at: usize) -> bool {
    let Some(name) = at.checked_sub(1) else {
        return false;
    };
    // In a condition a name before `{` may be what is tested, with its `:` left out.
    let alone = match part(tokens, at) {
        Part::Pattern(start) => start == name,
        Part::Result(start) => start < name && ends_its_line(tokens, name - 1),
        _ => false,
    };
    alone && starts_an_item(tokens, name)
}

/// Advice on the next item's first token `first`, inside a rule that is not closed.
fn next_item(tokens: Tokens<'_>, at: usize, first: usize) -> String {
    let braces = Braces::before(tokens, at);
    let name = tokens.get(first).map_or("", |token| token.spelling());
    let before = format!("this `{name}`");
    let unfinished = match part(tokens, first) {
        Part::Pattern(start) => start < first,
        Part::Result(_) => {
            return format!(
                "Finish {} before {before}: after its last sentence comes `}}`.",
                braces.rule()
            );
        }
        _ => true,
    };
    if unfinished {
        format!(
            "Finish {} before {before}: a sentence is `pattern = result;`, and after the last comes `}}`.",
            braces.rule()
        )
    } else {
        braces.write_the_missing(&before)
    }
}

/// Advice on a `;` where a sentence should start.
fn no_sentence(tokens: Tokens<'_>, at: usize) -> String {
    let braces = Braces::before(tokens, at);
    match braces.innermost() {
        Some(place) if braces.depth() > 1 => format!(
            "Remove this `;`, or, where the block is over, write the `}}` that closes the `{{` of {place} before it."
        ),
        _ => "Remove this `;`: one `;` ends a sentence.".into(),
    }
}
