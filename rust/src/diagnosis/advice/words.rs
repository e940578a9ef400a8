//! Tokens beside each other, and pieces of sentences that more than one kind of advice uses.

use super::super::{Place, closing};
use crate::items::{between, kind};
use crate::rows::{Kind, Tokens};

/// Whether nothing stands between a token and the next.
pub(super) fn adjacent(tokens: Tokens<'_>, at: usize) -> bool {
    match (tokens.get(at), tokens.get(at + 1)) {
        (Some(this), Some(next)) => this.span().end == next.span().start,
        _ => false,
    }
}

/// Whether a line, or the file, ends between a token and the next.
pub(super) fn ends_its_line(tokens: Tokens<'_>, at: usize) -> bool {
    matches!(kind(tokens, at + 1), None | Some(Kind::Eof)) || between(tokens, at).contains('\n')
}

/// A token's place, as in "line 2, column 3".
pub(super) fn place(tokens: Tokens<'_>, at: usize) -> Place {
    let span = tokens
        .get(at)
        .map_or(crate::Span { start: 0, end: 0 }, |token| token.span());
    Place::of(tokens.source().as_bytes(), span)
}

/// Advice on a bracket or call that is open.
pub(super) fn unclosed(tokens: Tokens<'_>, open: usize, this: &str) -> String {
    let kind = kind(tokens, open).unwrap_or(Kind::LParen);
    let close = closing(kind).map_or("", |kind| kind.words());
    let place = place(tokens, open);
    format!(
        "Write the {close} that closes the {} of {place} before {this}.",
        kind.words()
    )
}

/// Advice on a comma between the digits of a number, as in `150,5`.
pub(super) fn decimal_comma(tokens: Tokens<'_>, comma: usize) -> Option<String> {
    let before = comma.checked_sub(1)?;
    let number = |at: usize| tokens.get(at).filter(|token| token.kind() == Kind::Number);
    let (whole, part) = (number(before)?, number(comma + 1)?);
    let joined = adjacent(tokens, before) && adjacent(tokens, comma);
    let plain = |text: &str| text.bytes().all(|byte| byte.is_ascii_digit());
    (joined && kind(tokens, comma) == Some(Kind::Comma) && plain(part.text())).then(|| {
        format!(
            "Write a point in a number, not a comma: `{}.{}`.",
            whole.text(),
            part.text()
        )
    })
}

/// Advice on `<` or `>` between two values, as in `s.Year > 5`.
pub(super) fn comparison(tokens: Tokens<'_>, sign: usize) -> Option<String> {
    let value = |at: usize| {
        tokens
            .get(at)
            .filter(|token| matches!(token.kind(), Kind::Variable | Kind::Number))
    };
    let left = value(sign.checked_sub(1)?)?;
    // `>=` and `<=` are two signs too.
    let equal = kind(tokens, sign + 1) == Some(Kind::Equals) && adjacent(tokens, sign);
    let right = tokens.get(sign + 1 + usize::from(equal))?;
    let right = match right.kind() {
        Kind::Variable | Kind::Number | Kind::Identifier => right.spelling(),
        _ => return None,
    };
    let answer = match kind(tokens, sign)? {
        Kind::LAngle => "-",
        _ => "+",
    };
    Some(format!(
        "There is no sign that compares: `<` and `>` stand around a call. Call a function that compares, as in `, <Compare \
         {} {right}> : '{answer}'`.",
        left.spelling()
    ))
}
