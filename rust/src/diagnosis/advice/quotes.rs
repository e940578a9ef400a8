//! Advice on an apostrophe that closes a literal too early, as in `'it's kept'`.

use super::super::messages;
use crate::rows::{Kind, Tokens};

/// Characters of a literal that advice shows.
const SHOWN: usize = 60;

/// The literal with its quote doubled, where one ends at the place `at`, or before words that touch it, and that quote stands
/// on the line again.
pub(super) fn closed_too_early(source: &[u8], at: usize, before: Tokens<'_>) -> Option<String> {
    let mut end = at;
    let literal = before
        .iter()
        .rev()
        .skip(1)
        .map_while(|token| {
            let touches = token.span().end == end;
            end = token.span().start;
            touches.then_some(token)
        })
        .find(|token| {
            !matches!(
                token.kind(),
                Kind::Identifier | Kind::Variable | Kind::Number
            )
        })
        .filter(|token| token.kind() == Kind::Char)?;
    let span = literal.span();
    let quote = *source.get(span.start)?;
    let rest = &source[span.end..];
    let line = rest.split(|&byte| byte == b'\n').next()?;
    let close = line.iter().position(|&byte| byte == quote)?;
    // A word goes on right after the quote.
    line.first().filter(|byte| byte.is_ascii_alphanumeric())?;
    let text = |from: usize, to: usize| String::from_utf8_lossy(&source[from..to]).into_owned();
    let (first, second) = (
        text(span.start + 1, span.end - 1),
        text(span.end, span.end + close),
    );
    let quote = char::from(quote);
    let other = if quote == '\'' { '"' } else { '\'' };
    let doubled = format!("{quote}{first}{quote}{quote}{second}{quote}");
    let doubled = messages::clip_to(&doubled, SHOWN);
    let changed = format!("{other}{first}{quote}{second}{other}");
    if first.contains(other) || second.contains(other) || first.contains(quote) {
        return Some(format!(
            "Write a `{quote}` twice where it belongs to the text: `{doubled}`."
        ));
    }
    Some(format!(
        "Write a `{quote}` twice where it belongs to the text: `{doubled}`, or use the other quotes: `{}`.",
        messages::clip_to(&changed, SHOWN)
    ))
}
