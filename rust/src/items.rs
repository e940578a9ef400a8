//! Where items start in a list of tokens.

use crate::rows::{Kind, Tokens};

/// The first token of the item that the token `found` stands in. All before `found` was parsed, so that each item before it
/// is whole.
pub(crate) fn start_of_item(tokens: Tokens<'_>, found: usize) -> usize {
    let mut start = 0;
    loop {
        while kind(tokens, start) == Some(Kind::Semicolon) && start < found {
            start += 1;
        }
        match end_of_item(tokens, start, found) {
            Some(end) => start = end,
            None => return start.min(found),
        }
    }
}

/// The token after an item that ends before `found`.
fn end_of_item(tokens: Tokens<'_>, start: usize, found: usize) -> Option<usize> {
    let declaration = kind(tokens, start) == Some(Kind::Extern);
    let mut open = 0;
    for at in start..found {
        match kind(tokens, at)? {
            Kind::Semicolon if declaration => return Some(at + 1),
            Kind::LBrace => open += 1,
            Kind::RBrace if open <= 1 => return Some(at + 1),
            Kind::RBrace => open -= 1,
            _ => {}
        }
    }
    None
}

/// Whether an item starts at this token for certain, or, as far as can be told, with a name and `{`, which stand beside each
/// other nowhere else.
pub(crate) fn starts_an_item(tokens: Tokens<'_>, at: usize) -> bool {
    starts_for_certain(tokens, at)
        || kind(tokens, at) == Some(Kind::Identifier)
            && kind(tokens, at + 1) == Some(Kind::LBrace)
            && at
                .checked_sub(1)
                .is_none_or(|before| kind(tokens, before) != Some(Kind::Entry))
}

/// Whether this token can only start an item.
pub(crate) fn starts_for_certain(tokens: Tokens<'_>, at: usize) -> bool {
    matches!(kind(tokens, at), Some(Kind::Entry | Kind::Extern))
}

pub(crate) fn kind(tokens: Tokens<'_>, at: usize) -> Option<Kind> {
    tokens.get(at).map(|token| token.kind())
}

/// The source between a token and the next; nothing between the characters of a literal, which share its span.
pub(crate) fn between(tokens: Tokens<'_>, at: usize) -> &str {
    match (tokens.get(at), tokens.get(at + 1)) {
        (Some(this), Some(next)) => {
            let (end, start) = (this.span().end, next.span().start);
            tokens.source().get(end..start).unwrap_or("")
        }
        _ => "",
    }
}
