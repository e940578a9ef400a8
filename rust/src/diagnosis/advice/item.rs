//! Advice on 32, an item without a name, on 33, a call without one, and on a sentence outside its rule.

use super::words::{comparison, place};
use crate::diagnosis::braces::Braces;
use crate::diagnosis::sentence::{Part, part};
use crate::items::{kind, starts_an_item};
use crate::rows::{Kind, Tokens};

/// Advice on 32.
pub(super) fn no_name(tokens: Tokens<'_>, at: usize) -> String {
    let next = kind(tokens, at + 1);
    match kind(tokens, at) {
        Some(Kind::RBrace) => {
            "Remove this `}`, or write the `{` that is missing before it.".into()
        }
        Some(Kind::LBrace) => "Write the rule's name before its `{`.".into(),
        Some(Kind::Variable) if next == Some(Kind::LBrace) => {
            "Start a rule's name with a capital letter: s, t or e with an index is a variable.".into()
        }
        _ => closed_too_early(tokens, at).unwrap_or_else(|| {
            "Outside rules write only `Name { .. }`, `$ENTRY Name { .. }` or `$EXTRN Name, ..;`.".into()
        }),
    }
}

/// Advice on a sentence, from its token `first` on, that stands after the `}` of its rule.
pub(super) fn closed_too_early(tokens: Tokens<'_>, first: usize) -> Option<String> {
    let close = first.checked_sub(1)?;
    let lacks_its_brace = || {
        // The rule's own `}` is left over, before the next item.
        let mut open = 0usize;
        for at in first.. {
            match kind(tokens, at)? {
                Kind::Eof => return None,
                _ if open == 0 && at > first && starts_an_item(tokens, at) => return None,
                Kind::LBrace => open += 1,
                Kind::RBrace if open == 0 => return Some(()),
                Kind::RBrace => open -= 1,
                _ => {}
            }
        }
        None
    };
    (kind(tokens, close)? == Kind::RBrace).then_some(())?;
    lacks_its_brace()?;
    let rule = Braces::before(tokens, close).rule();
    Some(format!(
        "Remove the `}}` of {}: it closes {rule} before this sentence.",
        place(tokens, close)
    ))
}

/// Advice on 33.
pub(super) fn call(tokens: Tokens<'_>, at: usize) -> String {
    let open = at.saturating_sub(1);
    let in_pattern = matches!(part(tokens, open), Part::Pattern(_) | Part::Tested(_));
    comparison(tokens, open)
        .filter(|_| in_pattern)
        .unwrap_or_else(|| {
            "Write the function's name right after `<`, or write `'<'` if the character itself is meant."
                .into()
        })
}
