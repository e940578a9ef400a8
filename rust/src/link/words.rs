//! What is said of two files that cannot be linked, in plain words.

use super::Named;
use super::bound::Relation;
use crate::diagnosis::messages::clip;

/// What is wrong.
#[derive(Debug, Clone, Copy)]
pub(super) enum What {
    /// Two functions of one name.
    Repeated,
    /// A name that nothing has.
    Missing,
    /// A variable that is not bound, with what explains it.
    Unbound(Option<Relation>),
}

/// What is wrong, without the places.
pub(super) fn message(what: What, shown: &Named, other: Option<&Named>) -> String {
    let name = clip(&shown.name);
    match (what, other) {
        (What::Repeated, Some(first)) if first.name != shown.name => {
            let first = clip(&first.name);
            format!("the rule `{name}` has the same name as the rule `{first}`")
        }
        (What::Repeated, _) => format!("another rule has the name `{name}` already"),
        (What::Missing, _) => format!("no rule and no declared function has the name `{name}`"),
        (What::Unbound(Some(Relation::Later)), _) => {
            format!("the variable `{name}` is used before it is matched")
        }
        (What::Unbound(Some(Relation::Block)), _) => {
            format!("the variable `{name}` is matched only in a block that ends before this use")
        }
        (What::Unbound(Some(Relation::Sentence)), _) => {
            format!("the variable `{name}` is matched only in another sentence")
        }
        (What::Unbound(_), _) => format!("the variable `{name}` was never matched"),
    }
}

/// What to do about it.
pub(super) fn advice(what: What, shown: &Named, other: Option<&Named>) -> String {
    let name = clip(&shown.name);
    match (what, other) {
        (What::Repeated, Some(first)) if first.name != shown.name => {
            "Give one of the two another name, or remove it: small and capital letters are the same in a name, and so are `-` and `_`."
                .into()
        }
        (What::Repeated, _) => "Give one of the two another name, or remove it.".into(),
        (What::Missing, Some(nearest)) => format!(
            "Write `{}` if that is meant; otherwise write a rule `{name}`, or declare it with `$EXTRN {name};`.",
            clip(&nearest.name)
        ),
        (What::Missing, None) => {
            format!("Write a rule `{name}`, or declare it with `$EXTRN {name};`.")
        }
        (What::Unbound(Some(Relation::Later)), _) => {
            format!("Match `{name}` before this, or write a variable that is matched before.")
        }
        (What::Unbound(Some(Relation::Block)), _) => format!(
            "What a block matches ends with it: match `{name}` outside the block, or use it inside."
        ),
        (What::Unbound(Some(Relation::Sentence)), _) => {
            format!("Each sentence matches its own variables: write `{name}` in this one's pattern.")
        }
        (What::Unbound(_), Some(nearest)) => format!(
            "Write `{}` if that is meant; otherwise write `{name}` in the pattern, or behind the `:` of a condition.",
            clip(&nearest.name)
        ),
        (What::Unbound(_), None) => {
            format!("Write `{name}` in the pattern, or behind the `:` of a condition.")
        }
    }
}
