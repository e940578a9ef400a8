//! What to do about a refusal, in one sentence for people who do not program.

mod character;
mod expected;
mod item;
mod quotes;
mod reading;
mod term;
mod words;

pub(super) use expected::in_declaration;
pub(super) use reading::reading;
pub(super) use term::next_rule;

use crate::Refusal;
use crate::rows::Tokens;

/// Advice on a refusal of parsing; `found` is the index of the token meant.
pub(super) fn parsing(tokens: Tokens<'_>, found: Option<usize>, refusal: &Refusal) -> String {
    let Some(at) = found else {
        return "Give parsing the tokens as reading gives them.".into();
    };
    match refusal.number {
        31 => {
            "Name the functions, with commas between them and `;` at the end, as in `$EXTRN Foo, Bar;`."
                .into()
        }
        32 => item::no_name(tokens, at),
        33 => item::call(tokens, at),
        34 => term::none(tokens, at),
        35 => expected::another(tokens, at, refusal),
        36 => "Start a variable with s, t or e.".into(),
        37 => "Move the inner part into a rule of its own and call that.".into(),
        _ => "Lend as many rows as are needed.".into(),
    }
}
