//! Advice on 10, an unexpected character.

use super::reading::{At, one_character_index};
use crate::diagnosis::characters::{Look, look};
use crate::diagnosis::messages;
use crate::rows::Kind;

pub(super) fn unexpected(at: &At<'_>) -> String {
    if let Some(variable) = at.variable_before() {
        return one_character_index(variable);
    }
    let text = at.text();
    match text {
        "*" => {
            return "Start a `*` comment at the start of its line, or, on the file's first line, as the file's first character."
                .into();
        }
        "\u{feff}" => return "Save the file as UTF-8 without a byte order mark.".into(),
        "+" => {
            return "Write a sign right before the digits of a real number, as in `+1.0`, or in quotes: `'+'`.".into();
        }
        "/" => return "Start a comment with `/*`, or write the character in quotes: `'/'`.".into(),
        "." => return point(at),
        _ => {}
    }
    match text.chars().next().map(look) {
        Some(Look::Quote) => "Use the straight quotes `'` or `\"` of the keyboard.".into(),
        Some(Look::Like(like)) => {
            format!("Write `{like}` of the keyboard: this is another character that looks like it.")
        }
        Some(Look::Nothing) => "Delete this character, which cannot be seen.".into(),
        _ => format!(
            "Remove it, or write it in quotes if it is text: `'{}'`.",
            messages::clip(text)
        ),
    }
}

/// Advice on a point that is no part of a number or variable.
fn point(at: &At<'_>) -> String {
    let word = at.word_after();
    let digits = word.starts_with(|c: char| c.is_ascii_digit());
    let touching = at.touching();
    match touching.map(|token| (token.kind(), token.text())) {
        Some((Kind::Identifier, letter @ ("E" | "S" | "T"))) => {
            let index = if word.is_empty() { "Name" } else { word };
            format!(
                "Write a variable's letter small: `{}.{index}`.",
                letter.to_ascii_lowercase()
            )
        }
        Some((Kind::Identifier, _)) => {
            "Write a point only after the letter of a variable, as in `s.Name`, and in a number; in a name write `-` or `_`."
                .into()
        }
        Some((Kind::Variable, _)) => {
            "Write one point in a variable, after its letter, as in `s.Name`.".into()
        }
        Some((Kind::Number, _)) => {
            "Write one point in a number, before its E, as in `1.5E2`.".into()
        }
        _ if digits => format!("Write a digit before the point: `0.{word}`."),
        _ => "Remove it, or write it in quotes if it is text: `'.'`.".into(),
    }
}
