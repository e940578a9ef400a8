//! Advice on refusals of reading.

use super::{character, quotes};
use crate::Refusal;
use crate::diagnosis::messages;
use crate::rows::{Kind, Token, Tokens};

/// A refusal of reading in its source, with the tokens before it.
pub(super) struct At<'a> {
    pub source: &'a [u8],
    pub refusal: &'a Refusal,
    pub before: Option<Tokens<'a>>,
}

impl<'a> At<'a> {
    /// The text that the refusal is about.
    pub fn text(&self) -> &'a str {
        let span = self.refusal.span;
        let bytes = self.source.get(span.start..span.end).unwrap_or_default();
        std::str::from_utf8(bytes).unwrap_or_default()
    }

    /// The letters, digits, `_` and `-` right after that text.
    pub fn word_after(&self) -> &'a str {
        let rest = self.source.get(self.refusal.span.end..).unwrap_or_default();
        let in_word = |byte: &u8| byte.is_ascii_alphanumeric() || b"_-".contains(byte);
        let end = rest.iter().position(|byte| !in_word(byte));
        std::str::from_utf8(&rest[..end.unwrap_or(rest.len())]).unwrap_or_default()
    }

    /// The byte after that text.
    fn byte_after(&self) -> Option<u8> {
        self.source.get(self.refusal.span.end).copied()
    }

    /// The token that ends right before that text.
    pub fn touching(&self) -> Option<Token<'a>> {
        let last = self.before?.iter().rev().nth(1)?;
        (last.span().end == self.refusal.span.start).then_some(last)
    }

    /// The variable without a point that ends right before, as `sN` does in `sName`.
    pub fn variable_before(&self) -> Option<&'a str> {
        let last = self.touching()?;
        let spelling = last.spelling();
        (last.kind() == Kind::Variable && !spelling.contains('.')).then_some(spelling)
    }

    fn closed_too_early(&self) -> Option<String> {
        quotes::closed_too_early(self.source, self.refusal.span.start, self.before?)
    }
}

pub(in crate::diagnosis) fn reading(
    source: &[u8],
    refusal: &Refusal,
    before: Option<Tokens<'_>>,
) -> String {
    let at = At {
        source,
        refusal,
        before,
    };
    let sentence = match refusal.number {
        1 => "Split the file in two and check each part.",
        2 => "Save the file as UTF-8 text in your editor.",
        10 => {
            return at
                .closed_too_early()
                .unwrap_or_else(|| character::unexpected(&at));
        }
        11 => {
            "Only `$ENTRY` and `$EXTRN` (also `$EXTERN`, `$EXTERNAL`) are known, in capital letters."
        }
        12 => "Write letters or digits right after the point, as in `s.Name`.",
        13 | 15 => "Shorten it to 15 characters or fewer.",
        14 => return at.closed_too_early().unwrap_or_else(|| name(&at)),
        16 => "Write a digit after the point, as in `1.0`, or leave the point out.",
        17 => {
            "Write a digit after the E, as in `1E5`, or after one sign there, as in `1E-5`, or leave the E and its sign out."
        }
        18 => {
            return format!(
                "Leave the sign out, or write a real number: `{}.0`.",
                at.text()
            );
        }
        19 => {
            return format!(
                "Write a smaller number, or a real one with a point: `{}.0`.",
                at.text()
            );
        }
        20 => {
            "Split it in two quoted texts with a space between them: without the space `'a''b'` is one text of three \
             characters."
        }
        21 => "Leave the two quotes out to write nothing, or write `''''` for one quote character.",
        22 | 23 => return at.closed_too_early().unwrap_or_else(|| unclosed(&at)),
        24 => "Write `*/` where the comment ends.",
        _ => "Lend as many rows as are needed.",
    };
    sentence.into()
}

/// Advice on 14, a name that starts otherwise than with A to Z.
fn name(at: &At<'_>) -> String {
    if let Some(variable) = at.variable_before() {
        return one_character_index(variable);
    }
    match at.text().as_bytes() {
        [b's' | b't' | b'e'] => {
            "Give the variable its index: one capital letter or digit, as in `s1`, or a point and a name, as in `s.x`."
                .into()
        }
        [letter @ (b's' | b't' | b'e'), rest @ ..] => format!(
            "Start a rule's or symbol's name with a capital letter; for a variable put a point after its letter: `{}.{}`.",
            *letter as char,
            messages::clip(&String::from_utf8_lossy(rest))
        ),
        [b'-'] if at.byte_after() == Some(b'>') => {
            "Write `=` between pattern and result, not `->`.".into()
        }
        [b'-' | b'_', ..] => {
            "Start the name with a capital letter, or write the character in quotes: `'-'`.".into()
        }
        _ => "Start a name with a capital letter, or write it in quotes if it is text.".into(),
    }
}

fn unclosed(at: &At<'_>) -> String {
    let quote = at.source.get(at.refusal.span.start).copied();
    let quote = quote.map_or('\'', char::from);
    format!(
        "Close it with `{quote}` on the line where it opens; `{quote}{quote}` inside quoted text is one quote character and \
         does not close it."
    )
}

pub(super) fn one_character_index(variable: &str) -> String {
    let letter = &variable[..1];
    format!(
        "`{variable}` is a whole variable, as `s1s2s3` is three: for a longer index put a point after the {letter}, as in \
         `{letter}.Name`."
    )
}
