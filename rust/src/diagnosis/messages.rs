//! What each refusal says, in plain words.

use std::borrow::Cow;

use super::characters;
use crate::Refusal;
use crate::raw::MAX_BYTES;
use crate::rows::Kind;

/// Characters of a spelling that a message shows.
const SHOWN: usize = 24;

/// What is wrong. `spelling` is the text that the refusal is about, where it is known.
pub(crate) fn message(refusal: &Refusal, spelling: Option<&str>) -> String {
    let text = spelling.map_or(String::new(), |text| format!(" `{}`", clip(text)));
    let character = spelling.and_then(|text| text.chars().next());
    let need = refusal.need;
    match refusal.number {
        1 => format!("the file is longer than {} bytes", grouped(MAX_BYTES)),
        2 => "the bytes from here on are not UTF-8 text".into(),
        10 => format!(
            "the character{} has no meaning here",
            character.map_or(String::new(), |character| format!(
                " {}",
                characters::shown(character)
            ))
        ),
        11 => format!("there is no directive{text}"),
        12 => format!("the variable{text} has no index after its point"),
        13 => format!("the index of the variable{text} is longer than 15 characters"),
        14 => format!("the name{text} does not start with one of A to Z"),
        15 => format!("the name{text} is longer than 15 characters"),
        16 => format!("the number{text} has no digit after its point"),
        17 if spelling.is_some_and(|text| text.ends_with(['+', '-'])) => {
            format!("the number{text} has no digit after the sign behind its E")
        }
        17 => format!("the number{text} has no digit after its E"),
        18 => format!("the number{text} has a sign but no point and no E"),
        19 => format!("the number{text} is over 4294967295"),
        20 => "the quoted text is longer than 255 characters".into(),
        21 => "the quotes hold no text".into(),
        22 => "the quoted text is not closed on its line".into(),
        23 => "the quoted text is not closed".into(),
        24 => "the comment is not closed".into(),
        25 => format!("{need} token rows are needed, and fewer were lent"),
        30 => "the rows are no list of tokens with Eof once, at its end".into(),
        31 => format!(
            "a declaration wants a name, but finds {}",
            found(refusal, spelling)
        ),
        32 => format!(
            "a rule's name is wanted here, but {} is found",
            found(refusal, spelling)
        ),
        33 => format!(
            "a call wants a function's name after its `<`, but finds {}",
            found(refusal, spelling)
        ),
        34 => format!("{} has no place here", found(refusal, spelling)),
        35 => {
            let wanted = refusal
                .expected_kind()
                .map_or("another token", |kind| kind.words());
            format!(
                "{wanted} is wanted here, but {} is found",
                found(refusal, spelling)
            )
        }
        36 => format!("the letter of the variable{text} is not s, t or e"),
        37 => "a 65th bracket, call or block is opened inside 64 others".into(),
        38 => format!("{need} node rows are needed, and fewer were lent"),
        40 => "the rows are no lawful tree of depth 64 or less".into(),
        41 => "a text of the tree is not in the source, or is not spelled as its kind is".into(),
        42 if need > MAX_BYTES as u64 => {
            format!(
                "the written text has {need} bytes; at most {} are written",
                grouped(MAX_BYTES)
            )
        }
        42 => format!("{need} bytes are needed for the text, and fewer were lent"),
        50 => "the output is shorter than the name".into(),
        60 => "two functions have equal names".into(),
        61 => "a call names neither a function nor a declared name".into(),
        62 => "a variable is used where it is not bound".into(),
        64 => "the text is not just one number with a point or an E".into(),
        65 => "the exponent has more than nine digits".into(),
        66 => format!("{need} bytes are needed for the digits, and fewer were lent"),
        _ => "the call is refused".into(),
    }
}

/// The token found, with its spelling where it is known.
fn found(refusal: &Refusal, spelling: Option<&str>) -> String {
    match (refusal.found_kind(), spelling) {
        (Some(kind), Some(text)) => describe(kind, text),
        (Some(kind), None) => kind.words().into(),
        (None, _) => "something else".into(),
    }
}

/// A token in plain words.
pub(crate) fn describe(kind: Kind, spelling: &str) -> String {
    let what = match kind {
        Kind::Identifier => "the name",
        Kind::Variable => "the variable",
        Kind::Number => "the number",
        Kind::Char => "the quoted text",
        Kind::Eof => return kind.words().into(),
        _ => return format!("`{}`", clip(spelling)),
    };
    format!("{what} `{}`", clip(spelling))
}

/// The start of a text, on one line and fit to be printed.
pub(crate) fn clip(text: &str) -> Cow<'_, str> {
    clip_to(text, SHOWN)
}

/// The first characters of a text, at most so many, on one line and fit to be printed.
pub(crate) fn clip_to(text: &str, most: usize) -> Cow<'_, str> {
    let plain = |c: char| !characters::cannot_be_seen(c);
    let end = text.char_indices().nth(most).map(|(at, _)| at);
    if end.is_none() && text.chars().all(plain) {
        return Cow::Borrowed(text);
    }
    let mut shown = String::new();
    for c in text[..end.unwrap_or(text.len())].chars() {
        if plain(c) {
            shown.push(c);
        } else {
            shown.extend(c.escape_default());
        }
    }
    if end.is_some() {
        shown.push('…');
    }
    Cow::Owned(shown)
}

/// A number with its thousands parted by commas.
pub(crate) fn grouped(number: usize) -> String {
    let digits = number.to_string();
    let mut out = String::new();
    for (at, digit) in digits.char_indices() {
        if at > 0 && (digits.len() - at).is_multiple_of(3) {
            out.push(',');
        }
        out.push(digit);
    }
    out
}

#[cfg(test)]
mod tests {
    use super::*;

    #[test]
    fn thousands() {
        assert_eq!(grouped(0), "0");
        assert_eq!(grouped(999), "999");
        assert_eq!(grouped(1000), "1,000");
        assert_eq!(grouped(MAX_BYTES), "16,777,216");
    }

    #[test]
    fn clipped() {
        assert_eq!(clip("Foo"), "Foo");
        assert_eq!(clip("a\nb"), "a\\nb");
        assert_eq!(clip("\u{1b}[31m"), "\\u{1b}[31m");
        assert_eq!(clip(&"é".repeat(24)), "é".repeat(24));
        assert_eq!(clip(&"é".repeat(25)), format!("{}…", "é".repeat(24)));
    }
}
