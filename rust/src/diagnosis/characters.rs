//! Characters that are not what they look like, or cannot be seen, by their names.

use std::borrow::Cow;

/// What a character is mistaken for.
#[derive(Debug, Clone, Copy, PartialEq, Eq)]
pub(crate) enum Look {
    /// It looks like this character of the keyboard.
    Like(char),
    /// It is a quote of print.
    Quote,
    /// It cannot be seen.
    Nothing,
    /// It looks like itself.
    Itself,
}

/// Names of characters that get into sources by accident.
const NAMES: [(char, Look, &str); 92] = {
    use Look::{Itself, Like, Nothing, Quote};
    [
        ('`', Quote, "grave accent"),
        ('\u{ab}', Quote, "left-pointing double angle quotation mark"),
        ('\u{ad}', Nothing, "soft hyphen"),
        ('\u{b4}', Quote, "acute accent"),
        (
            '\u{bb}',
            Quote,
            "right-pointing double angle quotation mark",
        ),
        ('\u{d7}', Like('x'), "multiplication sign"),
        ('\u{34f}', Nothing, "combining grapheme joiner"),
        ('\u{37e}', Like(';'), "Greek question mark"),
        ('\u{391}', Like('A'), "Greek capital letter alpha"),
        ('\u{392}', Like('B'), "Greek capital letter beta"),
        ('\u{395}', Like('E'), "Greek capital letter epsilon"),
        ('\u{396}', Like('Z'), "Greek capital letter zeta"),
        ('\u{397}', Like('H'), "Greek capital letter eta"),
        ('\u{399}', Like('I'), "Greek capital letter iota"),
        ('\u{39a}', Like('K'), "Greek capital letter kappa"),
        ('\u{39c}', Like('M'), "Greek capital letter mu"),
        ('\u{39d}', Like('N'), "Greek capital letter nu"),
        ('\u{39f}', Like('O'), "Greek capital letter omicron"),
        ('\u{3a1}', Like('P'), "Greek capital letter rho"),
        ('\u{3a4}', Like('T'), "Greek capital letter tau"),
        ('\u{3a5}', Like('Y'), "Greek capital letter upsilon"),
        ('\u{3a7}', Like('X'), "Greek capital letter chi"),
        ('\u{3bf}', Like('o'), "Greek small letter omicron"),
        ('\u{405}', Like('S'), "Cyrillic capital letter dze"),
        ('\u{406}', Like('I'), "Cyrillic capital letter i"),
        ('\u{408}', Like('J'), "Cyrillic capital letter je"),
        ('\u{410}', Like('A'), "Cyrillic capital letter a"),
        ('\u{412}', Like('B'), "Cyrillic capital letter ve"),
        ('\u{415}', Like('E'), "Cyrillic capital letter ie"),
        ('\u{41a}', Like('K'), "Cyrillic capital letter ka"),
        ('\u{41c}', Like('M'), "Cyrillic capital letter em"),
        ('\u{41d}', Like('H'), "Cyrillic capital letter en"),
        ('\u{41e}', Like('O'), "Cyrillic capital letter o"),
        ('\u{420}', Like('P'), "Cyrillic capital letter er"),
        ('\u{421}', Like('C'), "Cyrillic capital letter es"),
        ('\u{422}', Like('T'), "Cyrillic capital letter te"),
        ('\u{423}', Like('Y'), "Cyrillic capital letter u"),
        ('\u{425}', Like('X'), "Cyrillic capital letter ha"),
        ('\u{430}', Like('a'), "Cyrillic small letter a"),
        ('\u{435}', Like('e'), "Cyrillic small letter ie"),
        ('\u{43e}', Like('o'), "Cyrillic small letter o"),
        ('\u{440}', Like('p'), "Cyrillic small letter er"),
        ('\u{441}', Like('c'), "Cyrillic small letter es"),
        ('\u{442}', Like('t'), "Cyrillic small letter te"),
        ('\u{443}', Like('y'), "Cyrillic small letter u"),
        ('\u{445}', Like('x'), "Cyrillic small letter ha"),
        ('\u{455}', Like('s'), "Cyrillic small letter dze"),
        ('\u{456}', Like('i'), "Cyrillic small letter i"),
        ('\u{458}', Like('j'), "Cyrillic small letter je"),
        ('\u{61c}', Nothing, "Arabic letter mark"),
        ('\u{180e}', Nothing, "Mongolian vowel separator"),
        ('\u{200b}', Nothing, "zero width space"),
        ('\u{200c}', Nothing, "zero width non-joiner"),
        ('\u{200d}', Nothing, "zero width joiner"),
        ('\u{200e}', Nothing, "left-to-right mark"),
        ('\u{200f}', Nothing, "right-to-left mark"),
        ('\u{2010}', Like('-'), "hyphen"),
        ('\u{2011}', Like('-'), "non-breaking hyphen"),
        ('\u{2012}', Like('-'), "figure dash"),
        ('\u{2013}', Like('-'), "en dash"),
        ('\u{2014}', Like('-'), "em dash"),
        ('\u{2015}', Like('-'), "horizontal bar"),
        ('\u{2018}', Quote, "left single quotation mark"),
        ('\u{2019}', Quote, "right single quotation mark"),
        ('\u{201a}', Quote, "single low-9 quotation mark"),
        ('\u{201b}', Quote, "single high-reversed-9 quotation mark"),
        ('\u{201c}', Quote, "left double quotation mark"),
        ('\u{201d}', Quote, "right double quotation mark"),
        ('\u{201e}', Quote, "double low-9 quotation mark"),
        ('\u{201f}', Quote, "double high-reversed-9 quotation mark"),
        ('\u{2026}', Itself, "horizontal ellipsis"),
        ('\u{202a}', Nothing, "left-to-right embedding"),
        ('\u{202b}', Nothing, "right-to-left embedding"),
        ('\u{202c}', Nothing, "pop directional formatting"),
        ('\u{202d}', Nothing, "left-to-right override"),
        ('\u{202e}', Nothing, "right-to-left override"),
        ('\u{2032}', Quote, "prime"),
        ('\u{2033}', Quote, "double prime"),
        (
            '\u{2039}',
            Like('<'),
            "single left-pointing angle quotation mark",
        ),
        (
            '\u{203a}',
            Like('>'),
            "single right-pointing angle quotation mark",
        ),
        ('\u{2060}', Nothing, "word joiner"),
        ('\u{2066}', Nothing, "left-to-right isolate"),
        ('\u{2067}', Nothing, "right-to-left isolate"),
        ('\u{2068}', Nothing, "first strong isolate"),
        ('\u{2069}', Nothing, "pop directional isolate"),
        ('\u{2116}', Itself, "numero sign"),
        ('\u{2192}', Itself, "rightwards arrow"),
        ('\u{2212}', Like('-'), "minus sign"),
        ('\u{2236}', Like(':'), "ratio"),
        ('\u{2264}', Itself, "less-than or equal to"),
        ('\u{2265}', Itself, "greater-than or equal to"),
        ('\u{feff}', Nothing, "byte order mark"),
    ]
};

/// Names of the keyboard's signs, for their fullwidth forms.
const SIGNS: [(char, &str); 32] = [
    ('!', "exclamation mark"),
    ('"', "quotation mark"),
    ('#', "number sign"),
    ('$', "dollar sign"),
    ('%', "percent sign"),
    ('&', "ampersand"),
    ('\'', "apostrophe"),
    ('(', "left parenthesis"),
    (')', "right parenthesis"),
    ('*', "asterisk"),
    ('+', "plus sign"),
    (',', "comma"),
    ('-', "hyphen-minus"),
    ('.', "full stop"),
    ('/', "solidus"),
    (':', "colon"),
    (';', "semicolon"),
    ('<', "less-than sign"),
    ('=', "equals sign"),
    ('>', "greater-than sign"),
    ('?', "question mark"),
    ('@', "commercial at"),
    ('[', "left square bracket"),
    ('\\', "reverse solidus"),
    (']', "right square bracket"),
    ('^', "circumflex accent"),
    ('_', "low line"),
    ('`', "grave accent"),
    ('{', "left curly bracket"),
    ('|', "vertical line"),
    ('}', "right curly bracket"),
    ('~', "tilde"),
];

/// What a character looks like, and its name where it has one here.
fn known(character: char) -> (Look, Option<Cow<'static, str>>) {
    if let Ok(at) = NAMES.binary_search_by_key(&character, |known| known.0) {
        return (NAMES[at].1, Some(NAMES[at].2.into()));
    }
    let code = u32::from(character);
    let plain = (0xff01..=0xff5e)
        .contains(&code)
        .then(|| char::from_u32(code - 0xfee0));
    match plain.flatten() {
        Some(plain) => (Look::Like(plain), Some(fullwidth(plain).into())),
        None => (Look::Itself, None),
    }
}

fn fullwidth(plain: char) -> String {
    let sign = SIGNS.iter().find(|sign| sign.0 == plain);
    match sign {
        Some((_, name)) => format!("fullwidth {name}"),
        None if plain.is_ascii_digit() => format!("fullwidth digit {plain}"),
        None => format!("fullwidth letter {plain}"),
    }
}

pub(crate) fn look(character: char) -> Look {
    known(character).0
}

/// Whether printing the character as it is would show nothing, or upset the line.
pub fn cannot_be_seen(character: char) -> bool {
    character.is_control() || look(character) == Look::Nothing
}

/// A character as a message shows it: itself, and for one that is not of the keyboard its number and name.
pub(crate) fn shown(character: char) -> String {
    if (' '..='~').contains(&character) && character != '`' {
        return format!("`{character}`");
    }
    let number = format!("U+{:04X}", u32::from(character));
    match (known(character).1, cannot_be_seen(character)) {
        (Some(name), true) => format!("{number} ({name})"),
        (None, true) => number,
        (Some(name), false) => format!("`{character}` ({number}, {name})"),
        (None, false) => format!("`{character}` ({number})"),
    }
}

#[cfg(test)]
mod tests {
    use super::*;

    #[test]
    fn the_table_is_sorted_and_says_what_is_not_plain() {
        assert!(NAMES.windows(2).all(|pair| pair[0].0 < pair[1].0));
        for (character, look, name) in NAMES {
            assert!(!character.is_ascii_alphanumeric(), "{name}");
            if let Look::Like(like) = look {
                assert!(like.is_ascii_graphic(), "{name}");
            }
        }
    }

    #[test]
    fn shown_by_number_and_name() {
        assert_eq!(shown('%'), "`%`");
        assert_eq!(shown('\u{435}'), "`е` (U+0435, Cyrillic small letter ie)");
        assert_eq!(shown('\u{200b}'), "U+200B (zero width space)");
        assert_eq!(shown('\u{ad}'), "U+00AD (soft hyphen)");
        assert_eq!(shown('\u{2013}'), "`–` (U+2013, en dash)");
        assert_eq!(shown('\u{ff1b}'), "`；` (U+FF1B, fullwidth semicolon)");
        assert_eq!(shown('\u{ff15}'), "`５` (U+FF15, fullwidth digit 5)");
        assert_eq!(shown('Ж'), "`Ж` (U+0416)");
        assert_eq!(shown('\u{7}'), "U+0007");
        assert_eq!(look('；'), Look::Like(';'));
    }
}
