//! The classes of characters in names and numbers, and the spellings that reading gives.

pub fn is_letter(byte: u8) -> bool {
    byte.is_ascii_alphabetic()
}

pub fn is_digit(byte: u8) -> bool {
    byte.is_ascii_digit()
}

pub fn is_capital(byte: u8) -> bool {
    byte.is_ascii_uppercase()
}

/// A name goes on over ASCII letters, digits, `_`, `-`.
pub fn goes_on(byte: u8) -> bool {
    is_letter(byte) || is_digit(byte) || byte == b'_' || byte == b'-'
}

/// How many bytes at the start of `bytes` are in the class.
pub fn run(bytes: &[u8], class: fn(u8) -> bool) -> usize {
    bytes.iter().take_while(|&&byte| class(byte)).count()
}

/// A macrodigit's value is at most 4294967295; leading zeros don't count.
pub fn macrodigit_fits(digits: &[u8]) -> bool {
    let zeros = run(digits, |byte| byte == b'0');
    let digits = &digits[zeros..];
    digits.len() < 10 || (digits.len() == 10 && digits <= b"4294967295".as_slice())
}

/// An Identifier that reading gives.
pub fn is_identifier(text: &[u8]) -> bool {
    (1..=15).contains(&text.len()) && is_capital(text[0]) && text.iter().all(|&byte| goes_on(byte))
}

/// An index that reading gives after a variable's letter and point.
pub fn is_index(text: &[u8]) -> bool {
    (1..=15).contains(&text.len()) && text.iter().all(|&byte| goes_on(byte))
}

/// A Number that reading gives.
pub fn is_number(text: &[u8]) -> bool {
    let signed = matches!(text.first(), Some(b'+' | b'-'));
    let mut rest = if signed { &text[1..] } else { text };
    let digits = run(rest, is_digit);
    if digits == 0 {
        return false;
    }
    let whole = &rest[..digits];
    rest = &rest[digits..];
    let mut real = false;
    for mark in [b'.', b'E'] {
        if rest.first() == Some(&mark) {
            rest = &rest[1..];
            if mark == b'E' && matches!(rest.first(), Some(b'+' | b'-')) {
                rest = &rest[1..];
            }
            let digits = run(rest, is_digit);
            if digits == 0 {
                return false;
            }
            rest = &rest[digits..];
            real = true;
        }
    }
    rest.is_empty() && (real || (!signed && macrodigit_fits(whole)))
}
