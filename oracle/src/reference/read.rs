//! 01 "Reading" and "From bytes to tokens".

use super::spelling::{goes_on, is_capital, is_digit, is_letter, macrodigit_fits, run};
use super::utf8::{first_char, first_ill_formed, is_white_space};
use crate::terms::{Answer, MAX_SOURCE, Refusal, TokenRow, put_rows, token};

pub fn read(src: &[u8], rows: &mut [u32]) -> Answer {
    put_rows(tokens(src), 25, rows)
}

/// The tokens, or the first of 1, 2 and 10 to 24.
pub fn tokens(src: &[u8]) -> Result<Vec<TokenRow>, Refusal> {
    if src.len() > MAX_SOURCE {
        return Err(Refusal::plain(1));
    }
    if let Some(at) = first_ill_formed(src) {
        return Err(Refusal::spanned(2, at, at));
    }
    let mut rows = Vec::new();
    scan(src, &mut rows)?;
    Ok(rows)
}

/// Puts down the tokens of a well-formed source, up to the first of 10 to 24 if there is one.
fn scan(src: &[u8], rows: &mut Vec<TokenRow>) -> Result<(), Refusal> {
    let mut at = 0;
    loop {
        at = skip(src, at)?;
        let Some(&byte) = src.get(at) else {
            rows.push(row(token::EOF, 0, (0, 0), (at, at)));
            return Ok(());
        };
        at = match byte {
            b'\'' | b'"' => literal(src, at, rows)?,
            _ => {
                let row = single(src, at)?;
                rows.push(row);
                row[5] as usize
            }
        };
    }
}

/// The first number that reading meets with a sign after its `E` (02, card 7), from its start to behind the `E`: there the original gives 17.
pub fn signed_exponent(src: &[u8]) -> Option<(usize, usize)> {
    let mut rows = Vec::new();
    let refused = scan(src, &mut rows).err();
    let numbers = rows
        .iter()
        .filter(|row| row[0] == token::NUMBER)
        .map(|row| (row[4] as usize, row[5] as usize));
    let bare = refused
        .filter(|refusal| refusal.number == 17)
        .map(|refusal| (refusal.start as usize, refusal.end as usize));
    numbers.chain(bare).find_map(|(start, end)| {
        let mark = src[start..end]
            .windows(2)
            .position(|pair| matches!(pair, b"E+" | b"E-"))?;
        Some((start, start + mark + 1))
    })
}

fn row(kind: u32, detail: u32, text: (usize, usize), span: (usize, usize)) -> TokenRow {
    [
        kind,
        detail,
        text.0 as u32,
        text.1 as u32,
        span.0 as u32,
        span.1 as u32,
    ]
}

/// "Before each token, repeat": white space, star comments, block comments.
fn skip(src: &[u8], start: usize) -> Result<usize, Refusal> {
    let mut at = start;
    loop {
        let before = at;
        while let Some((value, length)) = first_char(&src[at..]) {
            if !is_white_space(value) {
                break;
            }
            at += length;
        }
        if src.get(at) == Some(&b'*') && starts_line(src, at) {
            at += run(&src[at..], |byte| byte != b'\n');
        }
        if src[at..].starts_with(b"/*") {
            let Some(inside) = src[at + 2..].windows(2).position(|two| two == b"*/") else {
                return Err(Refusal::spanned(24, at, src.len()));
            };
            at += 2 + inside + 2;
        }
        if at == before {
            return Ok(at);
        }
    }
}

/// Only white space between here and the last newline; with none before, offset 0.
fn starts_line(src: &[u8], at: usize) -> bool {
    let Some(newline) = src[..at].iter().rposition(|&byte| byte == b'\n') else {
        return at == 0;
    };
    let mut between = &src[newline + 1..at];
    while let Some((value, length)) = first_char(between) {
        if !is_white_space(value) {
            return false;
        }
        between = &between[length..];
    }
    true
}

/// Any token but those of a literal.
fn single(src: &[u8], at: usize) -> Result<TokenRow, Refusal> {
    let byte = src[at];
    let digit_next = src.get(at + 1).is_some_and(|&next| is_digit(next));
    let mark = b"{}()<>,:=;".iter().position(|&mark| mark == byte);
    if let Some(mark) = mark {
        return Ok(row(token::LBRACE + mark as u32, 0, (0, 0), (at, at + 1)));
    }
    match byte {
        b'$' => directive(src, at),
        b'+' | b'-' if digit_next => number(src, at),
        _ if is_digit(byte) => number(src, at),
        _ if is_letter(byte) || byte == b'_' || byte == b'-' => word(src, at),
        _ => {
            let length = first_char(&src[at..]).map_or(1, |(_, length)| length);
            Err(Refusal::spanned(10, at, at + length))
        }
    }
}

fn directive(src: &[u8], at: usize) -> Result<TokenRow, Refusal> {
    let end = at + 1 + run(&src[at + 1..], is_letter);
    let kind = match &src[at + 1..end] {
        b"ENTRY" => token::ENTRY,
        b"EXTERN" | b"EXTRN" | b"EXTERNAL" => token::EXTERN,
        _ => return Err(Refusal::spanned(11, at, end)),
    };
    Ok(row(kind, 0, (0, 0), (at, end)))
}

/// A variable or a name.
fn word(src: &[u8], at: usize) -> Result<TokenRow, Refusal> {
    let first = src[at];
    let next = src.get(at + 1).copied();
    if matches!(first, b's' | b't' | b'e') {
        let variable = |index: usize, length: usize| {
            let span = (at, index + length);
            row(token::VARIABLE, u32::from(first), (index, length), span)
        };
        if next == Some(b'.') {
            let length = run(&src[at + 2..], goes_on);
            return match length {
                0 => Err(Refusal::spanned(12, at, at + 2)),
                1..=15 => Ok(variable(at + 2, length)),
                _ => Err(Refusal::spanned(13, at, at + 2 + length)),
            };
        }
        if next.is_some_and(|next| is_capital(next) || is_digit(next)) {
            return Ok(variable(at + 1, 1));
        }
    }
    let length = 1 + run(&src[at + 1..], goes_on);
    let span = (at, at + length);
    if !is_capital(first) {
        return Err(Refusal::spanned(14, span.0, span.1));
    }
    if length > 15 {
        return Err(Refusal::spanned(15, span.0, span.1));
    }
    Ok(row(token::IDENTIFIER, 0, (at, length), span))
}

fn number(src: &[u8], at: usize) -> Result<TokenRow, Refusal> {
    let signed = !is_digit(src[at]);
    let first = if signed { at + 1 } else { at };
    let mut end = first + run(&src[first..], is_digit);
    let whole = &src[first..end];
    let mut real = false;
    for (mark, refusal) in [(b'.', 16), (b'E', 17)] {
        if src.get(end) == Some(&mark) {
            end += 1;
            // 02, card 7: one sign may stand before an exponent's digits.
            if mark == b'E' && matches!(src.get(end), Some(b'+' | b'-')) {
                end += 1;
            }
            let digits = run(&src[end..], is_digit);
            if digits == 0 {
                return Err(Refusal::spanned(refusal, at, end));
            }
            end += digits;
            real = true;
        }
    }
    if signed && !real {
        return Err(Refusal::spanned(18, at, end));
    }
    if !real && !macrodigit_fits(whole) {
        return Err(Refusal::spanned(19, at, end));
    }
    Ok(row(token::NUMBER, 0, (at, end - at), (at, end)))
}

/// Puts down a row for each character and gives the offset after the closing quote.
fn literal(src: &[u8], start: usize, rows: &mut Vec<TokenRow>) -> Result<usize, Refusal> {
    let quote = u32::from(src[start]);
    let mut values = Vec::new();
    let mut at = start + 1;
    loop {
        let Some((value, length)) = first_char(&src[at..]) else {
            return Err(Refusal::spanned(23, start, src.len()));
        };
        at += length;
        if value == 10 {
            return Err(Refusal::spanned(22, start, at));
        }
        if value == quote {
            if src.get(at) != Some(&src[start]) {
                break;
            }
            at += 1;
        }
        values.push(value);
    }
    if values.len() > 255 {
        return Err(Refusal::spanned(20, start, at));
    }
    if values.is_empty() {
        return Err(Refusal::spanned(21, start, at));
    }
    rows.extend(
        values
            .iter()
            .map(|&value| row(token::CHAR, value, (0, 0), (start, at))),
    );
    Ok(at)
}
