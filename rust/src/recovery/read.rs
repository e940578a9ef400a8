//! Reading that goes on after a refusal, at the next line that starts an item.

use super::{MOST, Problem};
use crate::diagnosis::Diagnosis;
use crate::raw::{self, TOKEN_WORDS};
use crate::rows::{Kind, TokenRows, Tokens};
use crate::{Refusal, Span};

/// A part of the source that was read, with Eof at its end.
pub(super) struct Piece {
    pub words: Vec<u32>,
    /// Whether reading was refused at its end.
    pub cut: bool,
    /// Whether its start is a guess.
    pub guess: bool,
}

/// The parts that are read, and the refusals between them.
pub(super) fn pieces(source: &[u8]) -> (Vec<Piece>, Vec<Problem>) {
    let (mut pieces, mut problems) = (Vec::new(), Vec::new());
    let mut from = 0;
    loop {
        let guess = from > 0;
        // Without rows lent, a source that can be read is refused with 25, after all other refusals.
        let refusal = match raw::read(&source[from..], &mut []) {
            Err(refusal) if refusal.number != 25 => moved(refusal, from),
            _ => {
                pieces.extend(piece(source, from, source.len(), false));
                return (pieces, problems);
            }
        };
        let cut = piece(source, from, refusal.span.start.min(source.len()), true);
        let before = cut
            .as_ref()
            .and_then(|cut| Some(Tokens::over_str(text(source)?, &cut.words)));
        problems.push(Problem {
            diagnosis: Diagnosis::after(source, before, refusal),
            possibly: guess,
        });
        pieces.extend(cut);
        let next = match refusal.number {
            1 | 2 => None,
            _ => next_item(source, refusal.span.start),
        };
        match next {
            Some(next) if problems.len() < MOST => from = next,
            _ => return (pieces, problems),
        }
    }
}

/// The source as far as it is UTF-8.
fn text(source: &[u8]) -> Option<&str> {
    match std::str::from_utf8(source) {
        Ok(text) => Some(text),
        Err(error) => std::str::from_utf8(&source[..error.valid_up_to()]).ok(),
    }
}

/// Reads a part as a source of its own; offsets are the whole's.
fn piece(source: &[u8], from: usize, to: usize, cut: bool) -> Option<Piece> {
    let mut rows = TokenRows::new();
    let tokens = rows.read(&source[from..to]).ok()?;
    let mut words = tokens.words().to_vec();
    for row in words.chunks_mut(TOKEN_WORDS) {
        if row[3] > 0 {
            row[2] += from as u32;
        }
        row[4] += from as u32;
        row[5] += from as u32;
    }
    Some(Piece {
        words,
        cut,
        guess: from > 0,
    })
}

fn moved(refusal: Refusal, by: usize) -> Refusal {
    let span = Span {
        start: refusal.span.start + by,
        end: refusal.span.end + by,
    };
    Refusal { span, ..refusal }
}

/// The row of Eof.
pub(super) fn eof(at: usize) -> [u32; TOKEN_WORDS] {
    let at = at as u32;
    [Kind::Eof.number(), 0, 0, 0, at, at]
}

/// The start of the next line, after the one that holds `at`, that starts an item.
fn next_item(source: &[u8], at: usize) -> Option<usize> {
    let mut start = line_after(source, at)?;
    loop {
        if starts_an_item(&source[start..]) {
            return Some(start);
        }
        start = line_after(source, start)?;
    }
}

fn line_after(source: &[u8], at: usize) -> Option<usize> {
    let newline = source.get(at..)?.iter().position(|&byte| byte == b'\n')?;
    Some(at + newline + 1)
}

/// Whether a line starts with `$` and a letter, or with a name and `{`, which may be on a line of its own.
fn starts_an_item(line: &[u8]) -> bool {
    let start = line.iter().position(|byte| !b" \t".contains(byte));
    let line = &line[start.unwrap_or(line.len())..];
    match line {
        [b'$', letter, ..] => letter.is_ascii_uppercase(),
        [first, ..] if first.is_ascii_uppercase() => {
            let in_name = |byte: &u8| byte.is_ascii_alphanumeric() || b"_-".contains(byte);
            let end = line.iter().position(|byte| !in_name(byte));
            let rest = &line[end.unwrap_or(line.len())..];
            rest.trim_ascii_start().starts_with(b"{")
        }
        _ => false,
    }
}

#[cfg(test)]
mod tests {
    use super::*;

    #[test]
    fn lines_that_start_items() {
        for line in ["$ENTRY Go", "  $EXTRN A;", "F{", "My-Rule  {", "F\n{"] {
            assert!(starts_an_item(line.as_bytes()), "{line}");
        }
        for line in ["", "F = A;", "s1 {", "$", "* F {", "\nF {", "'F' {"] {
            assert!(!starts_an_item(line.as_bytes()), "{line}");
        }
    }
}
