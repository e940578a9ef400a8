//! Raw token lists: by the grammar with any spans, soups of kinds, and lists with spoiled words.

use super::{Rng, sources};
use crate::reference::read;
use crate::terms::{TokenRow, token};

fn span(rng: &mut Rng) -> (u32, u32) {
    match rng.below(6) {
        0 => (u32::MAX, u32::MAX),
        1 => (rng.bits() as u32, rng.bits() as u32),
        _ => {
            let start = rng.below(1000) as u32;
            (start, start + rng.below(20) as u32)
        }
    }
}

/// A row of the kind that 30 does not refuse, with any texts and spans.
pub fn row(rng: &mut Rng, kind: u32) -> TokenRow {
    let (start, end) = span(rng);
    let detail = match kind {
        token::VARIABLE if rng.once_in(12) => [b'S', b'a', b'u', 0][rng.below(4)].into(),
        token::VARIABLE => b"ste"[rng.below(3)].into(),
        token::CHAR => [0, 10, 39, 65, 0xd7ff, 0xe000, 0xffff, 0x10_ffff][rng.below(8)],
        _ => 0,
    };
    let text = match kind {
        token::IDENTIFIER | token::VARIABLE | token::NUMBER => span(rng),
        _ => (0, 0),
    };
    [kind, detail, text.0, text.1, start, end]
}

/// Any kinds, the marks that make sentences more often, then Eof.
pub fn soup(rng: &mut Rng, most: usize) -> Vec<TokenRow> {
    const OFTEN: [u32; 16] = [3, 3, 3, 7, 7, 8, 8, 9, 10, 11, 12, 13, 14, 15, 15, 16];
    let mut rows = Vec::new();
    if rng.once_in(2) {
        rows.push(row(rng, token::IDENTIFIER));
        rows.push(row(rng, token::LBRACE));
    }
    for _ in 0..rng.within(0, most) {
        let kind = if rng.once_in(4) {
            rng.within(1, 16) as u32
        } else {
            OFTEN[rng.below(OFTEN.len())]
        };
        rows.push(row(rng, kind));
    }
    rows.push(row(rng, token::EOF));
    rows
}

/// A source's tokens; those of the empty source where reading refuses it.
pub fn of_source(src: &[u8]) -> Vec<TokenRow> {
    read::tokens(src).unwrap_or_else(|_| read::tokens(b"").expect("the empty source"))
}

/// A list with a few rows cut, doubled, swapped or of another kind, or a `;` left out.
pub fn damaged(rng: &mut Rng, good: &[TokenRow]) -> Vec<TokenRow> {
    let mut rows = good.to_vec();
    let eof = rows.pop().expect("Eof");
    for _ in 0..rng.within(1, 2) {
        let at = rng.below(rows.len() + 1);
        match rng.below(6) {
            0 if at < rows.len() => drop(rows.remove(at)),
            1 if at < rows.len() => rows.insert(at, rows[at]),
            2 if at + 1 < rows.len() => rows.swap(at, at + 1),
            3 => rows.truncate(at),
            4 => {
                let semicolon = |row: &TokenRow| row[0] == token::SEMICOLON;
                if let Some(next) = rows[at..].iter().position(semicolon) {
                    rows.remove(at + next);
                }
            }
            _ => {
                let kind = rng.within(1, 16) as u32;
                let row = row(rng, kind);
                if at < rows.len() && rng.once_in(2) {
                    rows[at] = row;
                } else {
                    rows.insert(at, row);
                }
            }
        }
    }
    rows.push(eof);
    rows
}

/// Words that 30 may refuse: one word changed, words cut off, Eof moved.
pub fn spoiled(rng: &mut Rng, good: &[TokenRow]) -> Vec<u32> {
    let mut words = flat(good);
    match rng.below(6) {
        0 => words.truncate(rng.below(words.len() + 1)),
        1 => words.push(rng.below(3) as u32),
        2 => {
            let at = rng.below(good.len());
            let eof = words.split_off(words.len() - 6);
            words.splice(at * 6..at * 6, eof);
        }
        3 => words.extend([token::EOF, 0, 0, 0, 0, 0]),
        _ => {
            let at = rng.below(words.len());
            words[at] = match rng.below(8) {
                0 => 0,
                1 => 1,
                2 => 17,
                3 => 18,
                4 => 0xd800,
                5 => 0xdfff,
                6 => 0x11_0000,
                _ => u32::MAX,
            };
        }
    }
    words
}

/// Any of the ways above, as words.
pub fn any(rng: &mut Rng) -> Vec<u32> {
    match rng.below(6) {
        0 => flat(&soup(rng, 12)),
        1 => flat(&of_source(&sources::any(rng))),
        2 | 3 => {
            let good = of_source(sources::program(rng, 2).as_bytes());
            flat(&damaged(rng, &good))
        }
        4 => {
            let good = of_source(sources::program(rng, 1).as_bytes());
            spoiled(rng, &good)
        }
        _ => {
            let good = soup(rng, 4);
            spoiled(rng, &good)
        }
    }
}

pub fn flat(rows: &[TokenRow]) -> Vec<u32> {
    rows.iter().flatten().copied().collect()
}
