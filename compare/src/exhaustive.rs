//! Every short source over a telling alphabet, and every short token list.

use oracle::cases::Case;
use oracle::reference::{parse, read};
use oracle::terms::{NODE_WIDTH, TokenRow, token};

/// Parts whose neighbours decide what they mean.
pub const ALPHABET: [&str; 22] = [
    "{", "'", "\"", "$", "ENTRY", "A", "s", "E", ".", "1", "0", "-", "+", "*", "/", "\n", " ",
    "\u{a0}", "é", ";", "_", "(",
];

/// Calls `visit` with each choice of `length` numbers below `bound`, until it gives false.
fn choices(bound: usize, length: usize, mut visit: impl FnMut(&[usize]) -> bool) -> bool {
    let mut places = vec![0; length];
    loop {
        if !visit(&places) {
            return false;
        }
        let Some(at) = places.iter().rposition(|&place| place + 1 < bound) else {
            return true;
        };
        places[at] += 1;
        places[at + 1..].fill(0);
    }
}

/// Each source of at most `most` parts, lent exactly enough or, at every third, a word less.
pub fn sources(most: usize, mut visit: impl FnMut(Case) -> bool) -> bool {
    let mut count = 0;
    (0..=most).all(|length| {
        choices(ALPHABET.len(), length, |places| {
            let src: Vec<u8> = places
                .iter()
                .flat_map(|&place| ALPHABET[place].bytes())
                .collect();
            count += 1;
            let exact = read::tokens(&src).map_or(12, |rows| rows.len() * 6);
            let lent = if count % 3 == 0 { exact - 1 } else { exact };
            visit(Case::Read { src, lent })
        })
    })
}

/// Token lists: each beginning, then each choice of at most `most` kinds, then Eof.
pub fn token_lists(most: usize, mut visit: impl FnMut(Case) -> bool) -> bool {
    const BEGINNINGS: [&[u32]; 7] = [
        &[],
        &[token::EXTERN],
        &[token::IDENTIFIER, token::LBRACE],
        &[
            token::IDENTIFIER,
            token::LBRACE,
            token::COMMA,
            token::IDENTIFIER,
        ],
        &[
            token::IDENTIFIER,
            token::LBRACE,
            token::EQUALS,
            token::COMMA,
        ],
        &[
            token::IDENTIFIER,
            token::LBRACE,
            token::COMMA,
            token::COLON,
            token::LBRACE,
        ],
        &[
            token::IDENTIFIER,
            token::LBRACE,
            token::EQUALS,
            token::COMMA,
            token::COLON,
            token::LBRACE,
            token::RBRACE,
        ],
    ];
    let mut count = 0;
    (0..=most).all(|length| {
        BEGINNINGS.iter().all(|beginning| {
            choices(17, length, |places| {
                let mut kinds = beginning.to_vec();
                // 17 stands for a Variable of another letter.
                kinds.extend(places.iter().map(|&place| place as u32 + 1));
                let tokens = list(&kinds);
                count += 1;
                let exact =
                    parse::tree(&tokens).map_or(2 * NODE_WIDTH, |rows| rows.len() * NODE_WIDTH);
                let lent = if count % 3 == 0 {
                    exact.saturating_sub(1)
                } else {
                    exact
                };
                visit(Case::Parse { tokens, lent })
            })
        })
    })
}

/// Rows of these kinds, each with a span and a text of its own, then Eof.
fn list(kinds: &[u32]) -> Vec<u32> {
    let mut words = Vec::new();
    for (place, &kind) in kinds.iter().enumerate() {
        let at = 10 * place as u32;
        let (kind, detail) = match kind {
            17 => (token::VARIABLE, u32::from(b'x')),
            token::VARIABLE => (kind, u32::from(b't')),
            token::CHAR => (kind, 0x10_ffff),
            _ => (kind, 0),
        };
        let text = match kind {
            token::IDENTIFIER | token::VARIABLE | token::NUMBER => (at + 1, 3),
            _ => (0, 0),
        };
        let row: TokenRow = [kind, detail, text.0, text.1, at, at + 4];
        words.extend(row);
    }
    let end = 10 * kinds.len() as u32;
    words.extend([token::EOF, 0, 0, 0, end, end]);
    words
}
