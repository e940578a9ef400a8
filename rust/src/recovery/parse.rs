//! Parsing that goes on after a broken item.
//!
//! A piece of the list is parsed by the library's own call. Where that is refused, the item in which the refusal arises is
//! dropped, and parsing goes on at the next `$ENTRY` or `$EXTRN` after the item's first token, or, which is a guess, at a name
//! with `{` beside it before that. A call of the library that recovers can take the place of what is done here.

use crate::Refusal;
use crate::items::{start_of_item, starts_an_item, starts_for_certain};
use crate::raw::{NO_PARENT, NODE_WORDS, TOKEN_WORDS};
use crate::rows::{NodeKind, NodeRows, Tokens};

/// What parses and what does not.
pub(super) struct Parsed {
    /// The nodes of the items that are kept; their texts and spans are tokens' indices.
    pub rows: Vec<u32>,
    pub dropped: Vec<Dropped>,
    /// Whether the rest was left out, since so many items were dropped.
    pub stopped: bool,
}

/// An item that is dropped.
pub(super) struct Dropped {
    /// The refusal; its span is the index of the token shown.
    pub refusal: Refusal,
    /// The token meant.
    pub found: usize,
    /// The token from which on the list was parsed when the refusal came.
    pub from: usize,
    /// Whether the item's start rests on a guess.
    pub guess: bool,
}

/// Parses a list, dropping at most so many items.
pub(super) fn parse(tokens: Tokens<'_>, most: usize) -> Parsed {
    let indexed = indexed(tokens);
    let mut node_rows = NodeRows::new();
    let mut parsed = Parsed {
        rows: Vec::new(),
        dropped: Vec::new(),
        stopped: false,
    };
    let (mut from, mut guess) = (0, false);
    loop {
        let refusal = match node_rows.parse_words(&indexed[from * TOKEN_WORDS..]) {
            Ok(rows) => {
                keep(&mut parsed.rows, rows);
                return parsed;
            }
            Err(refusal) => refusal,
        };
        if parsed.dropped.len() == most {
            parsed.stopped = true;
            return parsed;
        }
        let found = refusal.span.start - usize::from(refusal.shows_the_token_after());
        let item = from + start_of_item(tokens.from(from), found - from);
        let mut before = indexed[from * TOKEN_WORDS..item * TOKEN_WORDS].to_vec();
        before.extend_from_slice(&indexed[indexed.len() - TOKEN_WORDS..]);
        if let Ok(rows) = node_rows.parse_words(&before) {
            keep(&mut parsed.rows, rows);
        }
        // An item that starts for certain ends the guess.
        let certain = (from..=item).any(|at| starts_for_certain(tokens, at));
        parsed.dropped.push(Dropped {
            refusal,
            found,
            from,
            guess: guess && !certain,
        });
        match (item + 1..tokens.len()).find(|&at| starts_an_item(tokens, at)) {
            Some(next) => (from, guess) = (next, !starts_for_certain(tokens, next)),
            None => return parsed,
        }
    }
}

/// Token rows whose texts and spans hold the tokens' indices, which parsing hands on.
fn indexed(tokens: Tokens<'_>) -> Vec<u32> {
    let mut words = tokens.words().to_vec();
    for (row, index) in words.chunks_mut(TOKEN_WORDS).zip(0..) {
        if row[3] > 0 {
            row[2] = index;
        }
        row[4] = index;
        row[5] = index;
    }
    words
}

/// Adds rows behind others.
fn keep(all: &mut Vec<u32>, rows: &[u32]) {
    let before = (all.len() / NODE_WORDS) as u32;
    for row in rows.chunks(NODE_WORDS) {
        all.extend(moved(row, 0, before));
    }
}

/// A row whose tokens stand after so many others, and itself after so many rows.
pub(super) fn moved(row: &[u32], tokens: u32, rows: u32) -> [u32; NODE_WORDS] {
    let mut moved = [0; NODE_WORDS];
    moved.copy_from_slice(row);
    if row[3] > 0 {
        moved[2] += tokens;
    }
    if has_span(row) {
        moved[4] += tokens;
        moved[5] += tokens;
    }
    moved[6] += rows;
    if moved[7] != NO_PARENT {
        moved[7] += rows;
    }
    moved
}

/// Whether a row of this kind has a span.
pub(super) fn has_span(row: &[u32]) -> bool {
    !matches!(
        NodeKind::from_number(row[0]),
        Some(NodeKind::Name | NodeKind::Terms)
    )
}
