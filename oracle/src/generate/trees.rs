//! Trees with their sources: parsed ones, and copies with spoiled words and rows.

use super::{Rng, sources, tokens};
use crate::reference::parse;
use crate::terms::{NODE_WIDTH, NodeRow, node};

/// A program's tree and its source.
pub fn good(rng: &mut Rng) -> (Vec<NodeRow>, Vec<u8>) {
    let items = rng.within(0, 2);
    of_source(sources::program(rng, items).into_bytes())
}

/// A source's tree; no rows where the source is refused.
pub fn of_source(src: Vec<u8>) -> (Vec<NodeRow>, Vec<u8>) {
    let words = tokens::flat(&tokens::of_source(&src));
    (parse::tree(&words).unwrap_or_default(), src)
}

pub fn flat(rows: &[NodeRow]) -> Vec<u32> {
    rows.iter().flatten().copied().collect()
}

/// One word changed, or a row dropped, doubled or swapped, or words cut off, or a sentence's `;` left
/// off or put in.
pub fn damaged(rng: &mut Rng, good: &[NodeRow]) -> Vec<u32> {
    let mut rows = good.to_vec();
    if rows.is_empty() {
        return (0..rng.within(0, 15))
            .map(|_| rng.below(9) as u32)
            .collect();
    }
    let at = rng.below(rows.len());
    match rng.below(9) {
        0 => drop(rows.remove(at)),
        1 => rows.insert(at, rows[at]),
        2 if at + 1 < rows.len() => rows.swap(at, at + 1),
        3 => {
            let mut words = flat(&rows);
            words.truncate(rng.below(words.len() + 1));
            return words;
        }
        4 => {
            let sentence = |row: &&mut NodeRow| row[0] == node::SENTENCE;
            if let Some(row) = rows[at..].iter_mut().find(sentence) {
                row[1] ^= [1, 1, 2][rng.below(3)];
            }
        }
        _ => {
            let word = rng.below(NODE_WIDTH);
            rows[at][word] = value(rng, rows[at][word]);
        }
    }
    flat(&rows)
}

/// Another value for a word: near it, or one that means something.
fn value(rng: &mut Rng, old: u32) -> u32 {
    match rng.below(6) {
        0 => old.wrapping_add(1),
        1 => old.wrapping_sub(1),
        2 => rng.below(16) as u32,
        3 => [10, 39, 0xd7ff, 0xd800, 0xdfff, 0xe000, 0x10_ffff, 0x11_0000][rng.below(8)],
        4 => u32::MAX,
        _ => b"ste\0a"[rng.below(5)].into(),
    }
}

/// Any of the ways above: words and source, at times with another source.
pub fn any(rng: &mut Rng) -> (Vec<u32>, Vec<u8>) {
    let (rows, mut src) = if rng.once_in(8) {
        of_source(sources::any(rng))
    } else {
        good(rng)
    };
    if rng.once_in(6) {
        src = sources::damaged(rng, &src);
    }
    if rng.once_in(3) {
        (flat(&rows), src)
    } else {
        (damaged(rng, &rows), src)
    }
}
