//! All that is wrong with a source, and what of it can still be shown: the tokens that were read and the items that parse.
//!
//! The library answers with the first refusal. After a refusal of reading, what follows is read anew from the next line that
//! starts an item; after one of parsing, the item is dropped and parsing goes on at the next item. `parse` is the one place
//! that goes on after a broken item.

mod parse;
mod read;

use crate::diagnosis::Diagnosis;
use crate::raw::{NODE_WORDS, TOKEN_WORDS};
use crate::rows::{Tokens, Tree};
use crate::{Refusal, Span};

/// The most problems that are looked for.
const MOST: usize = 200;

/// A refusal, explained.
#[derive(Debug, Clone, PartialEq, Eq)]
pub struct Problem {
    pub diagnosis: Diagnosis,
    /// Whether it rests on a guess where an item starts, after an earlier problem.
    pub possibly: bool,
}

/// What can be told of a source, refused or not.
#[derive(Debug, Clone)]
pub struct Recovered<'a> {
    source: &'a str,
    tokens: Vec<u32>,
    /// The nodes of the items that parse; their texts and spans are tokens' indices.
    indexed: Vec<u32>,
    /// The same with texts and spans of the source.
    nodes: Vec<u32>,
    /// In the order in which they stand.
    pub problems: Vec<Problem>,
    /// Whether more problems were not looked for.
    pub stopped: bool,
}

/// Reads and parses a source as far as can be.
///
/// ```
/// let source = b"F { A A }\nG { = <B>; }\n$ENTRY Go { ; }\n";
/// let recovered = refal5::recover(source);
/// let found: Vec<_> = recovered.problems.iter().map(|problem| problem.diagnosis.meant.line).collect();
/// assert_eq!(found, [1, 3]);
/// let kept: Vec<_> = recovered.tree().items().map(|item| item.text().to_owned()).collect();
/// assert_eq!(kept, ["G"]);
/// ```
pub fn recover(source: &[u8]) -> Recovered<'_> {
    let (pieces, refusals) = read::pieces(source);
    let valid = match std::str::from_utf8(source) {
        Ok(source) => source,
        // What stands before the first ill-formed sequence.
        Err(error) => std::str::from_utf8(&source[..error.valid_up_to()]).unwrap_or(""),
    };
    let mut all = Recovered {
        source: valid,
        tokens: Vec::new(),
        indexed: Vec::new(),
        nodes: Vec::new(),
        problems: refusals,
        stopped: false,
    };
    for piece in pieces {
        all.add(piece);
    }
    all.tokens.extend(read::eof(valid.len()));
    all.nodes = in_source(&all.indexed, all.tokens());
    all.problems
        .sort_by_key(|problem| problem.diagnosis.meant.span.start);
    all.stopped |= all.problems.len() >= MOST;
    all
}

impl<'a> Recovered<'a> {
    /// The tokens that were read, in order, with Eof at the end.
    pub fn tokens(&self) -> Tokens<'_> {
        Tokens::over_str(self.source, &self.tokens)
    }

    /// The tree of the items that parse.
    pub fn tree(&self) -> Tree<'_> {
        Tree::over(self.source, &self.nodes)
    }

    /// The words of that tree, with the index of the token that a text is of, and of the first and last token of a span.
    pub fn indexed(&self) -> &[u32] {
        &self.indexed
    }

    /// The source as far as it is UTF-8.
    pub fn source(&self) -> &'a str {
        self.source
    }

    /// Parses a piece, and adds its tokens, nodes and problems.
    fn add(&mut self, piece: read::Piece) {
        let tokens = Tokens::over_str(self.source, &piece.words);
        let left = MOST.saturating_sub(self.problems.len());
        let parsed = parse::parse(tokens, left);
        let last = tokens.len() - 1;
        for dropped in parsed.dropped {
            // What is not finished where reading stopped may well be finished after it.
            if piece.cut && dropped.found == last {
                continue;
            }
            let list = tokens.from(dropped.from);
            self.problems.push(Problem {
                diagnosis: Diagnosis::of_parsing(list, spanned(tokens, dropped.refusal)),
                possibly: piece.guess || dropped.guess,
            });
        }
        self.stopped |= parsed.stopped;
        let base = (self.tokens.len() / TOKEN_WORDS) as u32;
        let rows = (self.indexed.len() / NODE_WORDS) as u32;
        for row in parsed.rows.chunks(NODE_WORDS) {
            self.indexed.extend(parse::moved(row, base, rows));
        }
        self.tokens
            .extend_from_slice(&piece.words[..last * TOKEN_WORDS]);
    }
}

/// A refusal whose span is a token's index, with that token's span.
fn spanned(tokens: Tokens<'_>, refusal: Refusal) -> Refusal {
    let token = tokens.get(refusal.span.start);
    Refusal {
        span: token.map_or(Span { start: 0, end: 0 }, |token| token.span()),
        ..refusal
    }
}

/// Nodes with texts and spans of the source, from those with tokens' indices.
fn in_source(indexed: &[u32], tokens: Tokens<'_>) -> Vec<u32> {
    let mut nodes = indexed.to_vec();
    for row in nodes.chunks_mut(NODE_WORDS) {
        let token = |index: u32| &tokens.words()[index as usize * TOKEN_WORDS..][..TOKEN_WORDS];
        if row[3] > 0 {
            row[2] = token(row[2])[2];
        }
        if parse::has_span(row) {
            (row[4], row[5]) = (token(row[4])[4], token(row[5])[5]);
        }
    }
    nodes
}
