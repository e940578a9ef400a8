//! Buffers for rows and text, made as large as is needed.

use super::{Tokens, Tree};
use crate::Refusal;
use crate::raw::{self, MAX_BYTES, NODE_WORDS, TOKEN_WORDS, node_bound, token_bound};

/// Up to so many rows the words are as many as the bound says; above, as many as a first call with what is there asks for,
/// which is exact where the bound sets aside several times as much.
const SMALL: usize = 2 << 20;

/// Owns the words that token rows stand in; used again by the next read.
#[derive(Debug, Clone, Default)]
pub struct TokenRows {
    words: Vec<u32>,
}

impl TokenRows {
    pub fn new() -> Self {
        Self::default()
    }

    /// Reads a source. Refusals 1, 2, 10 to 24.
    pub fn read<'a>(&'a mut self, source: &'a [u8]) -> Result<Tokens<'a>, Refusal> {
        let bound = token_bound(source.len());
        let read = |words: &mut [u32]| raw::read(source, words);
        let words = fill(&mut self.words, bound, TOKEN_WORDS, 25, read)?;
        Ok(Tokens::over(source, words))
    }
}

/// Owns the words that node rows stand in; used again by the next parse.
#[derive(Debug, Clone, Default)]
pub struct NodeRows {
    words: Vec<u32>,
}

impl NodeRows {
    pub fn new() -> Self {
        Self::default()
    }

    /// Parses tokens. Refusals 31 to 37.
    pub fn parse<'a>(&'a mut self, tokens: Tokens<'a>) -> Result<Tree<'a>, Refusal> {
        let words = self.parse_words(tokens.words())?;
        Ok(Tree::over(tokens.source(), words))
    }

    /// Parses token rows, whatever they hold, into the words of node rows.
    pub(crate) fn parse_words(&mut self, tokens: &[u32]) -> Result<&[u32], Refusal> {
        let bound = node_bound(tokens.len() / TOKEN_WORDS);
        let parse = |words: &mut [u32]| raw::parse(tokens, words);
        fill(&mut self.words, bound, NODE_WORDS, 38, parse)
    }
}

impl Tree<'_> {
    /// The tree as text. 42 where it is longer than 16,777,216 bytes.
    pub fn to_text(self) -> Result<String, Refusal> {
        let mut bytes = Vec::new();
        if let Err(refusal) = raw::write(self.words(), self.source().as_bytes(), &mut bytes) {
            if refusal.number != 42 || refusal.need > MAX_BYTES as u64 {
                return Err(refusal);
            }
            bytes = vec![0; refusal.need as usize];
            self.write_into(&mut bytes)?;
        }
        Ok(String::from_utf8(bytes).expect("a written text is UTF-8"))
    }
}

/// The rows that a call puts into the words that are there, or, where these are too few, into as many as its refusal `full`
/// asks for. Fresh zeroed words are not touched until they are written.
fn fill(
    words: &mut Vec<u32>,
    bound: usize,
    row: usize,
    full: u32,
    call: impl Fn(&mut [u32]) -> Result<usize, Refusal>,
) -> Result<&[u32], Refusal> {
    let most = bound.saturating_mul(row);
    if bound <= SMALL && words.len() < most {
        *words = vec![0; most];
    }
    let lent = words.len().min(most);
    let mut result = call(&mut words[..lent]);
    if let Err(refusal) = result
        && refusal.number == full
    {
        // The old words go before the new ones come.
        *words = Vec::new();
        *words = vec![0; refusal.need as usize * row];
        result = call(words);
    }
    result.map(|count| &words[..count * row])
}
