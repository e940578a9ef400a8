//! A view over token rows.

use std::iter::FusedIterator;

use super::Kind;
use crate::raw::{self, TOKEN_WORDS};
use crate::{Refusal, Span};

/// The tokens of a source, in order, the last being Eof.
#[derive(Debug, Clone, Copy)]
pub struct Tokens<'a> {
    source: &'a str,
    words: &'a [u32],
}

impl<'a> Tokens<'a> {
    /// Reads a source into lent words. 25 where they are too few: its need is the number of rows, of [`TOKEN_WORDS`] words.
    pub fn read(source: &'a [u8], words: &'a mut [u32]) -> Result<Self, Refusal> {
        let count = raw::read(source, words)?;
        Ok(Self::over(source, &words[..count * TOKEN_WORDS]))
    }

    /// The tokens in rows that reading put down.
    pub(crate) fn over(source: &'a [u8], words: &'a [u32]) -> Self {
        Self {
            source: std::str::from_utf8(source).expect("reading refuses what is not UTF-8"),
            words,
        }
    }

    /// The tokens in rows whose texts and spans are parts of this source.
    pub(crate) fn over_str(source: &'a str, words: &'a [u32]) -> Self {
        Self { source, words }
    }

    /// The tokens from this one on.
    pub(crate) fn from(self, index: usize) -> Self {
        Self::over_str(self.source, &self.words[index * TOKEN_WORDS..])
    }

    pub fn source(self) -> &'a str {
        self.source
    }

    /// The rows' words.
    pub fn words(self) -> &'a [u32] {
        self.words
    }

    pub fn len(self) -> usize {
        self.words.len() / TOKEN_WORDS
    }

    /// Never so: Eof is always there.
    pub fn is_empty(self) -> bool {
        self.words.is_empty()
    }

    pub fn get(self, index: usize) -> Option<Token<'a>> {
        let at = index.checked_mul(TOKEN_WORDS)?;
        let row = self.words.get(at..)?.first_chunk()?;
        Some(Token {
            source: self.source,
            row,
        })
    }

    pub fn iter(self) -> TokenIter<'a> {
        TokenIter {
            tokens: self,
            next: 0,
            end: self.len(),
        }
    }

    /// The index of the first token with exactly this span.
    pub fn position(self, span: Span) -> Option<usize> {
        let at = self.first_from(span.start);
        (self.get(at)?.span() == span).then_some(at)
    }

    /// The index of the first token that starts at this offset or after it.
    pub fn first_from(self, offset: usize) -> usize {
        let (mut low, mut high) = (0, self.len());
        while low < high {
            let middle = low + (high - low) / 2;
            let starts = self.get(middle).map(|token| token.span().start);
            if starts.is_some_and(|start| start < offset) {
                low = middle + 1;
            } else {
                high = middle;
            }
        }
        low
    }

    /// The tokens that start at this offset or after it.
    pub(crate) fn iter_from(self, offset: usize) -> TokenIter<'a> {
        TokenIter {
            tokens: self,
            next: self.first_from(offset),
            end: self.len(),
        }
    }
}

impl<'a> IntoIterator for Tokens<'a> {
    type Item = Token<'a>;
    type IntoIter = TokenIter<'a>;

    fn into_iter(self) -> TokenIter<'a> {
        self.iter()
    }
}

/// One token's row.
#[derive(Debug, Clone, Copy)]
pub struct Token<'a> {
    source: &'a str,
    row: &'a [u32; TOKEN_WORDS],
}

impl<'a> Token<'a> {
    pub fn kind(self) -> Kind {
        Kind::from_number(self.row[0]).expect("reading gives kinds 1 to 17")
    }

    /// The name, the number or the variable's index; nothing for other kinds.
    pub fn text(self) -> &'a str {
        let start = self.row[2] as usize;
        &self.source[start..start + self.row[3] as usize]
    }

    /// The character of a Char.
    pub fn character(self) -> Option<char> {
        self.detail_of(Kind::Char)
    }

    /// The letter of a Variable: s, t or e.
    pub fn letter(self) -> Option<char> {
        self.detail_of(Kind::Variable)
    }

    fn detail_of(self, kind: Kind) -> Option<char> {
        (self.kind() == kind).then(|| char::from_u32(self.row[1]))?
    }

    /// The bytes that the token takes; for a Char those of its whole literal.
    pub fn span(self) -> Span {
        Span {
            start: self.row[4] as usize,
            end: self.row[5] as usize,
        }
    }

    /// The source's text in [`Token::span`].
    pub fn spelling(self) -> &'a str {
        let Span { start, end } = self.span();
        &self.source[start..end]
    }
}

/// Tokens in order, from either end.
#[derive(Debug, Clone)]
pub struct TokenIter<'a> {
    tokens: Tokens<'a>,
    next: usize,
    end: usize,
}

impl<'a> Iterator for TokenIter<'a> {
    type Item = Token<'a>;

    fn next(&mut self) -> Option<Token<'a>> {
        if self.next == self.end {
            return None;
        }
        self.next += 1;
        self.tokens.get(self.next - 1)
    }

    fn size_hint(&self) -> (usize, Option<usize>) {
        let left = self.end - self.next;
        (left, Some(left))
    }
}

impl DoubleEndedIterator for TokenIter<'_> {
    fn next_back(&mut self) -> Option<Self::Item> {
        if self.next == self.end {
            return None;
        }
        self.end -= 1;
        self.tokens.get(self.end)
    }
}

impl ExactSizeIterator for TokenIter<'_> {}
impl FusedIterator for TokenIter<'_> {}
