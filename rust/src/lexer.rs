//! From source to tokens, with the types of the original `refal_syntax::lexer`.

use std::error::Error;
use std::fmt;

use crate::rows::{self, Kind, TokenRows};
use crate::{Diagnosis, Refusal};

#[derive(Debug, Clone, PartialEq, Eq)]
pub struct Token {
    pub kind: TokenKind,
    pub span: Span,
}

#[derive(Debug, Clone, PartialEq, Eq)]
pub enum TokenKind {
    Entry,
    Extern,
    Identifier(String),
    Variable { kind: char, name: String },
    Number(String),
    Char(char),
    LBrace,
    RBrace,
    LParen,
    RParen,
    LAngle,
    RAngle,
    Comma,
    Colon,
    Equals,
    Semicolon,
    Eof,
}

impl TokenKind {
    /// The kind without what it holds.
    pub fn kind(&self) -> Kind {
        match self {
            Self::Entry => Kind::Entry,
            Self::Extern => Kind::Extern,
            Self::Identifier(_) => Kind::Identifier,
            Self::Variable { .. } => Kind::Variable,
            Self::Number(_) => Kind::Number,
            Self::Char(_) => Kind::Char,
            Self::LBrace => Kind::LBrace,
            Self::RBrace => Kind::RBrace,
            Self::LParen => Kind::LParen,
            Self::RParen => Kind::RParen,
            Self::LAngle => Kind::LAngle,
            Self::RAngle => Kind::RAngle,
            Self::Comma => Kind::Comma,
            Self::Colon => Kind::Colon,
            Self::Equals => Kind::Equals,
            Self::Semicolon => Kind::Semicolon,
            Self::Eof => Kind::Eof,
        }
    }
}

/// Byte offsets into the source; the end is exclusive.
#[derive(Debug, Clone, Copy, PartialEq, Eq)]
pub struct Span {
    pub start: usize,
    pub end: usize,
}

impl From<crate::ast::Span> for Span {
    fn from(span: crate::ast::Span) -> Self {
        Self {
            start: span.start,
            end: span.end,
        }
    }
}

/// Why a source is not read.
#[derive(Debug, Clone, PartialEq, Eq)]
pub struct LexerError {
    /// What is wrong and where, in plain words.
    pub message: String,
    pub span: Span,
    /// The library's own answer.
    pub refusal: Refusal,
}

impl fmt::Display for LexerError {
    fn fmt(&self, out: &mut fmt::Formatter<'_>) -> fmt::Result {
        out.write_str(&self.message)
    }
}

impl Error for LexerError {}

/// Reads a source.
///
/// ```
/// use refal5::lexer::{Lexer, TokenKind};
///
/// let tokens = Lexer::new("s1s2s3").tokenize().unwrap();
/// assert_eq!(tokens.len(), 4);
/// assert_eq!(tokens[1].kind, TokenKind::Variable { kind: 's', name: "2".into() });
///
/// let error = Lexer::new("'a' %").tokenize().unwrap_err();
/// assert_eq!(error.message, "line 1, column 5: the character `%` has no meaning here");
/// assert_eq!((error.refusal.number, error.span.start), (10, 4));
/// ```
pub struct Lexer<'a> {
    source: &'a str,
}

impl<'a> Lexer<'a> {
    pub fn new(source: &'a str) -> Self {
        Self { source }
    }

    pub fn tokenize(self) -> Result<Vec<Token>, LexerError> {
        let source = self.source.as_bytes();
        match TokenRows::new().read(source) {
            Ok(tokens) => Ok(tokens.iter().map(Token::from).collect()),
            Err(refusal) => Err(LexerError {
                message: Diagnosis::of_reading(source, refusal).to_string(),
                span: refusal.span.into(),
                refusal,
            }),
        }
    }
}

impl From<rows::Token<'_>> for Token {
    fn from(token: rows::Token<'_>) -> Self {
        let text = || token.text().to_owned();
        let kind = match token.kind() {
            Kind::Entry => TokenKind::Entry,
            Kind::Extern => TokenKind::Extern,
            Kind::Identifier => TokenKind::Identifier(text()),
            Kind::Variable => TokenKind::Variable {
                kind: token.letter().expect("a variable has a letter"),
                name: text(),
            },
            Kind::Number => TokenKind::Number(text()),
            Kind::Char => TokenKind::Char(token.character().expect("a Char has a character")),
            Kind::LBrace => TokenKind::LBrace,
            Kind::RBrace => TokenKind::RBrace,
            Kind::LParen => TokenKind::LParen,
            Kind::RParen => TokenKind::RParen,
            Kind::LAngle => TokenKind::LAngle,
            Kind::RAngle => TokenKind::RAngle,
            Kind::Comma => TokenKind::Comma,
            Kind::Colon => TokenKind::Colon,
            Kind::Equals => TokenKind::Equals,
            Kind::Semicolon => TokenKind::Semicolon,
            Kind::Eof => TokenKind::Eof,
        };
        Self {
            kind,
            span: token.span().into(),
        }
    }
}
