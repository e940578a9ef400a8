//! From tokens to the tree, with the types of the original `refal_syntax::parser`.

mod build;
mod error;

pub use error::ParseError;

use crate::ast::Program;
use crate::lexer::{Token, TokenKind};
use crate::raw::TOKEN_WORDS;
use crate::rows::{NodeRows, Tree};

/// Parses a list of tokens, of which the last and only the last is Eof.
///
/// ```
/// use refal5::ast::{Item, Visibility};
/// use refal5::lexer::Lexer;
/// use refal5::parser::Parser;
///
/// let tokens = Lexer::new("$ENTRY Go { = <Prout 'Hi'>; }").tokenize().unwrap();
/// let program = Parser::new(tokens).parse_program().unwrap();
/// let Item::Function(go) = &program.items[0] else { panic!() };
/// assert_eq!((go.name.as_str(), go.visibility), ("Go", Visibility::Entry));
///
/// let source = "F {\n  A }";
/// let tokens = Lexer::new(source).tokenize().unwrap();
/// let error = Parser::new(tokens).in_source(source).parse_program().unwrap_err();
/// assert_eq!(
///     error.message,
///     "line 2, column 5: `}` has no place here; \
///      the place shown, line 2, column 6, comes after it: the end of the file"
/// );
/// ```
pub struct Parser {
    tokens: Vec<Token>,
    cursor: usize,
    source: Option<Box<str>>,
}

impl Parser {
    pub fn new(tokens: Vec<Token>) -> Self {
        Self {
            tokens,
            cursor: 0,
            source: None,
        }
    }

    /// Has errors say line and column in the source that the tokens were read from; without it they say bytes.
    pub fn in_source(mut self, source: &str) -> Self {
        self.source = Some(source.into());
        self
    }

    /// Parses from the cursor on. As in the original, it stays at Eof after a success, and at the token shown after an
    /// error.
    pub fn parse_program(&mut self) -> Result<Program, ParseError> {
        let tokens = &mut self.tokens[self.cursor..];
        let words = rows(tokens);
        let mut node_rows = NodeRows::new();
        match node_rows.parse_words(&words) {
            Ok(nodes) => {
                let program = build::program(Tree::over("", nodes), tokens);
                self.cursor = self.tokens.len() - 1;
                Ok(program)
            }
            Err(refusal) => {
                let error = ParseError::new(refusal, tokens, self.source.as_deref());
                self.cursor += refusal.span.start;
                Err(error)
            }
        }
    }
}

/// The tokens' rows. Texts and spans are not looked into by parsing: each holds its token's index, and so do those of the
/// nodes and of a refusal.
fn rows(tokens: &[Token]) -> Vec<u32> {
    let mut words = Vec::with_capacity(tokens.len() * TOKEN_WORDS);
    for (index, token) in (0..).zip(tokens) {
        let kind = token.kind.kind().number();
        let (detail, text) = match token.kind {
            TokenKind::Identifier(_) | TokenKind::Number(_) => (0, index),
            TokenKind::Variable { kind, .. } => (kind.into(), index),
            TokenKind::Char(character) => (character.into(), 0),
            _ => (0, 0),
        };
        words.extend([kind, detail, text, 0, index, index]);
    }
    words
}
