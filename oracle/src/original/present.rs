//! Asks the original and turns its tokens, trees and messages into rows and numbers.

use crate::ast;
use crate::lexer::{self, Lexer, TokenKind};
use crate::messages;
use crate::parser::{ParseError, Parser};
use crate::terms::{NO_PARENT, NodeRow, Refusal, TokenRow, node, token};

/// `Lexer::tokenize`.
pub fn read(src: &str) -> Option<Result<Vec<TokenRow>, Refusal>> {
    Some(match Lexer::new(src).tokenize() {
        Ok(tokens) => Ok(tokens.iter().map(|token| token_row(token, src)).collect()),
        Err(error) => {
            let number = messages::reading(&error.message).expect("a known message");
            Err(Refusal::spanned(number, error.span.start, error.span.end))
        }
    })
}

fn token_row(token: &lexer::Token, src: &str) -> TokenRow {
    let lexer::Span { start, end } = token.span;
    let (kind, detail, text) = match &token.kind {
        TokenKind::Entry => (token::ENTRY, 0, None),
        TokenKind::Extern => (token::EXTERN, 0, None),
        TokenKind::Identifier(text) => (token::IDENTIFIER, 0, Some(text)),
        TokenKind::Variable { kind, name } => (token::VARIABLE, *kind as u32, Some(name)),
        TokenKind::Number(text) => (token::NUMBER, 0, Some(text)),
        TokenKind::Char(value) => (token::CHAR, *value as u32, None),
        TokenKind::LBrace => (token::LBRACE, 0, None),
        TokenKind::RBrace => (token::RBRACE, 0, None),
        TokenKind::LParen => (token::LPAREN, 0, None),
        TokenKind::RParen => (token::RPAREN, 0, None),
        TokenKind::LAngle => (token::LANGLE, 0, None),
        TokenKind::RAngle => (token::RANGLE, 0, None),
        TokenKind::Comma => (token::COMMA, 0, None),
        TokenKind::Colon => (token::COLON, 0, None),
        TokenKind::Equals => (token::EQUALS, 0, None),
        TokenKind::Semicolon => (token::SEMICOLON, 0, None),
        TokenKind::Eof => (token::EOF, 0, None),
    };
    // The original keeps a text, not its place: a text ends where its token ends.
    let (text_start, length) = text.map_or((0, 0), |text| {
        let at = end - text.len();
        assert_eq!(&src[at..end], text, "a token's text ends its span");
        (at, text.len())
    });
    [
        kind,
        detail,
        text_start as u32,
        length as u32,
        start as u32,
        end as u32,
    ]
}

/// `Parser::parse_program`, on token rows that 30 does not refuse.
///
/// A text goes in as its start and length in letters, so that the tree gives them back.
pub fn parse(rows: &[TokenRow]) -> Option<Result<Vec<NodeRow>, Refusal>> {
    let tokens = rows.iter().map(token_of).collect();
    Some(match Parser::new(tokens).parse_program() {
        Ok(program) => {
            let mut encoder = Encoder {
                rows: Vec::new(),
                parent: NO_PARENT,
            };
            program.items.iter().for_each(|item| encoder.item(item));
            Ok(encoder.rows)
        }
        Err(error) => Err(parse_refusal(&error)),
    })
}

fn parse_refusal(error: &ParseError) -> Refusal {
    let (number, expected, found) = messages::parsing(&error.message).expect("a known message");
    Refusal {
        number,
        expected,
        found,
        start: error.span.start as u64,
        end: error.span.end as u64,
        need: 0,
    }
}

fn token_of(&[kind, detail, text, length, start, end]: &TokenRow) -> lexer::Token {
    let name = || format!("{text}:{length}");
    let value = char::from_u32(detail).expect("30 tests details");
    let kind = match kind {
        token::ENTRY => TokenKind::Entry,
        token::EXTERN => TokenKind::Extern,
        token::IDENTIFIER => TokenKind::Identifier(name()),
        token::VARIABLE => TokenKind::Variable {
            kind: value,
            name: name(),
        },
        token::NUMBER => TokenKind::Number(name()),
        token::CHAR => TokenKind::Char(value),
        token::LBRACE => TokenKind::LBrace,
        token::RBRACE => TokenKind::RBrace,
        token::LPAREN => TokenKind::LParen,
        token::RPAREN => TokenKind::RParen,
        token::LANGLE => TokenKind::LAngle,
        token::RANGLE => TokenKind::RAngle,
        token::COMMA => TokenKind::Comma,
        token::COLON => TokenKind::Colon,
        token::EQUALS => TokenKind::Equals,
        token::SEMICOLON => TokenKind::Semicolon,
        token::EOF => TokenKind::Eof,
        _ => panic!("30 tests kinds"),
    };
    lexer::Token {
        kind,
        span: lexer::Span {
            start: start as usize,
            end: end as usize,
        },
    }
}

/// Writes the original's tree as rows, parent first.
struct Encoder {
    rows: Vec<NodeRow>,
    /// The row whose children are written.
    parent: u32,
}

const NO_SPAN: ast::Span = ast::Span { start: 0, end: 0 };

impl Encoder {
    fn node(
        &mut self,
        kind: u32,
        detail: u32,
        text: Option<&str>,
        span: ast::Span,
        children: impl FnOnce(&mut Self),
    ) {
        let (start, length) = text.map_or((0, 0), |text| {
            let (start, length) = text.split_once(':').expect("a text of `token_of`");
            (
                start.parse().expect("a number"),
                length.parse().expect("a number"),
            )
        });
        let at = self.rows.len();
        self.rows.push([
            kind,
            detail,
            start,
            length,
            span.start as u32,
            span.end as u32,
            0,
            self.parent,
        ]);
        let parent = std::mem::replace(&mut self.parent, at as u32);
        children(self);
        self.parent = parent;
        self.rows[at][6] = self.rows.len() as u32;
    }

    fn item(&mut self, item: &ast::Item) {
        match item {
            ast::Item::Declaration(declaration) => {
                self.node(node::DECLARATION, 0, None, declaration.span, |inside| {
                    for name in &declaration.names {
                        inside.node(node::NAME, 0, Some(name), NO_SPAN, |_| ());
                    }
                });
            }
            ast::Item::Function(function) => {
                let detail = u32::from(function.visibility == ast::Visibility::Entry);
                let name = Some(function.name.as_str());
                self.node(node::FUNCTION, detail, name, function.span, |inside| {
                    inside.sentences(&function.sentences);
                });
            }
        }
    }

    fn sentences(&mut self, sentences: &[ast::Sentence]) {
        for sentence in sentences {
            self.node(node::SENTENCE, 0, None, sentence.span, |inside| {
                inside.terms(&sentence.pattern);
                for condition in &sentence.conditions {
                    inside.condition(condition);
                }
                match block(&sentence.result) {
                    Some((argument, sentences, span)) => {
                        inside.node(node::ENDING_BLOCK, 0, None, span, |inside| {
                            inside.terms(argument);
                            inside.sentences(sentences);
                        });
                    }
                    None => inside.terms(&sentence.result),
                }
            });
        }
    }

    fn condition(&mut self, condition: &ast::Condition) {
        self.node(node::CONDITION, 0, None, condition.span, |inside| {
            inside.terms(&condition.result);
            match block(&condition.pattern) {
                Some((argument, sentences, span)) => {
                    assert_eq!(argument, condition.result, "the argument is a clone");
                    inside.node(node::CONDITION_BLOCK, 0, None, span, |inside| {
                        inside.sentences(sentences);
                    });
                }
                None => inside.terms(&condition.pattern),
            }
        });
    }

    fn terms(&mut self, terms: &[ast::Term]) {
        self.node(node::TERMS, 0, None, NO_SPAN, |inside| {
            terms.iter().for_each(|term| inside.term(term));
        });
    }

    fn term(&mut self, term: &ast::Term) {
        let (kind, detail, text, inner): (_, _, _, &[ast::Term]) = match &term.kind {
            ast::TermKind::Symbol(ast::Symbol::Identifier(name)) => {
                (node::IDENTIFIER, 0, Some(name.as_str()), &[])
            }
            ast::TermKind::Symbol(ast::Symbol::Number(number)) => {
                (node::NUMBER, 0, Some(number.as_str()), &[])
            }
            ast::TermKind::Symbol(ast::Symbol::Char(value)) => {
                (node::CHAR, *value as u32, None, &[])
            }
            ast::TermKind::Variable(variable) => {
                let letter = variable.kind.refal_prefix() as u32;
                (node::VARIABLE, letter, Some(variable.name.as_str()), &[])
            }
            ast::TermKind::Bracket(inner) => (node::BRACKET, 0, None, inner),
            ast::TermKind::Call { name, args } => (node::CALL, 0, Some(name.as_str()), args),
            ast::TermKind::Block { .. } => panic!("a block stands alone in its terms"),
        };
        self.node(kind, detail, text, term.span, |inside| {
            inner.iter().for_each(|term| inside.term(term));
        });
    }
}

type Block<'a> = (&'a [ast::Term], &'a [ast::Sentence], ast::Span);

/// The block that stands for a list of terms, if one does.
fn block(terms: &[ast::Term]) -> Option<Block<'_>> {
    match terms {
        [
            ast::Term {
                kind:
                    ast::TermKind::Block {
                        argument,
                        sentences,
                    },
                span,
            },
        ] => Some((argument, sentences, *span)),
        _ => None,
    }
}

pub fn canonical_name(name: &str) -> Option<String> {
    Some(ast::canonical_identifier(name))
}

pub fn canonical_index(name: &str) -> Option<String> {
    Some(ast::canonical_variable_index(name))
}

pub fn names_equal(a: &str, b: &str) -> Option<bool> {
    Some(ast::identifiers_equal(a, b))
}

/// The original's tokens, to be timed and parsed.
pub struct Tokens(Vec<lexer::Token>);

impl Tokens {
    pub fn count(&self) -> usize {
        self.0.len()
    }

    /// A copy for a parser to own.
    pub fn copy(&self) -> Self {
        Self(self.0.clone())
    }
}

/// `Lexer::tokenize` and nothing else.
pub fn tokenize(src: &str) -> Option<Tokens> {
    Lexer::new(src).tokenize().ok().map(Tokens)
}

/// The original's tree, kept only so that dropping it is not timed.
pub struct Tree(pub ast::Program);

/// `Parser::parse_program` and nothing else.
pub fn parse_tokens(tokens: Tokens) -> Option<(Tree, Parser)> {
    let mut parser = Parser::new(tokens.0);
    let program = parser.parse_program().ok()?;
    Some((Tree(program), parser))
}
