//! The syntax tree, with the types of the original `refal_ast`, and `left_off` in a [`Sentence`].

pub use crate::names::{
    PROGRAM_ENTRY_POINT, canonical_identifier, canonical_variable_index, identifiers_equal,
};

#[derive(Debug, Clone, PartialEq, Eq)]
pub struct Program {
    pub items: Vec<Item>,
}

#[derive(Debug, Clone, PartialEq, Eq)]
pub enum Item {
    Function(Function),
    Declaration(Declaration),
}

/// Byte offsets into the source; the end is exclusive.
#[derive(Debug, Clone, Copy, PartialEq, Eq)]
pub struct Span {
    pub start: usize,
    pub end: usize,
}

impl From<crate::lexer::Span> for Span {
    fn from(span: crate::lexer::Span) -> Self {
        Self {
            start: span.start,
            end: span.end,
        }
    }
}

#[derive(Debug, Clone, PartialEq, Eq)]
pub struct Function {
    pub name: String,
    pub visibility: Visibility,
    pub sentences: Vec<Sentence>,
    pub span: Span,
}

#[derive(Debug, Clone, PartialEq, Eq)]
pub struct Declaration {
    pub kind: DeclarationKind,
    pub names: Vec<String>,
    pub span: Span,
}

#[derive(Debug, Clone, Copy, PartialEq, Eq)]
pub enum DeclarationKind {
    Extern,
}

#[derive(Debug, Clone, Copy, PartialEq, Eq)]
pub enum Visibility {
    Entry,
    Local,
}

#[derive(Debug, Clone, PartialEq, Eq)]
pub struct Sentence {
    pub pattern: Vec<Term>,
    pub conditions: Vec<Condition>,
    pub result: Vec<Term>,
    /// Without its `;` where that is left off.
    pub span: Span,
    /// Whether its `;` is left off, as the last sentence's before a `}` may be.
    pub left_off: bool,
}

#[derive(Debug, Clone, PartialEq, Eq)]
pub struct Condition {
    pub result: Vec<Term>,
    pub pattern: Vec<Term>,
    pub span: Span,
}

#[derive(Debug, Clone, PartialEq, Eq)]
pub struct Term {
    pub kind: TermKind,
    pub span: Span,
}

#[derive(Debug, Clone, PartialEq, Eq)]
pub enum TermKind {
    Symbol(Symbol),
    Variable(Variable),
    Bracket(Vec<Term>),
    /// A block that ends a sentence, or stands as a condition's pattern; there `argument` is a copy of the condition's
    /// `result`.
    Block {
        argument: Vec<Term>,
        sentences: Vec<Sentence>,
    },
    Call {
        name: String,
        args: Vec<Term>,
    },
}

#[derive(Debug, Clone, PartialEq, Eq)]
pub enum Symbol {
    Char(char),
    Identifier(String),
    Number(String),
}

#[derive(Debug, Clone, PartialEq, Eq)]
pub struct Variable {
    pub kind: VariableKind,
    pub name: String,
}

#[derive(Debug, Clone, Copy, PartialEq, Eq, Hash)]
pub enum VariableKind {
    Symbol,
    Term,
    Expression,
}

impl VariableKind {
    /// The Classic Refal-5 type indicator for this variable kind.
    pub fn refal_prefix(self) -> char {
        match self {
            Self::Symbol => 's',
            Self::Term => 't',
            Self::Expression => 'e',
        }
    }
}
