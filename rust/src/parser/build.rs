//! The tree's types from node rows in which texts and spans hold token indices.

use std::mem;

use crate::ast::{
    Condition, Declaration, DeclarationKind, Function, Item, Program, Sentence, Span, Symbol, Term,
    TermKind, Variable, VariableKind, Visibility,
};
use crate::lexer::{Token, TokenKind};
use crate::rows::{Children, Node, NodeKind, Tree};

/// The program, with its texts taken out of the tokens.
pub(super) fn program(tree: Tree<'_>, tokens: &mut [Token]) -> Program {
    let mut build = Build { tokens };
    Program {
        items: tree.items().map(|item| build.item(item)).collect(),
    }
}

struct Build<'t> {
    tokens: &'t mut [Token],
}

impl Build<'_> {
    fn item(&mut self, node: Node<'_>) -> Item {
        if node.kind() == NodeKind::Declaration {
            Item::Declaration(Declaration {
                kind: DeclarationKind::Extern,
                names: node.children().map(|name| self.text(name)).collect(),
                span: self.span(node),
            })
        } else {
            Item::Function(Function {
                name: self.text(node),
                visibility: if node.is_entry() {
                    Visibility::Entry
                } else {
                    Visibility::Local
                },
                sentences: self.sentences(node.children()),
                span: self.span(node),
            })
        }
    }

    fn sentences(&mut self, nodes: Children<'_>) -> Vec<Sentence> {
        let mut sentences = Vec::with_capacity(nodes.clone().count());
        sentences.extend(nodes.map(|node| self.sentence(node)));
        sentences
    }

    /// Terms, then conditions, then terms or a block.
    fn sentence(&mut self, node: Node<'_>) -> Sentence {
        let mut parts = node.children();
        let pattern = self.terms(parts.next());
        let mut conditions = Vec::new();
        let mut last = parts.next();
        while let Some(part) = last.filter(|part| part.kind() == NodeKind::Condition) {
            conditions.push(self.condition(part));
            last = parts.next();
        }
        Sentence {
            pattern,
            conditions,
            result: match last {
                Some(block) if block.kind() == NodeKind::EndingBlock => vec![self.ending(block)],
                terms => self.terms(terms),
            },
            span: self.span(node),
            left_off: node.is_left_off(),
        }
    }

    fn condition(&mut self, node: Node<'_>) -> Condition {
        let mut parts = node.children();
        let result = self.terms(parts.next());
        let pattern = match parts.next() {
            Some(block) if block.kind() == NodeKind::ConditionBlock => {
                vec![self.block(block, result.clone(), block.children())]
            }
            terms => self.terms(terms),
        };
        Condition {
            result,
            pattern,
            span: self.span(node),
        }
    }

    /// A block whose first child is its argument.
    fn ending(&mut self, node: Node<'_>) -> Term {
        let mut parts = node.children();
        let argument = self.terms(parts.next());
        self.block(node, argument, parts)
    }

    fn block(&mut self, node: Node<'_>, argument: Vec<Term>, sentences: Children<'_>) -> Term {
        Term {
            kind: TermKind::Block {
                argument,
                sentences: self.sentences(sentences),
            },
            span: self.span(node),
        }
    }

    /// The children of a Terms, Bracket or Call.
    fn terms(&mut self, node: Option<Node<'_>>) -> Vec<Term> {
        let Some(node) = node else {
            return Vec::new();
        };
        let mut terms = Vec::with_capacity(node.children().count());
        terms.extend(node.children().map(|term| self.term(term)));
        terms
    }

    fn term(&mut self, node: Node<'_>) -> Term {
        let kind = match node.kind() {
            NodeKind::Number => TermKind::Symbol(Symbol::Number(self.text(node))),
            NodeKind::Char => TermKind::Symbol(Symbol::Char(
                node.character().expect("a Char has a character"),
            )),
            NodeKind::Variable => TermKind::Variable(Variable {
                kind: match node.letter() {
                    Some('s') => VariableKind::Symbol,
                    Some('t') => VariableKind::Term,
                    _ => VariableKind::Expression,
                },
                name: self.text(node),
            }),
            NodeKind::Bracket => TermKind::Bracket(self.terms(Some(node))),
            NodeKind::Call => TermKind::Call {
                name: self.text(node),
                args: self.terms(Some(node)),
            },
            _ => TermKind::Symbol(Symbol::Identifier(self.text(node))),
        };
        Term {
            kind,
            span: self.span(node),
        }
    }

    fn text(&mut self, node: Node<'_>) -> String {
        match &mut self.tokens[node.text_start()].kind {
            TokenKind::Identifier(text)
            | TokenKind::Number(text)
            | TokenKind::Variable { name: text, .. } => mem::take(text),
            _ => unreachable!("parsing gives texts of names, numbers and variables only"),
        }
    }

    fn span(&self, node: Node<'_>) -> Span {
        let indices = node.span();
        Span {
            start: self.tokens[indices.start].span.start,
            end: self.tokens[indices.end].span.end,
        }
    }
}
