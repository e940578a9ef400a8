//! A view over node rows.

use std::iter::{self, FusedIterator};

use super::{NodeKind, Tokens};
use crate::raw::{self, NODE_WORDS};
use crate::{Refusal, Span};

/// A tree's rows, parents before their children.
#[derive(Debug, Clone, Copy)]
pub struct Tree<'a> {
    source: &'a str,
    words: &'a [u32],
}

impl<'a> Tree<'a> {
    /// Parses tokens into lent words. 38 where they are too few: its need is the number of rows, of [`NODE_WORDS`] words.
    pub fn parse(tokens: Tokens<'a>, words: &'a mut [u32]) -> Result<Self, Refusal> {
        let count = raw::parse(tokens.words(), words)?;
        Ok(Self::over(tokens.source(), &words[..count * NODE_WORDS]))
    }

    /// The tree in rows that parsing put down.
    pub(crate) fn over(source: &'a str, words: &'a [u32]) -> Self {
        Self { source, words }
    }

    /// Writes the tree as text into lent bytes. 42 where they are too few: its need is the number of bytes.
    pub fn write_into(self, out: &mut [u8]) -> Result<&str, Refusal> {
        let count = raw::write(self.words, self.source.as_bytes(), out)?;
        Ok(std::str::from_utf8(&out[..count]).expect("a written text is UTF-8"))
    }

    pub fn source(self) -> &'a str {
        self.source
    }

    /// The rows' words.
    pub fn words(self) -> &'a [u32] {
        self.words
    }

    /// The number of nodes.
    pub fn len(self) -> usize {
        self.words.len() / NODE_WORDS
    }

    pub fn is_empty(self) -> bool {
        self.words.is_empty()
    }

    pub fn get(self, index: usize) -> Option<Node<'a>> {
        let at = index.checked_mul(NODE_WORDS)?;
        self.words.get(at..)?.first_chunk::<NODE_WORDS>()?;
        Some(Node { tree: self, index })
    }

    /// The declarations and functions.
    pub fn items(self) -> Children<'a> {
        Children {
            tree: self,
            next: 0,
            end: self.len(),
        }
    }

    /// All nodes, each before its children.
    pub fn nodes(self) -> impl ExactSizeIterator<Item = Node<'a>> + DoubleEndedIterator {
        (0..self.len()).map(move |index| Node { tree: self, index })
    }
}

/// One node of a tree.
#[derive(Debug, Clone, Copy)]
pub struct Node<'a> {
    tree: Tree<'a>,
    index: usize,
}

impl<'a> Node<'a> {
    fn word(self, at: usize) -> usize {
        self.tree.words[self.index * NODE_WORDS + at] as usize
    }

    /// The node's row in its tree, counted from 0.
    pub fn index(self) -> usize {
        self.index
    }

    pub fn kind(self) -> NodeKind {
        NodeKind::from_number(self.word(0) as u32).expect("parsing gives kinds 1 to 14")
    }

    /// Whether a function is marked `$ENTRY`.
    pub fn is_entry(self) -> bool {
        self.kind() == NodeKind::Function && self.word(1) == 1
    }

    /// Whether a sentence's `;` is left off.
    pub fn is_left_off(self) -> bool {
        self.kind() == NodeKind::Sentence && self.word(1) == 1
    }

    /// The character of a Char.
    pub fn character(self) -> Option<char> {
        self.detail_of(NodeKind::Char)
    }

    /// The letter of a Variable: s, t or e.
    pub fn letter(self) -> Option<char> {
        self.detail_of(NodeKind::Variable)
    }

    fn detail_of(self, kind: NodeKind) -> Option<char> {
        (self.kind() == kind).then(|| char::from_u32(self.word(1) as u32))?
    }

    /// The name, the number or the variable's index; nothing for other kinds.
    pub fn text(self) -> &'a str {
        let start = self.word(2);
        &self.tree.source[start..start + self.word(3)]
    }

    /// The text's bytes in the source.
    pub fn text_span(self) -> Span {
        let start = self.word(2);
        Span {
            start,
            end: start + self.word(3),
        }
    }

    /// Where the text starts in the source.
    pub(crate) fn text_start(self) -> usize {
        self.word(2)
    }

    /// The bytes that the node takes; 0 to 0 for Name and Terms.
    pub fn span(self) -> Span {
        Span {
            start: self.word(4),
            end: self.word(5),
        }
    }

    /// The row after the node and all below it.
    pub fn next(self) -> usize {
        self.word(6)
    }

    /// The node that it is a child of; none for declarations and functions.
    pub fn parent(self) -> Option<Node<'a>> {
        self.tree.get(self.word(7))
    }

    /// Its parent, that one's parent, and so on up to the declaration or function.
    pub fn ancestors(self) -> impl Iterator<Item = Node<'a>> {
        iter::successors(self.parent(), |node| node.parent())
    }

    pub fn children(self) -> Children<'a> {
        Children {
            tree: self.tree,
            next: self.index + 1,
            end: self.next(),
        }
    }
}

/// Nodes beside each other, in order.
#[derive(Debug, Clone)]
pub struct Children<'a> {
    tree: Tree<'a>,
    next: usize,
    end: usize,
}

impl<'a> Iterator for Children<'a> {
    type Item = Node<'a>;

    fn next(&mut self) -> Option<Node<'a>> {
        if self.next >= self.end {
            return None;
        }
        let node = self.tree.get(self.next)?;
        self.next = node.next();
        Some(node)
    }
}

impl FusedIterator for Children<'_> {}
