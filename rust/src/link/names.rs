//! The names of two files: which functions and declared names bear them, and which calls want them.

use std::collections::{HashMap, HashSet};

use super::nearest;
use crate::rows::{Node, NodeKind, Tree};
use crate::{Span, canonical_identifier};

/// A node of one of the two files.
#[derive(Debug, Clone, Copy)]
pub(super) struct Row<'a> {
    /// 1 or 2.
    pub file: u32,
    pub source: &'a str,
    pub node: Node<'a>,
}

impl Row<'_> {
    fn canonical(self) -> String {
        canonical_identifier(self.node.text())
    }

    /// Where the name stands; a declared name has no span of its own.
    pub fn name_span(self) -> Span {
        let start = self.node.text_start();
        Span {
            start,
            end: start + self.node.text().len(),
        }
    }
}

/// The names of both files, file one's rows before file two's. They are known by their canonical forms.
pub(super) struct Names<'a> {
    trees: [Tree<'a>; 2],
    /// The first function of each name.
    functions: HashMap<String, Row<'a>>,
    /// The first function or declaration of each name, in order.
    bearers: Vec<(String, Row<'a>)>,
    /// The names that are called and that nothing bears, each with its first call and the number of its calls, in order.
    missing: Vec<(Row<'a>, usize)>,
    /// The place of each such name there.
    missing_at: HashMap<String, usize>,
}

impl<'a> Names<'a> {
    pub fn of(one: Tree<'a>, two: Tree<'a>) -> Self {
        let mut names = Self {
            trees: [one, two],
            functions: HashMap::new(),
            bearers: Vec::new(),
            missing: Vec::new(),
            missing_at: HashMap::new(),
        };
        let mut borne = HashSet::new();
        for row in names.rows() {
            let kind = row.node.kind();
            if !matches!(kind, NodeKind::Function | NodeKind::Name) {
                continue;
            }
            let name = row.canonical();
            if kind == NodeKind::Function {
                names.functions.entry(name.clone()).or_insert(row);
            }
            if borne.insert(name.clone()) {
                names.bearers.push((name, row));
            }
        }
        for row in names.rows() {
            if row.node.kind() != NodeKind::Call {
                continue;
            }
            let name = row.canonical();
            if !borne.contains(&name) {
                let next = names.missing.len();
                let at = *names.missing_at.entry(name).or_insert(next);
                if at == next {
                    names.missing.push((row, 0));
                }
                names.missing[at].1 += 1;
            }
        }
        names
    }

    /// The nodes of both files.
    pub fn rows(&self) -> impl Iterator<Item = Row<'a>> + use<'a> {
        let [one, two] = self.trees;
        let of = |file: u32, tree: Tree<'a>| {
            tree.nodes().map(move |node| Row {
                file,
                source: tree.source(),
                node,
            })
        };
        of(1, one).chain(of(2, two))
    }

    /// The functions that have an earlier equal one.
    pub fn repeated(&self) -> impl Iterator<Item = Row<'a>> {
        self.rows().filter(|row| {
            let same =
                |first: Row<'a>| first.file == row.file && first.node.index() == row.node.index();
            row.node.kind() == NodeKind::Function && !self.first_function(*row).is_some_and(same)
        })
    }

    /// The first calls of names that nothing bears.
    pub fn missing(&self) -> impl Iterator<Item = Row<'a>> {
        self.missing.iter().map(|(row, _)| *row)
    }

    /// The first function of this row's name.
    pub fn first_function(&self, row: Row<'_>) -> Option<Row<'a>> {
        self.functions.get(&row.canonical()).copied()
    }

    /// How many calls have this row's name, where nothing bears it.
    pub fn calls(&self, row: Row<'_>) -> usize {
        let at = self.missing_at.get(&row.canonical());
        at.map_or(0, |&at| self.missing[at].1)
    }

    /// The function or declaration whose name is spelled most alike to this row's, the first of several.
    pub fn nearest(&self, row: Row<'_>) -> Option<Row<'a>> {
        nearest::nearest(&row.canonical(), &self.bearers)
    }
}
