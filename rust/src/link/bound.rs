//! The variables of a file that are used where no equal one is bound.

use std::collections::{HashMap, HashSet};

use super::names::Row;
use super::nearest;
use crate::canonical_variable_index;
use crate::rows::{Node, NodeKind, Tree};

/// A variable by which it is known: its letter and its index's canonical form.
type Key = (char, String);

/// What is bound elsewhere, or is spelled alike.
#[derive(Debug, Clone, Copy, PartialEq, Eq)]
pub(super) enum Relation {
    /// The same variable, bound after the use.
    Later,
    /// The same variable, bound in a block that has ended.
    Block,
    /// The same variable, bound in another sentence.
    Sentence,
    /// Another variable that is in force.
    Alike,
}

/// A use of a variable that is not bound, with another place that explains it.
pub(super) struct Unbound<'a> {
    pub row: Row<'a>,
    pub other: Option<(Row<'a>, Relation)>,
}

/// What is in force while the rows are gone through.
#[derive(Default)]
struct Force<'a> {
    /// How often each variable is bound.
    times: HashMap<Key, usize>,
    bindings: Vec<(Key, Node<'a>)>,
    /// For each sentence around: the row after it, and how many bindings there were before it.
    sentences: Vec<(usize, usize)>,
}

impl<'a> Force<'a> {
    /// Ends the sentences that end before a row, with what they bind.
    fn end(&mut self, row: usize) {
        while let Some(&(next, before)) = self.sentences.last() {
            if row < next {
                break;
            }
            self.sentences.pop();
            for (key, _) in self.bindings.drain(before..) {
                *self.times.entry(key).or_default() -= 1;
            }
        }
    }

    fn bind(&mut self, node: Node<'a>) {
        *self.times.entry(key(node)).or_default() += 1;
        self.bindings.push((key(node), node));
    }

    fn has(&self, key: &Key) -> bool {
        self.times.get(key).is_some_and(|&times| times > 0)
    }

    /// The variable in force that may be meant: of the same index, or else of the same letter and an index that is spelled alike.
    fn alike(&self, (letter, index): &Key) -> Option<Node<'a>> {
        let same = self.bindings.iter().find(|((_, other), _)| other == index);
        let spelled = || {
            let of_letter = self
                .bindings
                .iter()
                .filter(|((other, _), _)| other == letter);
            let indices: Vec<(String, Node<'a>)> = of_letter
                .map(|((_, index), node)| (index.clone(), *node))
                .collect();
            nearest::nearest(index, &indices)
        };
        same.map(|(_, node)| *node).or_else(spelled)
    }
}

fn key(node: Node<'_>) -> Key {
    let letter = node.letter().expect("a variable has a letter");
    (letter, canonical_variable_index(node.text()))
}

/// The sentence whose pattern, or whose condition's pattern, a Terms row is.
fn bound_by(terms: Node<'_>) -> Option<Node<'_>> {
    let around = terms.parent()?;
    let first = terms.index() == around.index() + 1;
    match around.kind() {
        NodeKind::Sentence if first => Some(around),
        NodeKind::Condition if !first => around.parent(),
        _ => None,
    }
}

/// The variables below a node, at all levels.
fn variables<'a>(tree: Tree<'a>, node: Node<'a>) -> impl Iterator<Item = Node<'a>> {
    (node.index()..node.next())
        .filter_map(move |row| tree.get(row))
        .filter(|node| node.kind() == NodeKind::Variable)
}

/// The unbound uses of a file in row order; the same variable once in a sentence.
pub(super) fn unbound(file: u32, tree: Tree<'_>) -> Vec<Unbound<'_>> {
    let row = |node| Row {
        file,
        source: tree.source(),
        node,
    };
    let mut force = Force::default();
    let mut told = HashSet::new();
    let mut found = Vec::new();
    for node in tree.nodes() {
        force.end(node.index());
        match node.kind() {
            NodeKind::Sentence => force.sentences.push((node.next(), force.bindings.len())),
            NodeKind::Terms if bound_by(node).is_some() => {
                variables(tree, node).for_each(|variable| force.bind(variable));
            }
            NodeKind::Terms => {
                for variable in variables(tree, node) {
                    let key = key(variable);
                    let sentence = force.sentences.len();
                    let around = force.sentences.last().map(|&(next, _)| next);
                    if force.has(&key) || !told.insert((sentence, around, key.clone())) {
                        continue;
                    }
                    let alike = || Some((force.alike(&key)?, Relation::Alike));
                    let other = elsewhere(tree, variable, &key).or_else(alike);
                    found.push(Unbound {
                        row: row(variable),
                        other: other.map(|(node, relation)| (row(node), relation)),
                    });
                }
            }
            _ => (),
        }
    }
    found
}

/// A binding of the same variable in the same function: the last before the use, or else the first after it.
fn elsewhere<'a>(tree: Tree<'a>, used: Node<'a>, wanted: &Key) -> Option<(Node<'a>, Relation)> {
    let function = used.ancestors().last()?;
    let mut best = None;
    for terms in (function.index()..function.next()).filter_map(|row| tree.get(row)) {
        let Some(sentence) = (terms.kind() == NodeKind::Terms)
            .then(|| bound_by(terms))
            .flatten()
        else {
            continue;
        };
        let equal = variables(tree, terms).find(|node| key(*node) == *wanted);
        let Some(binding) = equal else {
            continue;
        };
        if best.is_none() || binding.index() < used.index() {
            best = Some((binding, relation(binding, sentence, used)));
        }
    }
    best
}

/// Why a binding of a sentence is not in force at a use.
fn relation(binding: Node<'_>, sentence: Node<'_>, used: Node<'_>) -> Relation {
    let around = |node: Node<'_>| node.index() < used.index() && used.index() < node.next();
    if around(sentence) {
        return Relation::Later;
    }
    let inside = |node: Node<'_>| node.kind() == NodeKind::Sentence && around(node);
    if binding.index() < used.index() && sentence.ancestors().any(inside) {
        Relation::Block
    } else {
        Relation::Sentence
    }
}
