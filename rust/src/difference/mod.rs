//! What differs between two programs, by their trees: spacing, comments and equal spellings of names do not count.

mod key;
mod pairs;

use std::collections::HashMap;

use crate::rows::{Node, NodeKind, Tree};
use crate::{Span, canonical_identifier};

/// A rule or a declared name that differs.
#[derive(Debug, Clone, PartialEq, Eq)]
pub struct Difference<'a> {
    /// As the new program spells it, or the old one where it is gone.
    pub name: &'a str,
    /// A declared name, and no rule.
    pub declared: bool,
    /// The rule's span in the old and the new program; none for what is not there, nor for a declared name.
    pub spans: (Option<Span>, Option<Span>),
    pub change: Change,
}

#[derive(Debug, Clone, PartialEq, Eq)]
pub enum Change {
    Added,
    Removed,
    /// Sentences that differ, by their spans in the old and the new program, and whether `$ENTRY` was put or taken away.
    Changed {
        sentences: Vec<(Option<Span>, Option<Span>)>,
        entry: Option<bool>,
    },
}

/// What differs: the new program's rules in order, then those that are gone, then declared names.
///
/// ```
/// use refal5::rows::{NodeRows, TokenRows};
/// use refal5::{Change, differences};
///
/// let (mut a, mut b, mut c, mut d) = (TokenRows::new(), TokenRows::new(), NodeRows::new(), NodeRows::new());
/// let old = c.parse(a.read(b"F_a{e.x=<G e.x>;} G{A=B;}")?)?;
/// let new = d.parse(b.read(b"F-A { e.X = <G e.X>; } /* moved */ H { A = B; }")?)?;
/// let found = differences(old, new);
/// assert_eq!((found[0].name, &found[0].change), ("H", &Change::Added));
/// assert_eq!((found[1].name, &found[1].change), ("G", &Change::Removed));
/// assert_eq!(found.len(), 2);
/// # Ok::<(), refal5::Refusal>(())
/// ```
pub fn differences<'a>(old: Tree<'a>, new: Tree<'a>) -> Vec<Difference<'a>> {
    let mut found = Vec::new();
    let mut left = Named::new(old);
    for rule in rules(new) {
        match left.take(rule.text()) {
            Some(before) => found.extend(changed(old, before, new, rule)),
            None => found.push(one(rule, Change::Added)),
        }
    }
    for rule in left.rest() {
        found.push(one(rule, Change::Removed));
    }
    found.extend(declared(old, new));
    found
}

fn rules(tree: Tree<'_>) -> impl Iterator<Item = Node<'_>> {
    tree.items()
        .filter(|item| item.kind() == NodeKind::Function)
}

/// The rules of a program by name; several of one name in order.
struct Named<'a> {
    rules: Vec<Option<Node<'a>>>,
    places: HashMap<String, Vec<usize>>,
}

impl<'a> Named<'a> {
    fn new(tree: Tree<'a>) -> Self {
        let rules: Vec<_> = rules(tree).map(Some).collect();
        let mut places: HashMap<String, Vec<usize>> = HashMap::new();
        for (place, rule) in rules.iter().enumerate().rev() {
            let name = rule.map_or("", Node::text);
            places
                .entry(canonical_identifier(name))
                .or_default()
                .push(place);
        }
        Self { rules, places }
    }

    /// The next rule of an equal name.
    fn take(&mut self, name: &str) -> Option<Node<'a>> {
        let place = self.places.get_mut(&canonical_identifier(name))?.pop()?;
        self.rules[place].take()
    }

    fn rest(self) -> impl Iterator<Item = Node<'a>> {
        self.rules.into_iter().flatten()
    }
}

fn one(rule: Node<'_>, change: Change) -> Difference<'_> {
    let span = Some(rule.span());
    Difference {
        name: rule.text(),
        declared: false,
        spans: if change == Change::Added {
            (None, span)
        } else {
            (span, None)
        },
        change,
    }
}

fn changed<'a>(
    old: Tree<'a>,
    before: Node<'a>,
    new: Tree<'a>,
    rule: Node<'a>,
) -> Option<Difference<'a>> {
    let sentences = |tree: Tree<'a>, rule: Node<'a>| -> Vec<(String, Span)> {
        rule.children()
            .map(|sentence| (key::key(tree, sentence), sentence.span()))
            .collect()
    };
    let pairs = pairs::pairs(&sentences(old, before), &sentences(new, rule));
    let entry = (before.is_entry() != rule.is_entry()).then(|| rule.is_entry());
    (!pairs.is_empty() || entry.is_some()).then(|| Difference {
        name: rule.text(),
        declared: false,
        spans: (Some(before.span()), Some(rule.span())),
        change: Change::Changed {
            sentences: pairs,
            entry,
        },
    })
}

/// Names that only one of the programs declares.
fn declared<'a>(old: Tree<'a>, new: Tree<'a>) -> Vec<Difference<'a>> {
    let names = |tree: Tree<'a>| -> Vec<&'a str> {
        tree.items()
            .filter(|item| item.kind() == NodeKind::Declaration)
            .flat_map(Node::children)
            .map(Node::text)
            .collect()
    };
    let (old, new) = (names(old), names(new));
    let lacks = |names: &[&str], name: &str| {
        let wanted = canonical_identifier(name);
        !names
            .iter()
            .any(|other| canonical_identifier(other) == wanted)
    };
    let difference = |name: &'a str, change: Change| Difference {
        name,
        declared: true,
        spans: (None, None),
        change,
    };
    let added = new.iter().filter(|name| lacks(&old, name));
    let removed = old.iter().filter(|name| lacks(&new, name));
    added
        .map(|name| difference(name, Change::Added))
        .chain(removed.map(|name| difference(name, Change::Removed)))
        .collect()
}
