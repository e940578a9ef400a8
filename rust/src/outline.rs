//! The rules of a program: a line for each.

use std::collections::HashSet;

use crate::rows::{Node, NodeKind, Tree};
use crate::{Span, canonical_identifier};

/// A function, as a list of rules shows it.
#[derive(Debug, Clone, PartialEq, Eq)]
pub struct Rule<'a> {
    pub name: &'a str,
    /// Whether it is marked `$ENTRY`.
    pub entry: bool,
    /// The sentences of its own, those of blocks not counted.
    pub sentences: usize,
    /// The names that it calls, each once, as first spelled.
    pub calls: Vec<&'a str>,
    pub span: Span,
    /// Its first and last line, from 1.
    pub lines: (usize, usize),
}

/// The rules of a tree, in order.
///
/// ```
/// use refal5::rows::{NodeRows, TokenRows};
///
/// let (mut token_rows, mut node_rows) = (TokenRows::new(), NodeRows::new());
/// let tokens = token_rows.read(b"$ENTRY Go {\n  e1 = <F-a <F_A e1>>;\n}")?;
/// let rules = refal5::outline(node_rows.parse(tokens)?);
/// assert_eq!((rules[0].name, rules[0].entry, rules[0].lines), ("Go", true, (1, 3)));
/// assert_eq!(rules[0].calls, ["F-a"]);
/// # Ok::<(), refal5::Refusal>(())
/// ```
pub fn outline(tree: Tree<'_>) -> Vec<Rule<'_>> {
    let source = tree.source();
    let (mut at, mut line) = (0, 1);
    let mut line_of = |offset: usize| {
        let passed = source.get(at..offset).unwrap_or("");
        line += passed.bytes().filter(|&byte| byte == b'\n').count();
        at = at.max(offset);
        line
    };
    tree.items()
        .filter(|item| item.kind() == NodeKind::Function)
        .map(|item| {
            let span = item.span();
            Rule {
                name: item.text(),
                entry: item.is_entry(),
                sentences: item.children().count(),
                calls: calls(tree, item),
                span,
                lines: (line_of(span.start), line_of(span.end)),
            }
        })
        .collect()
}

fn calls<'a>(tree: Tree<'a>, item: Node<'a>) -> Vec<&'a str> {
    let mut seen = HashSet::new();
    (item.index()..item.next())
        .filter_map(|index| tree.get(index))
        .filter(|node| node.kind() == NodeKind::Call)
        .map(Node::text)
        .filter(|name| seen.insert(canonical_identifier(name)))
        .collect()
}
