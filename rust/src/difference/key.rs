//! A text that two subtrees share exactly when they are equal, spans aside, names up to equivalence.

use std::fmt::Write;

use crate::rows::{Node, NodeKind, Tree};
use crate::{canonical_identifier, canonical_variable_index};

pub(super) fn key(tree: Tree<'_>, node: Node<'_>) -> String {
    let mut key = String::new();
    for index in node.index()..node.next() {
        let Some(node) = tree.get(index) else { break };
        let text = match node.kind() {
            NodeKind::Variable => canonical_variable_index(node.text()),
            NodeKind::Number => node.text().into(),
            _ => canonical_identifier(node.text()),
        };
        let detail = node
            .character()
            .or_else(|| node.letter())
            .map_or(0, u32::from);
        let (kind, rows) = (node.kind().number(), node.next() - index);
        write!(key, "{kind},{detail},{rows},{text};").expect("a string takes all");
    }
    key
}
