//! A tree's nodes in order, with their depth and what they are to their parent.

use refal5::rows::{Node, NodeKind, Tree};

/// A node, how deep it stands, and its part in its parent.
pub struct Step<'a> {
    pub node: Node<'a>,
    pub depth: usize,
    pub role: &'static str,
}

/// Nodes open at some row: the row after each, its kind and the children seen.
struct Open {
    end: usize,
    kind: NodeKind,
    children: usize,
}

pub fn walk(tree: Tree<'_>) -> impl Iterator<Item = Step<'_>> {
    let mut open: Vec<Open> = Vec::new();
    tree.nodes().map(move |node| {
        while open.last().is_some_and(|last| last.end == node.index()) {
            open.pop();
        }
        let depth = open.len();
        let role = open.last_mut().map_or("", |parent| {
            parent.children += 1;
            role(parent.kind, parent.children, node.kind())
        });
        open.push(Open {
            end: node.next(),
            kind: node.kind(),
            children: 0,
        });
        Step { node, depth, role }
    })
}

/// What a Terms node is to its parent, of which it is the child with this number, from 1.
fn role(parent: NodeKind, number: usize, kind: NodeKind) -> &'static str {
    match (parent, number, kind) {
        (NodeKind::Sentence, 1, NodeKind::Terms) => "pattern",
        (NodeKind::Sentence, _, NodeKind::Terms) => "result",
        (NodeKind::Condition, 1, NodeKind::Terms) => "tested",
        (NodeKind::Condition, _, NodeKind::Terms) => "pattern",
        (NodeKind::EndingBlock, 1, NodeKind::Terms) => "argument",
        _ => "",
    }
}
