//! An open file, with places by line and UTF-16 unit as the protocol counts them.

use refal5::rows::{Node, NodeKind};
use refal5::{Recovered, Span};

use crate::json::{Object, Value};

pub struct Document {
    text: String,
    /// Where each line starts.
    lines: Vec<usize>,
}

impl Document {
    pub fn new(text: &str) -> Self {
        let after = |(at, _): (usize, &str)| at + 1;
        let lines = std::iter::once(0)
            .chain(text.match_indices('\n').map(after))
            .collect();
        Self {
            text: text.into(),
            lines,
        }
    }

    pub fn text(&self) -> &str {
        &self.text
    }

    /// What can be told of the text.
    pub fn recovered(&self) -> Recovered<'_> {
        refal5::recover(self.text.as_bytes())
    }

    /// The offset of a position; past a line's end it is the end.
    pub fn offset(&self, position: &Value) -> Option<usize> {
        let line = position.get("line").as_index()?;
        let wanted = position.get("character").as_index()?;
        let start = *self.lines.get(line)?;
        let end = self
            .lines
            .get(line + 1)
            .map_or(self.text.len(), |next| next - 1);
        let mut units = 0;
        for (at, character) in self.text[start..end].char_indices() {
            if units >= wanted {
                return Some(start + at);
            }
            units += character.len_utf16();
        }
        Some(end)
    }

    pub fn position(&self, offset: usize) -> String {
        let line = self.lines.partition_point(|&start| start <= offset) - 1;
        let before = &self.text[self.lines[line]..offset.min(self.text.len())];
        Object::new()
            .plain("line", line)
            .plain("character", before.encode_utf16().count())
            .end()
    }

    pub fn range(&self, span: Span) -> String {
        Object::new()
            .plain("start", self.position(span.start))
            .plain("end", self.position(span.end))
            .end()
    }
}

/// The smallest node of a tree that has this offset; of those of one size the innermost.
pub fn node_at<'a>(recovered: &'a Recovered<'_>, offset: usize) -> Option<Node<'a>> {
    let size = |node: &Node<'_>| node.span().end - node.span().start;
    recovered
        .tree()
        .nodes()
        .filter(|node| !matches!(node.kind(), NodeKind::Name | NodeKind::Terms))
        .filter(|node| (node.span().start..node.span().end).contains(&offset))
        .fold(None, |best: Option<Node<'a>>, node| match best {
            Some(best) if size(&best) < size(&node) => Some(best),
            _ => Some(node),
        })
}
