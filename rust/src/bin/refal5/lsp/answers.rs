//! What the server answers.

use refal5::rows::{Kind, Node, NodeKind, TokenRows};
use refal5::{Span, identifiers_equal, outline};

use super::document::{Document, node_at};
use crate::check::counted;
use crate::json::{Object, array};

/// What the server can do. The text of a file is sent whole.
pub fn capabilities() -> String {
    let can = Object::new()
        .plain("textDocumentSync", 1)
        .plain("hoverProvider", true)
        .plain("definitionProvider", true)
        .plain("documentSymbolProvider", true)
        .plain("documentFormattingProvider", true);
    let info = Object::new()
        .string("name", "refal5")
        .string("version", env!("CARGO_PKG_VERSION"));
    Object::new()
        .plain("capabilities", can.end())
        .plain("serverInfo", info.end())
        .end()
}

/// The protocol's degrees: error, warning for what rests on a guess, information for notes.
const ERROR: u32 = 1;
const WARNING: u32 = 2;
const INFORMATION: u32 = 3;

/// All that is wrong with a file, or the notes on it.
pub fn diagnostics(document: &Document) -> String {
    let recovered = document.recovered();
    let mut all: Vec<String> = recovered
        .problems
        .iter()
        .map(|problem| {
            let diagnosis = &problem.diagnosis;
            let (degree, possibly) = if problem.possibly {
                (WARNING, "possibly: ")
            } else {
                (ERROR, "")
            };
            let message = format!("{possibly}{}\n{}", diagnosis.message, diagnosis.advice);
            diagnostic(document, diagnosis.meant.span, degree, &message)
                .plain("code", diagnosis.refusal.number)
                .end()
        })
        .collect();
    if all.is_empty() {
        let notes = refal5::notes(recovered.tokens());
        all.extend(notes.iter().map(|note| {
            diagnostic(document, note.place.span, INFORMATION, &note.message)
                .string("code", note.about.name())
                .end()
        }));
    }
    array(&all)
}

fn diagnostic(document: &Document, span: Span, degree: u32, message: &str) -> Object {
    Object::new()
        .plain("range", document.range(span))
        .plain("severity", degree)
        .string("source", "refal5")
        .string("message", message)
}

/// The kind, text and span of the node here.
pub fn hover(document: &Document, at: usize) -> Option<String> {
    let recovered = document.recovered();
    let node = node_at(&recovered, at)?;
    let Span { start, end } = node.span();
    let words = match node.kind() {
        NodeKind::Char => node
            .character()
            .map_or(String::new(), |c| format!(" {c:?}")),
        NodeKind::Variable => format!(" {}.{}", node.letter().unwrap_or('?'), node.text()),
        _ if node.text().is_empty() => String::new(),
        _ => format!(" {}", node.text()),
    };
    let entry = if node.is_entry() { ", entry" } else { "" };
    let text = format!("{}{words}{entry}, bytes {start}-{end}", node.kind().name());
    let contents = Object::new()
        .string("kind", "plaintext")
        .string("value", &text);
    Some(
        Object::new()
            .plain("contents", contents.end())
            .plain("range", document.range(node.span()))
            .end(),
    )
}

/// Where the rule whose name stands here is defined, or, if it is not, declared.
pub fn definition(document: &Document, uri: &str, at: usize) -> Option<String> {
    let recovered = document.recovered();
    let tokens = recovered.tokens();
    let token = tokens.iter().find(|token| {
        (token.span().start..=token.span().end).contains(&at) && token.kind() == Kind::Identifier
    })?;
    let tree = recovered.tree();
    let named = |node: &Node<'_>| identifiers_equal(node.text(), token.text());
    let rule = tree
        .items()
        .find(|item| item.kind() == NodeKind::Function && named(item));
    let declared = || {
        tree.nodes()
            .find(|node| node.kind() == NodeKind::Name && named(node))
    };
    let text = rule.or_else(declared)?.text_span();
    Some(
        Object::new()
            .string("uri", uri)
            .plain("range", document.range(text))
            .end(),
    )
}

/// The protocol's number for a function.
const FUNCTION: u32 = 12;

/// The rules of the file, those that parse.
pub fn symbols(document: &Document) -> String {
    let recovered = document.recovered();
    let tree = recovered.tree();
    let names = tree
        .items()
        .filter(|item| item.kind() == NodeKind::Function)
        .map(Node::text_span);
    let symbols: Vec<String> = outline(tree)
        .iter()
        .zip(names)
        .map(|(rule, name)| {
            let entry = if rule.entry { "entry, " } else { "" };
            let calls = if rule.calls.is_empty() {
                String::new()
            } else {
                format!(", calls {}", rule.calls.join(", "))
            };
            Object::new()
                .string("name", rule.name)
                .string(
                    "detail",
                    &format!("{entry}{}{calls}", counted(rule.sentences, "sentence")),
                )
                .plain("kind", FUNCTION)
                .plain("range", document.range(rule.span))
                .plain("selectionRange", document.range(name))
                .end()
        })
        .collect();
    array(&symbols)
}

/// The file laid out, as one change of all of it.
pub fn formatting(document: &Document) -> Option<String> {
    let mut rows = TokenRows::new();
    let tokens = rows.read(document.text().as_bytes()).ok()?;
    let text = refal5::layout(tokens).ok()?;
    let all = Span {
        start: 0,
        end: document.text().len(),
    };
    let edit = Object::new()
        .plain("range", document.range(all))
        .string("newText", &text);
    Some(array(&[edit.end()]))
}
