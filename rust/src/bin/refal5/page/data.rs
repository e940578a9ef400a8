//! A page's data: the source, tokens and nodes in flat lists of small numbers, and what is wrong.
//!
//! Offsets count UTF-16 units, as the page's strings do. A token is its kind, the units since the last token's end and its
//! own; each character of a literal has its own piece. A node is its kind, its first token less the last node's, the
//! number of its tokens, the number of rows of its subtree and its row less its parent's, 0 where it has none.

use std::fmt::Write;

use refal5::raw::{NO_PARENT, NODE_WORDS};
use refal5::rows::{Kind, NodeKind, Tokens};
use refal5::{Problem, Recovered, Span};

use super::units::Units;
use crate::json::{self, Object, array};

/// The kind of a character that its literal's first is not.
const SAME_LITERAL: u32 = 18;
/// The kind of a function marked `$ENTRY`.
const ENTRY_FUNCTION: u32 = 15;

/// The data as JSON that may stand in an HTML script. Of a source that is refused, what can be read and parses.
pub fn of(source: &[u8]) -> String {
    let recovered = refal5::recover(source);
    let mut out = String::from("{\"source\":");
    // What follows bytes that are not UTF-8 is shown as well as can be.
    json::quote(&String::from_utf8_lossy(source), &mut out);
    out.push_str(",\"tokens\":[");
    put_tokens(recovered.tokens(), &mut out);
    out.push_str("],\"nodes\":[");
    put_nodes(&from_words(recovered.indexed()), &mut out);
    out.push_str("],\"problems\":");
    out.push_str(&problems(&recovered));
    write!(out, ",\"stopped\":{}}}", recovered.stopped).expect("a string takes all");
    out.replace('<', "\\u003c")
}

fn problems(recovered: &Recovered<'_>) -> String {
    let units = Units::new(recovered.source(), &recovered.problems);
    let span = |span: Span| format!("[{},{}]", units.at(span.start), units.at(span.end));
    let one = |problem: &Problem| {
        let diagnosis = &problem.diagnosis;
        let meant = diagnosis.meant;
        let object = Object::new()
            .plain("number", diagnosis.refusal.number)
            .plain("possibly", problem.possibly)
            .string("place", &format!("{}:{}", meant.line, meant.column))
            .string("message", &diagnosis.message)
            .string("advice", &diagnosis.advice)
            .plain("meant", span(meant.span));
        let object = if diagnosis.differs() {
            object.plain("shown", span(diagnosis.shown.span))
        } else {
            object
        };
        match diagnosis.gap {
            Some(gap) => {
                let write = json::quoted(gap.write);
                let at = units.at(gap.place.span.start);
                object.plain("gap", format!("[{at},{write}]")).end()
            }
            None => object.end(),
        }
    };
    array(&recovered.problems.iter().map(one).collect::<Vec<_>>())
}

/// A node over tokens `first` up to `end`.
struct Node {
    kind: u32,
    first: usize,
    end: usize,
    /// The row after its subtree.
    next: usize,
    /// Its parent's row.
    parent: Option<usize>,
}

impl Node {
    fn is_terms(&self) -> bool {
        self.kind == NodeKind::Terms.number()
    }
}

/// The nodes in order, with ranges for Terms, which have no span.
fn from_words(words: &[u32]) -> Vec<Node> {
    let mut nodes: Vec<Node> = words.chunks(NODE_WORDS).map(from_row).collect();
    // For each row, the outermost node whose subtree ends before it: the sibling before, if there is one.
    let mut sibling = vec![None; nodes.len() + 1];
    for index in (0..nodes.len()).rev() {
        let next = nodes[index].next;
        if nodes[index].is_terms() && next > index + 1 {
            nodes[index].first = nodes[index + 1].first;
            nodes[index].end = nodes[sibling[next].unwrap_or(index + 1)].end;
        }
        sibling[next] = Some(index);
    }
    // Terms without children stand after their sibling, or where their parent starts.
    for index in 1..nodes.len() {
        if nodes[index].is_terms() && nodes[index].next == index + 1 {
            let at = match sibling[index] {
                Some(before) => nodes[before].end,
                None => nodes[index - 1].first,
            };
            (nodes[index].first, nodes[index].end) = (at, at);
        }
    }
    nodes
}

fn from_row(row: &[u32]) -> Node {
    let kind = NodeKind::from_number(row[0]).expect("parsing gives kinds 1 to 14");
    let (first, last) = match kind {
        NodeKind::Name => (row[2], row[2]),
        _ => (row[4], row[5]),
    };
    let entry = kind == NodeKind::Function && row[1] == 1;
    Node {
        kind: if entry { ENTRY_FUNCTION } else { row[0] },
        first: first as usize,
        end: last as usize + 1,
        next: row[6] as usize,
        parent: (row[7] != NO_PARENT).then_some(row[7] as usize),
    }
}

fn put_nodes(nodes: &[Node], out: &mut String) {
    let mut last = 0;
    for (index, node) in nodes.iter().enumerate() {
        let part = if index == 0 { "" } else { "," };
        let step = node.first as i64 - last;
        let count = node.end - node.first;
        let rows = node.next - index;
        let rise = node.parent.map_or(0, |parent| index - parent);
        write!(out, "{part}{},{step},{count},{rows},{rise}", node.kind)
            .expect("a string takes all");
        last = node.first as i64;
    }
}

/// Puts down the tokens but Eof, which has no text.
fn put_tokens(tokens: Tokens<'_>, out: &mut String) {
    let mut pieces = Pieces {
        source: tokens.source(),
        at: 0,
        out,
    };
    let mut literal = None;
    for token in tokens.iter().filter(|token| token.kind() != Kind::Eof) {
        let span = token.span();
        match token.character() {
            None => pieces.put(token.kind().number(), span.start, span.end),
            Some(_) => {
                let same = literal == Some(span);
                let start = if same { pieces.at } else { span.start + 1 };
                let quote = tokens.source().as_bytes()[span.start];
                let kind = if same {
                    SAME_LITERAL
                } else {
                    Kind::Char.number()
                };
                pieces.put(kind, start, character_end(tokens.source(), start, quote));
                literal = Some(span);
            }
        }
    }
}

/// Where the character of a literal that starts here ends; a quote stands there doubled.
fn character_end(source: &str, start: usize, quote: u8) -> usize {
    match source[start..].chars().next() {
        Some(character) if character == char::from(quote) => start + 2,
        Some(character) => start + character.len_utf8(),
        None => start,
    }
}

/// Puts down pieces of the source, which follow each other.
struct Pieces<'a> {
    source: &'a str,
    /// The end of the last piece, in bytes.
    at: usize,
    out: &'a mut String,
}

impl Pieces<'_> {
    fn put(&mut self, kind: u32, start: usize, end: usize) {
        let units = |text: &str| text.encode_utf16().count();
        let part = if self.out.ends_with('[') { "" } else { "," };
        let gap = units(&self.source[self.at..start]);
        let length = units(&self.source[start..end]);
        write!(self.out, "{part}{kind},{gap},{length}").expect("a string takes all");
        self.at = end;
    }
}

#[cfg(test)]
mod tests {
    use super::of;

    #[test]
    fn a_small_source() {
        assert_eq!(
            of("$ENTRY Go{'a''b'=<F>;}".as_bytes()),
            "{\"source\":\"$ENTRY Go{'a''b'=\\u003cF>;}\",\
             \"tokens\":[1,0,6,3,1,2,7,0,1,6,1,1,18,0,2,18,0,1,15,1,1,11,0,1,3,0,1,12,0,1,16,0,1,8,0,1],\
             \"nodes\":[15,0,12,8,0,4,3,8,7,1,6,0,3,4,1,11,0,1,1,1,11,1,1,1,2,11,1,1,1,3,6,2,3,2,5,14,0,3,1,1],\
             \"problems\":[],\"stopped\":false}"
        );
    }

    #[test]
    fn offsets_count_units() {
        assert_eq!(
            of("F{'😀'=;}".as_bytes()),
            "{\"source\":\"F{'😀'=;}\",\"tokens\":[3,0,1,7,0,1,6,1,2,15,1,1,16,0,1,8,0,1],\
             \"nodes\":[3,0,6,5,0,4,2,3,4,1,6,0,1,2,1,11,0,1,1,1,6,1,0,1,3],\"problems\":[],\"stopped\":false}"
        );
    }

    #[test]
    fn a_source_that_is_refused() {
        let data = of("F{'😀'=A B=;} $ENTRY G{}".as_bytes());
        assert!(data.contains(
            "\"nodes\":[15,9,4,1,0],\"problems\":[{\"number\":34,\"possibly\":false,\"place\":\"1:10\","
        ));
        assert!(data.contains("\"meant\":[10,11],\"shown\":[11,12]}]"));
    }
}
