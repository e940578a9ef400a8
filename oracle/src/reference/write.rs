//! 01 "Writing", with 02's cards 1 and 4: the check of a tree (40), of its texts (41) and the text itself.

use super::spelling::{is_identifier, is_index, is_number};
use super::utf8::{encode, is_scalar};
use crate::terms::{
    Answer, MAX_DEPTH, MAX_NODES, MAX_SOURCE, MAX_TEXT, NO_PARENT, NODE_WIDTH, NodeRow, Refusal,
    node, put_bytes,
};

pub fn write(tree: &[u32], src: &[u8], out: &mut [u8]) -> Answer {
    let result = text(tree, src).and_then(|text| {
        if text.len() > out.len() || text.len() > MAX_TEXT {
            Err(Refusal::needing(42, text.len()))
        } else {
            Ok(text)
        }
    });
    put_bytes(result, out)
}

/// The text, or 40 or 41.
pub fn text(words: &[u32], src: &[u8]) -> Result<Vec<u8>, Refusal> {
    let rows = checked(words, src)?;
    let mut writer = Writer {
        rows: &rows,
        src,
        text: Vec::new(),
    };
    writer.nodes(0, rows.len());
    Ok(writer.text)
}

/// The rows of a tree that passes 40 and 41, or the refusal.
pub fn checked(words: &[u32], src: &[u8]) -> Result<Vec<NodeRow>, Refusal> {
    let rows = lawful_rows(words).ok_or(Refusal::plain(40))?;
    if !rows.iter().all(|row| text_is_good(row, src)) {
        return Err(Refusal::plain(41));
    }
    Ok(rows)
}

/// The rows of a lawful tree of depth 64 or less.
pub fn lawful_rows(words: &[u32]) -> Option<Vec<NodeRow>> {
    if !words.len().is_multiple_of(NODE_WIDTH) || words.len() / NODE_WIDTH > MAX_NODES {
        return None;
    }
    let rows: Vec<NodeRow> = words
        .chunks(NODE_WIDTH)
        .map(|row| row.try_into().expect("the words of a row"))
        .collect();
    let mut at = 0;
    while at < rows.len() {
        at = top(&rows, at)?;
    }
    parents_are_exact(&rows).then_some(rows)
}

/// Whether each row names the last row before it whose subtree it is in; `next` of every row is right.
fn parents_are_exact(rows: &[NodeRow]) -> bool {
    let mut around: Vec<usize> = Vec::new();
    rows.iter().enumerate().all(|(at, row)| {
        while around
            .last()
            .is_some_and(|&open| rows[open][6] as usize <= at)
        {
            around.pop();
        }
        let parent = around.last().map_or(NO_PARENT, |&open| open as u32);
        around.push(at);
        row[7] == parent
    })
}

fn kind_at(rows: &[NodeRow], at: usize, end: usize) -> u32 {
    if at < end { rows[at][0] } else { 0 }
}

/// Where the subtree at `at` ends, if the row has the fields of its kind and ends by `end`.
fn subtree(rows: &[NodeRow], at: usize, end: usize) -> Option<usize> {
    let [kind, detail, text, length, start, stop, next, _] = *rows.get(at)?;
    let has_text = matches!(
        kind,
        node::NAME | node::FUNCTION | node::IDENTIFIER | node::NUMBER | node::VARIABLE | node::CALL
    );
    let has_span = !matches!(kind, node::NAME | node::TERMS);
    let detail_fits = match kind {
        node::FUNCTION | node::SENTENCE => detail <= 1,
        node::CHAR => true,
        node::VARIABLE => b"ste".iter().any(|&letter| u32::from(letter) == detail),
        _ => detail == 0,
    };
    let next = next as usize;
    ((1..=14).contains(&kind)
        && detail_fits
        && (has_text || (text == 0 && length == 0))
        && (has_span || (start == 0 && stop == 0))
        && at < next
        && next <= end)
        .then_some(next)
}

fn top(rows: &[NodeRow], at: usize) -> Option<usize> {
    let end = subtree(rows, at, rows.len())?;
    let mut inside = at + 1;
    match rows[at][0] {
        node::DECLARATION => {
            while inside < end {
                inside = leaf(rows, inside, end, |kind| kind == node::NAME)?;
            }
            (end > at + 1).then_some(end)
        }
        node::FUNCTION => sentences(rows, inside, end, 0),
        _ => None,
    }
}

fn leaf(rows: &[NodeRow], at: usize, end: usize, kind: fn(u32) -> bool) -> Option<usize> {
    let next = subtree(rows, at, end)?;
    (kind(rows[at][0]) && next == at + 1).then_some(next)
}

/// Sentences from `at` to `end`, of which only the last may have its `;` left off. `depth` is how
/// many of 7, 8, 13 and 14 stand above.
fn sentences(rows: &[NodeRow], at: usize, end: usize, depth: usize) -> Option<usize> {
    let mut inside = at;
    while inside < end {
        let next = sentence(rows, inside, end, depth)?;
        if rows[inside][1] == 1 && next < end {
            return None;
        }
        inside = next;
    }
    Some(end)
}

fn sentence(rows: &[NodeRow], at: usize, end: usize, depth: usize) -> Option<usize> {
    let end = subtree(rows, at, end).filter(|_| rows[at][0] == node::SENTENCE)?;
    let mut inside = terms(rows, at + 1, end, depth)?;
    while kind_at(rows, inside, end) == node::CONDITION {
        inside = condition(rows, inside, end, depth)?;
    }
    inside = match kind_at(rows, inside, end) {
        node::ENDING_BLOCK => block(rows, inside, end, depth)?,
        _ => terms(rows, inside, end, depth)?,
    };
    (inside == end).then_some(end)
}

fn condition(rows: &[NodeRow], at: usize, end: usize, depth: usize) -> Option<usize> {
    let end = subtree(rows, at, end)?;
    let inside = terms(rows, at + 1, end, depth)?;
    let inside = match kind_at(rows, inside, end) {
        node::CONDITION_BLOCK => block(rows, inside, end, depth)?,
        _ => terms(rows, inside, end, depth)?,
    };
    (inside == end).then_some(end)
}

/// A 7 or an 8; a 7 does not count for the terms of its argument.
fn block(rows: &[NodeRow], at: usize, end: usize, depth: usize) -> Option<usize> {
    let end = subtree(rows, at, end).filter(|_| depth < MAX_DEPTH)?;
    let mut inside = at + 1;
    if rows[at][0] == node::ENDING_BLOCK {
        inside = terms(rows, inside, end, depth)?;
    }
    sentences(rows, inside, end, depth + 1)
}

fn terms(rows: &[NodeRow], at: usize, end: usize, depth: usize) -> Option<usize> {
    if kind_at(rows, at, end) != node::TERMS {
        return None;
    }
    let end = subtree(rows, at, end)?;
    terms_inside(rows, at, end, depth)
}

fn terms_inside(rows: &[NodeRow], at: usize, end: usize, depth: usize) -> Option<usize> {
    let mut inside = at + 1;
    while inside < end {
        inside = match rows[inside][0] {
            node::BRACKET | node::CALL => {
                let next = subtree(rows, inside, end).filter(|_| depth < MAX_DEPTH)?;
                terms_inside(rows, inside, next, depth + 1)?
            }
            _ => leaf(rows, inside, end, |kind| {
                (node::IDENTIFIER..=node::VARIABLE).contains(&kind)
            })?,
        };
    }
    Some(end)
}

fn text_of<'a>(row: &NodeRow, src: &'a [u8]) -> Option<&'a [u8]> {
    let start = row[2] as usize;
    src.get(start..start.checked_add(row[3] as usize)?)
}

fn text_is_good(row: &NodeRow, src: &[u8]) -> bool {
    match row[0] {
        node::NAME | node::FUNCTION | node::IDENTIFIER | node::CALL => {
            text_of(row, src).is_some_and(is_identifier)
        }
        // a text that reading gives is at most as long as a source that is read
        node::NUMBER => {
            text_of(row, src).is_some_and(|text| text.len() <= MAX_SOURCE && is_number(text))
        }
        node::VARIABLE => text_of(row, src).is_some_and(is_index),
        node::CHAR => row[1] != 10 && is_scalar(row[1]),
        _ => true,
    }
}

struct Writer<'a> {
    rows: &'a [NodeRow],
    src: &'a [u8],
    text: Vec<u8>,
}

impl Writer<'_> {
    /// A token, then one space.
    fn put(&mut self, spelling: &[u8]) {
        self.text.extend_from_slice(spelling);
        self.text.push(b' ');
    }

    fn put_text(&mut self, at: usize) {
        let text = text_of(&self.rows[at], self.src).expect("checked by 41");
        self.put(text);
    }

    fn children(&self, at: usize) -> Vec<usize> {
        let end = self.rows[at][6] as usize;
        let mut inside = at + 1;
        let mut children = Vec::new();
        while inside < end {
            children.push(inside);
            inside = self.rows[inside][6] as usize;
        }
        children
    }

    fn nodes(&mut self, from: usize, to: usize) {
        let mut at = from;
        while at < to {
            self.node(at);
            at = self.rows[at][6] as usize;
        }
    }

    fn inside(&mut self, at: usize) {
        self.nodes(at + 1, self.rows[at][6] as usize);
    }

    fn node(&mut self, at: usize) {
        let detail = self.rows[at][1];
        match self.rows[at][0] {
            node::DECLARATION => self.declaration(at),
            node::FUNCTION => {
                if detail == 1 {
                    self.put(b"$ENTRY");
                }
                self.put_text(at);
                self.put(b"{");
                self.inside(at);
                self.put(b"}");
            }
            node::SENTENCE => self.sentence(at),
            node::CONDITION => {
                let children = self.children(at);
                self.put(b",");
                self.node(children[0]);
                self.put(b":");
                self.node(children[1]);
            }
            node::TERMS => self.inside(at),
            node::ENDING_BLOCK => {
                let argument = at + 1;
                let sentences = self.rows[argument][6] as usize;
                self.node(argument);
                self.put(b":");
                self.put(b"{");
                self.nodes(sentences, self.rows[at][6] as usize);
                self.put(b"}");
            }
            node::CONDITION_BLOCK => {
                self.put(b"{");
                self.inside(at);
                self.put(b"}");
            }
            node::CHAR => self.char(detail),
            node::VARIABLE => {
                self.text.extend_from_slice(&[detail as u8, b'.']);
                self.put_text(at);
            }
            node::BRACKET => {
                self.put(b"(");
                self.inside(at);
                self.put(b")");
            }
            node::CALL => {
                self.put(b"<");
                self.put_text(at);
                self.inside(at);
                self.put(b">");
            }
            _ => self.put_text(at),
        }
    }

    fn declaration(&mut self, at: usize) {
        self.put(b"$EXTRN");
        for (place, name) in self.children(at).into_iter().enumerate() {
            if place > 0 {
                self.put(b",");
            }
            self.put_text(name);
        }
        self.put(b";");
    }

    fn sentence(&mut self, at: usize) {
        let children = self.children(at);
        let (&last, before) = children.split_last().expect("a lawful sentence");
        for &child in before {
            self.node(child);
        }
        self.put(b"=");
        if self.rows[last][0] == node::ENDING_BLOCK {
            self.put(b",");
        }
        self.node(last);
        if self.rows[at][1] == 0 {
            self.put(b";");
        }
    }

    fn char(&mut self, value: u32) {
        let quoted = match value {
            39 => b"''''".to_vec(),
            _ => [b"'".to_vec(), encode(value), b"'".to_vec()].concat(),
        };
        self.put(&quoted);
    }
}
