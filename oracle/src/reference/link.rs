//! 02, cards 3 and 5: linking a delivery. Every name is compared with every other.

use super::names::names_equal;
use super::unbound::first_unbound;
use super::write::checked;
use crate::terms::{Answer, NodeRow, Refusal, done, node};

/// A tree's words and its source.
#[derive(Debug, Clone, Copy)]
pub struct File<'a> {
    pub tree: &'a [u32],
    pub src: &'a [u8],
}

/// The number of calls of both files, or the first refusal. Every work word becomes 0.
pub fn link(one: File<'_>, two: File<'_>, work: &mut [u32]) -> Answer {
    work.fill(0);
    calls(one, two).map_or_else(Refusal::answer, done)
}

/// A row with its file, 1 or 2, and its name.
struct Row<'a> {
    file: u32,
    kind: u32,
    name: &'a [u8],
    start: usize,
    end: usize,
}

impl Row<'_> {
    fn shown(&self, number: u32) -> Refusal {
        Refusal {
            found: self.file,
            ..Refusal::spanned(number, self.start, self.end)
        }
    }
}

fn rows<'a>(number: u32, file: File<'a>, rows: &[NodeRow]) -> Vec<Row<'a>> {
    rows.iter()
        .map(|row| {
            let word = |column: usize| row[column] as usize;
            Row {
                file: number,
                kind: row[0],
                name: &file.src[word(2)..word(2) + word(3)],
                start: word(4),
                end: word(5),
            }
        })
        .collect()
}

fn calls(one: File<'_>, two: File<'_>) -> Result<usize, Refusal> {
    let first = checked(one.tree, one.src)?;
    let second = checked(two.tree, two.src)?;
    let mut all = rows(1, one, &first);
    all.extend(rows(2, two, &second));
    let of = |kind: u32| all.iter().filter(move |row| row.kind == kind);
    let functions: Vec<&Row> = of(node::FUNCTION).collect();
    for (at, function) in functions.iter().enumerate() {
        let equal = |earlier: &&Row| names_equal(earlier.name, function.name);
        if functions[..at].iter().any(equal) {
            return Err(function.shown(60));
        }
    }
    for call in of(node::CALL) {
        let known = of(node::FUNCTION).chain(of(node::NAME));
        if !known
            .into_iter()
            .any(|row| names_equal(row.name, call.name))
        {
            return Err(call.shown(61));
        }
    }
    for (number, file, rows) in [(1, one, &first), (2, two, &second)] {
        if let Some(at) = first_unbound(rows, file.src) {
            return Err(self::rows(number, file, rows)[at].shown(62));
        }
    }
    Ok(of(node::CALL).count())
}
