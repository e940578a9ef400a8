//! Document 01's terms: kinds, rows, refusals and the seven words of an answer.

/// Words of a token row: kind, detail, text start, text length, span start, span end.
pub type TokenRow = [u32; 6];
/// Words of a node row: those of a token row, then the row after the node's subtree, then its parent's row.
pub type NodeRow = [u32; 8];
/// How many words a node row has.
pub const NODE_WIDTH: usize = size_of::<NodeRow>() / size_of::<u32>();
/// The parent of a row that has none.
pub const NO_PARENT: u32 = u32::MAX;
/// Refusal number or 0, count, expected, found, span start, span end, need.
pub type Answer = [u64; 7];

pub const MAX_SOURCE: usize = 16_777_216;
pub const MAX_TOKENS: usize = 16_777_217;
pub const MAX_NODES: usize = 33_554_432;
pub const MAX_TEXT: usize = 16_777_216;
pub const MAX_DEPTH: usize = 64;

pub mod token {
    pub const ENTRY: u32 = 1;
    pub const EXTERN: u32 = 2;
    pub const IDENTIFIER: u32 = 3;
    pub const VARIABLE: u32 = 4;
    pub const NUMBER: u32 = 5;
    pub const CHAR: u32 = 6;
    pub const LBRACE: u32 = 7;
    pub const RBRACE: u32 = 8;
    pub const LPAREN: u32 = 9;
    pub const RPAREN: u32 = 10;
    pub const LANGLE: u32 = 11;
    pub const RANGLE: u32 = 12;
    pub const COMMA: u32 = 13;
    pub const COLON: u32 = 14;
    pub const EQUALS: u32 = 15;
    pub const SEMICOLON: u32 = 16;
    pub const EOF: u32 = 17;
}

pub mod node {
    pub const DECLARATION: u32 = 1;
    pub const NAME: u32 = 2;
    pub const FUNCTION: u32 = 3;
    pub const SENTENCE: u32 = 4;
    pub const CONDITION: u32 = 5;
    pub const TERMS: u32 = 6;
    pub const ENDING_BLOCK: u32 = 7;
    pub const CONDITION_BLOCK: u32 = 8;
    pub const IDENTIFIER: u32 = 9;
    pub const NUMBER: u32 = 10;
    pub const CHAR: u32 = 11;
    pub const VARIABLE: u32 = 12;
    pub const BRACKET: u32 = 13;
    pub const CALL: u32 = 14;
}

/// A numbered refusal; fields that 01 does not name for a number are 0.
#[derive(Debug, Clone, Copy, PartialEq, Eq, Default)]
pub struct Refusal {
    pub number: u32,
    pub expected: u32,
    pub found: u32,
    pub start: u64,
    pub end: u64,
    pub need: u64,
}

impl Refusal {
    pub fn plain(number: u32) -> Self {
        Self {
            number,
            ..Self::default()
        }
    }

    pub fn spanned(number: u32, start: usize, end: usize) -> Self {
        Self {
            number,
            start: start as u64,
            end: end as u64,
            ..Self::default()
        }
    }

    pub fn needing(number: u32, need: usize) -> Self {
        Self {
            number,
            need: need as u64,
            ..Self::default()
        }
    }

    pub fn answer(self) -> Answer {
        [
            u64::from(self.number),
            0,
            u64::from(self.expected),
            u64::from(self.found),
            self.start,
            self.end,
            self.need,
        ]
    }
}

/// The answer to a call that put down `count` rows or bytes.
pub fn done(count: usize) -> Answer {
    [0, count as u64, 0, 0, 0, 0, 0]
}

/// What a call leaves in `lent`: the rows and what was there past them, or zeros.
///
/// `full` is the refusal for too few rows (25 or 38). A slice holds as many rows as fit whole.
pub fn put_rows<const W: usize>(
    result: Result<Vec<[u32; W]>, Refusal>,
    full: u32,
    lent: &mut [u32],
) -> Answer {
    let result = result.and_then(|rows| {
        if rows.len() > lent.len() / W {
            Err(Refusal::needing(full, rows.len()))
        } else {
            Ok(rows)
        }
    });
    match result {
        Ok(rows) => {
            for (at, row) in rows.iter().enumerate() {
                lent[at * W..(at + 1) * W].copy_from_slice(row);
            }
            done(rows.len())
        }
        Err(refusal) => {
            lent.fill(0);
            refusal.answer()
        }
    }
}

/// What a call leaves in `lent` bytes: those put down and what was there past them, or zeros.
pub fn put_bytes(result: Result<Vec<u8>, Refusal>, lent: &mut [u8]) -> Answer {
    match result {
        Ok(bytes) => {
            lent[..bytes.len()].copy_from_slice(&bytes);
            done(bytes.len())
        }
        Err(refusal) => {
            lent.fill(0);
            refusal.answer()
        }
    }
}
