//! Parsing: a test of all tokens, then one pass of recursive descent that puts rows down in place.

use super::refuse;
use oracle::terms::{
    Answer, MAX_DEPTH, MAX_TOKENS, NO_PARENT, NODE_WIDTH, NodeRow, done, node, token,
};

pub fn parse(tokens: &[u32], rows: &mut [u32]) -> Answer {
    let (tokens, rest) = tokens.as_chunks::<6>();
    if !rest.is_empty() || tokens.len() > MAX_TOKENS || !all_lawful(tokens) {
        return refuse(rows, [30, 0, 0, 0, 0, 0, 0]);
    }
    let mut parser = Parser {
        token: tokens.as_ptr(),
        rows: rows.as_mut_ptr(),
        room: rows.len() / NODE_WIDTH,
        count: 0,
        parent: NO_PARENT,
        refusal: [0; 7],
    };
    // Sound: Eof is last and is never passed, and rows are written only within the room.
    let result = unsafe { parser.program() };
    if result.is_err() {
        return refuse(rows, parser.refusal);
    }
    if parser.count > parser.room {
        return refuse(rows, [38, 0, 0, 0, 0, 0, parser.count as u64]);
    }
    done(parser.count)
}

const TEXT: u32 = 1 << token::IDENTIFIER | 1 << token::VARIABLE | 1 << token::NUMBER;
const LEAVES: u32 = TEXT | 1 << token::CHAR;
/// The node of a token that is a term by itself, by the token's kind.
const LEAF: [u32; 8] = [
    0,
    0,
    0,
    node::IDENTIFIER,
    node::VARIABLE,
    node::NUMBER,
    node::CHAR,
    0,
];
const DETAIL: u32 = 1 << token::VARIABLE | 1 << token::CHAR;

/// Without branches on what the tokens hold.
fn all_lawful(tokens: &[[u32; 6]]) -> bool {
    let Some((last, before)) = tokens.split_last() else {
        return false;
    };
    let mut bad = unlawful(last) | (last[0] != token::EOF);
    for row in before {
        bad |= unlawful(row) | (row[0] == token::EOF);
    }
    !bad
}

#[inline(always)]
fn unlawful(&[kind, detail, start, length, ..]: &[u32; 6]) -> bool {
    let bit = 1u32.wrapping_shl(kind);
    (kind.wrapping_sub(1) > 16)
        | (bit & TEXT == 0) & (start | length != 0)
        | (bit & DETAIL == 0) & (detail != 0)
        | (detail > 0x10_ffff)
        | (detail.wrapping_sub(0xd800) < 0x800)
}

/// s, t or e.
#[inline(always)]
fn is_letter(detail: u32) -> bool {
    (detail == 115) | (detail == 116) | (detail == 101)
}

struct Refused;
type Parsed<T> = Result<T, Refused>;

struct Parser {
    token: *const [u32; 6],
    rows: *mut u32,
    room: usize,
    count: usize,
    /// The row in which the parser stands.
    parent: u32,
    refusal: Answer,
}

impl Parser {
    #[inline(always)]
    unsafe fn kind(&self) -> u32 {
        unsafe { (*self.token)[0] }
    }

    #[inline(always)]
    unsafe fn start(&self) -> u32 {
        unsafe { (*self.token)[4] }
    }

    #[inline(always)]
    fn next(&mut self) {
        self.token = self.token.wrapping_add(1);
    }

    #[inline(always)]
    fn open(&mut self) -> usize {
        self.count += 1;
        self.count - 1
    }

    /// Opens a row that has children; gives it and the row around it.
    #[inline(always)]
    fn enter(&mut self) -> (usize, u32) {
        let row = self.open();
        (row, std::mem::replace(&mut self.parent, row as u32))
    }

    /// Puts a row whose children are put, and goes back into the row around it.
    #[inline(always)]
    unsafe fn leave(&mut self, (at, parent): (usize, u32), row: [u32; 6]) {
        self.parent = parent;
        unsafe { self.put(at, row) };
    }

    #[inline(always)]
    unsafe fn put(&mut self, at: usize, row: [u32; 6]) {
        if at < self.room {
            let [kind, detail, text, length, start, end] = row;
            let next = self.count as u32;
            let row = [kind, detail, text, length, start, end, next, self.parent];
            unsafe { self.rows.add(NODE_WIDTH * at).cast::<NodeRow>().write(row) };
        }
    }

    #[cold]
    unsafe fn refuse(&mut self, number: u64, expected: u32, found: u32) -> Refused {
        let [.., start, end] = unsafe { *self.token };
        self.refusal = [
            number,
            0,
            expected.into(),
            found.into(),
            start.into(),
            end.into(),
            0,
        ];
        Refused
    }

    /// The token is taken, and the one after it shown.
    #[cold]
    unsafe fn taken(&mut self, number: u64, expected: u32) -> Refused {
        unsafe {
            let found = self.kind();
            if found != token::EOF {
                self.next();
            }
            self.refuse(number, expected, found)
        }
    }

    #[inline(always)]
    unsafe fn expect(&mut self, kind: u32) -> Parsed<u32> {
        unsafe {
            let [found, .., end] = *self.token;
            if found != kind {
                return Err(self.refuse(35, kind, found));
            }
            self.next();
            Ok(end)
        }
    }

    #[inline(always)]
    unsafe fn name(&mut self, number: u64) -> Parsed<(u32, u32)> {
        unsafe {
            let [kind, _, text, length, ..] = *self.token;
            if kind != token::IDENTIFIER {
                return Err(self.taken(number, token::IDENTIFIER));
            }
            self.next();
            Ok((text, length))
        }
    }

    unsafe fn program(&mut self) -> Parsed<()> {
        unsafe {
            loop {
                match self.kind() {
                    token::EOF => return Ok(()),
                    token::SEMICOLON => self.next(),
                    token::EXTERN => self.declaration()?,
                    _ => self.function()?,
                }
            }
        }
    }

    unsafe fn declaration(&mut self) -> Parsed<()> {
        unsafe {
            let start = self.start();
            let row = self.enter();
            self.next();
            loop {
                let (text, length) = self.name(31)?;
                let name = self.open();
                self.put(name, [node::NAME, 0, text, length, 0, 0]);
                if self.kind() != token::COMMA {
                    break;
                }
                self.next();
            }
            let end = self.expect(token::SEMICOLON)?;
            self.leave(row, [node::DECLARATION, 0, 0, 0, start, end]);
            Ok(())
        }
    }

    unsafe fn function(&mut self) -> Parsed<()> {
        unsafe {
            let start = self.start();
            let entry = self.kind() == token::ENTRY;
            if entry {
                self.next();
            }
            let (text, length) = self.name(32)?;
            let row = self.enter();
            self.expect(token::LBRACE)?;
            let end = self.sentences(0)?;
            self.leave(
                row,
                [node::FUNCTION, entry.into(), text, length, start, end],
            );
            Ok(())
        }
    }

    unsafe fn sentences(&mut self, depth: usize) -> Parsed<u32> {
        unsafe {
            while !matches!(self.kind(), token::RBRACE | token::EOF) {
                self.sentence(depth)?;
            }
            self.expect(token::RBRACE)
        }
    }

    unsafe fn sentence(&mut self, depth: usize) -> Parsed<()> {
        const PATTERN: u32 = 1 << token::COMMA | 1 << token::EQUALS;
        unsafe {
            let start = self.start();
            let row = self.enter();
            self.terms(PATTERN, depth)?;
            while self.kind() == token::COMMA {
                self.next();
                let start = self.start();
                let row = self.enter();
                self.terms(1 << token::COLON, depth)?;
                self.expect(token::COLON)?;
                if self.kind() == token::LBRACE {
                    let block = self.enter();
                    let end = self.block(depth)?;
                    self.leave(block, [node::CONDITION_BLOCK, 0, 0, 0, start, end]);
                } else {
                    self.terms(PATTERN, depth)?;
                }
                let end = (*self.token.sub(1))[5];
                self.leave(row, [node::CONDITION, 0, 0, 0, start, end]);
            }
            self.expect(token::EQUALS)?;
            if self.kind() == token::COMMA {
                self.next();
                let start = self.start();
                let row = self.enter();
                self.terms(1 << token::COLON, depth)?;
                self.expect(token::COLON)?;
                let end = self.block(depth)?;
                self.leave(row, [node::ENDING_BLOCK, 0, 0, 0, start, end]);
            } else {
                self.terms(1 << token::SEMICOLON | 1 << token::RBRACE, depth)?;
            }
            let left_off = self.kind() == token::RBRACE;
            let end = if left_off {
                (*self.token.sub(1))[5]
            } else {
                self.expect(token::SEMICOLON)?
            };
            self.leave(row, [node::SENTENCE, left_off.into(), 0, 0, start, end]);
            Ok(())
        }
    }

    unsafe fn block(&mut self, depth: usize) -> Parsed<u32> {
        unsafe {
            if depth == MAX_DEPTH && self.kind() == token::LBRACE {
                return Err(self.refuse(37, 0, token::LBRACE));
            }
            self.expect(token::LBRACE)?;
            self.sentences(depth + 1)
        }
    }

    #[inline(always)]
    unsafe fn terms(&mut self, closing: u32, depth: usize) -> Parsed<()> {
        unsafe {
            let row = self.enter();
            self.inside(closing | 1 << token::EOF, depth)?;
            self.leave(row, [node::TERMS, 0, 0, 0, 0, 0]);
            Ok(())
        }
    }

    /// Terms up to a token whose kind's bit is in `closing`.
    unsafe fn inside(&mut self, closing: u32, depth: usize) -> Parsed<()> {
        unsafe {
            loop {
                let [kind, detail, text, length, start, end] = *self.token;
                if closing >> kind & 1 != 0 {
                    return Ok(());
                }
                if LEAVES >> kind & 1 != 0 {
                    if (kind == token::VARIABLE) & !is_letter(detail) {
                        return Err(self.taken(36, 0));
                    }
                    self.next();
                    let row = self.open();
                    let leaf = LEAF[kind as usize & 7];
                    self.put(row, [leaf, detail, text, length, start, end]);
                } else if kind == token::LPAREN || kind == token::LANGLE {
                    self.nest(kind, depth)?;
                } else {
                    return Err(self.taken(34, 0));
                }
            }
        }
    }

    unsafe fn nest(&mut self, kind: u32, depth: usize) -> Parsed<()> {
        unsafe {
            if depth == MAX_DEPTH {
                return Err(self.refuse(37, 0, kind));
            }
            let start = self.start();
            self.next();
            let row = self.enter();
            if kind == token::LANGLE {
                let (text, length) = self.name(33)?;
                self.inside(1 << token::RANGLE | 1 << token::EOF, depth + 1)?;
                let end = self.expect(token::RANGLE)?;
                self.leave(row, [node::CALL, 0, text, length, start, end]);
            } else {
                self.inside(1 << token::RPAREN | 1 << token::EOF, depth + 1)?;
                let end = self.expect(token::RPAREN)?;
                self.leave(row, [node::BRACKET, 0, 0, 0, start, end]);
            }
            Ok(())
        }
    }
}
