//! 01 "Parsing" and "From tokens to the tree", with 02's cards 1 and 4.

use super::utf8::is_scalar;
use crate::terms::{
    Answer, MAX_DEPTH, MAX_TOKENS, NO_PARENT, NodeRow, Refusal, TokenRow, node, put_rows, token,
};

pub fn parse(tokens: &[u32], rows: &mut [u32]) -> Answer {
    put_rows(tree(tokens), 38, rows)
}

/// The tree's rows, or the first of 30 to 37.
pub fn tree(words: &[u32]) -> Result<Vec<NodeRow>, Refusal> {
    tree_to_depth(words, MAX_DEPTH)
}

/// The same with another limit in 37, to make trees that are too deep.
pub fn tree_to_depth(words: &[u32], most: usize) -> Result<Vec<NodeRow>, Refusal> {
    let tokens = checked(words).ok_or(Refusal::plain(30))?;
    let mut parser = Parser::new(&tokens, most);
    parser.program()?;
    Ok(parser.rows)
}

/// The first `}` that parsing meets in place of a sentence's `;`, if it meets one before its answer,
/// be that a tree or a refusal. The original is asked only where there is none (02, card 1).
pub fn first_left_off(words: &[u32]) -> Option<usize> {
    let tokens = checked(words)?;
    let mut parser = Parser::new(&tokens, MAX_DEPTH);
    let _ = parser.program();
    parser.left_off
}

/// The token rows, if no clause of 30 applies.
pub fn checked(words: &[u32]) -> Option<Vec<TokenRow>> {
    if !words.len().is_multiple_of(6) || words.len() / 6 > MAX_TOKENS {
        return None;
    }
    let tokens: Vec<TokenRow> = words
        .chunks(6)
        .map(|row| row.try_into().expect("six words"))
        .collect();
    let eofs = tokens.iter().filter(|row| row[0] == token::EOF).count();
    let last = tokens.last()?;
    (eofs == 1 && last[0] == token::EOF && tokens.iter().all(lawful)).then_some(tokens)
}

fn lawful(&[kind, detail, start, length, ..]: &TokenRow) -> bool {
    let has_text = matches!(kind, token::IDENTIFIER | token::VARIABLE | token::NUMBER);
    let has_detail = matches!(kind, token::VARIABLE | token::CHAR);
    (1..=17).contains(&kind)
        && (has_text || (start == 0 && length == 0))
        && if has_detail {
            is_scalar(detail)
        } else {
            detail == 0
        }
}

struct Parser<'a> {
    tokens: &'a [TokenRow],
    most: usize,
    at: usize,
    rows: Vec<NodeRow>,
    /// The rows that are open, the innermost last.
    open: Vec<usize>,
    /// The first `}` that stood in place of a `;`.
    left_off: Option<usize>,
}

type Parsed<T> = Result<T, Refusal>;

impl<'a> Parser<'a> {
    fn new(tokens: &'a [TokenRow], most: usize) -> Self {
        Self {
            tokens,
            most,
            at: 0,
            rows: Vec::new(),
            open: Vec::new(),
            left_off: None,
        }
    }

    fn program(&mut self) -> Parsed<()> {
        loop {
            match self.kind() {
                token::EOF => return Ok(()),
                token::SEMICOLON => self.at += 1,
                token::EXTERN => self.declaration()?,
                _ => self.function()?,
            }
        }
    }

    fn declaration(&mut self) -> Parsed<()> {
        let start = self.start();
        let row = self.open(node::DECLARATION, 0, (0, 0));
        self.take();
        loop {
            let text = self.name(31)?;
            let name = self.open(node::NAME, 0, text);
            self.close(name, (0, 0));
            if self.kind() != token::COMMA {
                break;
            }
            self.at += 1;
        }
        let end = self.expect(token::SEMICOLON)?;
        self.close(row, (start, end));
        Ok(())
    }

    fn function(&mut self) -> Parsed<()> {
        let start = self.start();
        let entry = self.kind() == token::ENTRY;
        if entry {
            self.at += 1;
        }
        let text = self.name(32)?;
        let row = self.open(node::FUNCTION, u32::from(entry), text);
        self.expect(token::LBRACE)?;
        let end = self.sentences(0)?;
        self.close(row, (start, end));
        Ok(())
    }

    /// Sentences up to a `}`; gives its end. `depth` counts what is open around them.
    fn sentences(&mut self, depth: usize) -> Parsed<u32> {
        while !matches!(self.kind(), token::RBRACE | token::EOF) {
            self.sentence(depth)?;
        }
        self.expect(token::RBRACE)
    }

    fn sentence(&mut self, depth: usize) -> Parsed<()> {
        let start = self.start();
        let row = self.open(node::SENTENCE, 0, (0, 0));
        self.terms(&[token::COMMA, token::EQUALS], depth)?;
        while self.kind() == token::COMMA {
            self.at += 1;
            self.condition(depth)?;
        }
        self.expect(token::EQUALS)?;
        if self.kind() == token::COMMA {
            self.at += 1;
            self.ending_block(depth)?;
        } else {
            self.terms(&[token::SEMICOLON, token::RBRACE], depth)?;
        }
        // "Before `}` a sentence may now do so": end without `;`, with its last token.
        let end = if self.kind() == token::RBRACE {
            self.left_off.get_or_insert(self.at);
            self.rows[row][1] = 1;
            self.end_before()
        } else {
            self.expect(token::SEMICOLON)?
        };
        self.close(row, (start, end));
        Ok(())
    }

    /// What follows a condition's comma.
    fn condition(&mut self, depth: usize) -> Parsed<()> {
        let start = self.start();
        let row = self.open(node::CONDITION, 0, (0, 0));
        self.terms(&[token::COLON], depth)?;
        self.expect(token::COLON)?;
        if self.kind() == token::LBRACE {
            let block = self.open(node::CONDITION_BLOCK, 0, (0, 0));
            let end = self.block(depth)?;
            self.close(block, (start, end));
        } else {
            self.terms(&[token::COMMA, token::EQUALS], depth)?;
        }
        let end = self.end_before();
        self.close(row, (start, end));
        Ok(())
    }

    /// What follows the comma after a sentence's `=`.
    fn ending_block(&mut self, depth: usize) -> Parsed<()> {
        let start = self.start();
        let row = self.open(node::ENDING_BLOCK, 0, (0, 0));
        self.terms(&[token::COLON], depth)?;
        self.expect(token::COLON)?;
        let end = self.block(depth)?;
        self.close(row, (start, end));
        Ok(())
    }

    /// A block from its `{`; gives the end of its `}`.
    fn block(&mut self, depth: usize) -> Parsed<u32> {
        if self.kind() == token::LBRACE {
            self.room(depth)?;
        }
        self.expect(token::LBRACE)?;
        self.sentences(depth + 1)
    }

    /// A Terms node: terms up to one of the closing kinds or Eof.
    fn terms(&mut self, closing: &[u32], depth: usize) -> Parsed<()> {
        let row = self.open(node::TERMS, 0, (0, 0));
        self.terms_inside(closing, depth)?;
        self.close(row, (0, 0));
        Ok(())
    }

    fn terms_inside(&mut self, closing: &[u32], depth: usize) -> Parsed<()> {
        while self.kind() != token::EOF && !closing.contains(&self.kind()) {
            self.term(depth)?;
        }
        Ok(())
    }

    fn term(&mut self, depth: usize) -> Parsed<()> {
        let [kind, detail, text, length, start, end] = self.tokens[self.at];
        let leaf = match kind {
            token::IDENTIFIER => node::IDENTIFIER,
            token::NUMBER => node::NUMBER,
            token::CHAR => node::CHAR,
            token::VARIABLE => {
                if !b"ste".iter().any(|&letter| u32::from(letter) == detail) {
                    return Err(self.taken(36, 0));
                }
                node::VARIABLE
            }
            token::LPAREN | token::LANGLE => return self.nest(depth),
            _ => return Err(self.taken(34, 0)),
        };
        self.take();
        let row = self.open(leaf, detail, (text, length));
        self.close(row, (start, end));
        Ok(())
    }

    /// A bracket or a call.
    fn nest(&mut self, depth: usize) -> Parsed<()> {
        self.room(depth)?;
        let start = self.start();
        let call = self.kind() == token::LANGLE;
        self.take();
        let (row, closing) = if call {
            let text = self.name(33)?;
            (self.open(node::CALL, 0, text), token::RANGLE)
        } else {
            (self.open(node::BRACKET, 0, (0, 0)), token::RPAREN)
        };
        self.terms_inside(&[closing], depth + 1)?;
        let end = self.expect(closing)?;
        self.close(row, (start, end));
        Ok(())
    }

    /// 37 at the present token, if as many as may be are open already.
    fn room(&self, depth: usize) -> Parsed<()> {
        if depth < self.most {
            return Ok(());
        }
        let [found, .., start, end] = self.tokens[self.at];
        Err(refusal(37, 0, found, start, end))
    }

    /// Takes a name and gives its text.
    fn name(&mut self, number: u32) -> Parsed<(u32, u32)> {
        let [kind, _, text, length, ..] = self.tokens[self.at];
        if kind != token::IDENTIFIER {
            return Err(self.taken(number, token::IDENTIFIER));
        }
        self.take();
        Ok((text, length))
    }

    /// "find the token taken, but show the span of the one after it (Eof isn't passed)".
    fn taken(&mut self, number: u32, expected: u32) -> Refusal {
        let found = self.kind();
        self.take();
        let [.., start, end] = self.tokens[self.at];
        refusal(number, expected, found, start, end)
    }

    /// "35 finds and shows the present token". Gives the end of the token taken.
    fn expect(&mut self, kind: u32) -> Parsed<u32> {
        let [found, .., start, end] = self.tokens[self.at];
        if found != kind {
            return Err(refusal(35, kind, found, start, end));
        }
        self.take();
        Ok(end)
    }

    fn kind(&self) -> u32 {
        self.tokens[self.at][0]
    }

    fn start(&self) -> u32 {
        self.tokens[self.at][4]
    }

    /// The end of the token before the present one.
    fn end_before(&self) -> u32 {
        self.tokens[self.at - 1][5]
    }

    fn take(&mut self) {
        if self.kind() != token::EOF {
            self.at += 1;
        }
    }

    fn open(&mut self, kind: u32, detail: u32, text: (u32, u32)) -> usize {
        let row = self.rows.len();
        let parent = self.open.last().map_or(NO_PARENT, |&parent| parent as u32);
        self.rows
            .push([kind, detail, text.0, text.1, 0, 0, 0, parent]);
        self.open.push(row);
        row
    }

    fn close(&mut self, row: usize, span: (u32, u32)) {
        let next = self.rows.len() as u32;
        self.rows[row][4..7].copy_from_slice(&[span.0, span.1, next]);
        assert_eq!(self.open.pop(), Some(row));
    }
}

fn refusal(number: u32, expected: u32, found: u32, start: u32, end: u32) -> Refusal {
    Refusal {
        number,
        expected,
        found,
        start: u64::from(start),
        end: u64::from(end),
        need: 0,
    }
}
