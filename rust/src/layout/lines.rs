//! Lines of a program, from its pieces.

use super::pieces::{Piece, What, pieces};
use crate::Span;
use crate::rows::{Kind, Tokens};

/// A sentence that is longer is broken before its conditions and its `=`.
const WIDTH: usize = 100;
const INDENT: usize = 2;
/// Further in, for what goes on with a sentence.
const FURTHER: usize = 4;

pub(super) fn text(tokens: Tokens<'_>) -> String {
    let pieces = pieces(tokens);
    let mut lines = Lines::default();
    for (at, piece) in pieces.iter().enumerate() {
        match piece.what {
            What::Comment { star } => lines.comment(piece, star),
            What::Token(kind) => {
                let closes = pieces
                    .get(at + 1)
                    .is_some_and(|next| next.what == What::Token(Kind::RBrace));
                lines.token(piece, kind, closes);
            }
        }
    }
    lines.flush();
    lines.text
}

/// The tokens in a span on one line, without comments.
pub fn one_line(tokens: Tokens<'_>, span: Span) -> String {
    let mut line = String::new();
    let (mut before, mut end) = (Some(Kind::LParen), span.start);
    for token in tokens.iter_from(span.start) {
        let Span { start, end: close } = token.span();
        if start >= span.end {
            break;
        }
        // The characters of a literal after its first.
        if start < end {
            continue;
        }
        if spaced(before, token.kind()) {
            line.push(' ');
        }
        line.push_str(token.spelling());
        (before, end) = (Some(token.kind()), close);
    }
    line
}

#[derive(Default)]
struct Lines {
    text: String,
    line: Option<Line>,
    /// Open braces, and open brackets and calls.
    braces: usize,
    brackets: usize,
    /// The token put last, if no comment was put after it.
    last: Option<Kind>,
    /// Whether a sentence or declaration was begun and is not ended.
    begun: bool,
    /// Whether a rule was closed by what was put last.
    closed: bool,
}

/// A line under way, in parts that may stand on lines of their own.
struct Line {
    indent: usize,
    parts: Vec<String>,
}

impl Lines {
    /// Puts a token; `closes` says whether `}` comes next.
    fn token(&mut self, piece: &Piece<'_>, kind: Kind, closes: bool) {
        if kind == Kind::RBrace {
            self.braces = self.braces.saturating_sub(1);
            self.begun = false;
            // Nothing stands between braces on one line.
            if self.last != Some(Kind::LBrace) {
                self.flush();
            }
        }
        if kind == Kind::Semicolon && self.line.is_none() && self.last.is_some() && self.braces == 0
        {
            // Outside rules, at the end of the line before.
            self.text.pop();
            self.text.push_str(";\n");
            self.last = Some(kind);
            return;
        }
        if self.braces == 0 && self.line.is_none() && self.last == Some(Kind::Semicolon) {
            // A rule after declarations.
            self.closed |= matches!(kind, Kind::Identifier | Kind::Entry);
        }
        let space = self.line.is_some() && spaced(self.last, kind);
        let breaks = self.line.is_some()
            && self.braces > 0
            && self.brackets == 0
            && matches!(kind, Kind::Comma | Kind::Equals)
            && self.last != Some(Kind::Equals);
        let line = self.begin(piece, kind == Kind::RBrace);
        if breaks {
            line.parts.push(String::new());
        }
        line.put(space, piece.text);
        self.after(kind, closes);
    }

    /// What follows a token: deeper lines, or the line's end.
    fn after(&mut self, kind: Kind, closes: bool) {
        self.last = Some(kind);
        self.begun = true;
        match kind {
            Kind::LParen | Kind::LAngle => self.brackets += 1,
            Kind::RParen | Kind::RAngle => self.brackets = self.brackets.saturating_sub(1),
            Kind::LBrace => {
                self.braces += 1;
                self.begun = false;
                if !closes {
                    self.flush();
                }
            }
            Kind::Semicolon => {
                self.begun = false;
                self.flush();
            }
            Kind::RBrace if self.braces == 0 => {
                self.begun = false;
                self.flush();
                self.closed = true;
            }
            _ => {}
        }
    }

    /// Puts a comment on a line of its own, or, where it stands behind something, at the end of that line.
    fn comment(&mut self, piece: &Piece<'_>, star: bool) {
        let behind = !star && piece.newlines == 0;
        match &mut self.line {
            Some(line) if behind => line.put(true, piece.text),
            None if behind && !self.text.is_empty() => {
                self.text.pop();
                self.text.push(' ');
                self.text.push_str(piece.text);
                self.text.push('\n');
            }
            _ => {
                self.flush();
                let begun = std::mem::take(&mut self.begun);
                self.begin(piece, false).put(false, piece.text);
                self.flush();
                self.begun = begun;
            }
        }
        self.last = None;
    }

    /// The line under way, begun anew where there is none: after an empty line where the source has one or a rule was closed,
    /// but not after `{` nor before `}`.
    fn begin(&mut self, piece: &Piece<'_>, closing: bool) -> &mut Line {
        if self.line.is_none() {
            let opened = self.last == Some(Kind::LBrace);
            let apart = (piece.newlines > 1 || self.closed) && !closing && !opened;
            if apart && !self.text.is_empty() {
                self.text.push('\n');
            }
            self.closed = false;
        }
        let further = if self.begun { FURTHER } else { 0 };
        let indent = INDENT * self.braces + further;
        self.line.get_or_insert_with(|| Line {
            indent,
            parts: vec![String::new()],
        })
    }

    /// Ends the line under way.
    fn flush(&mut self) {
        let Some(Line { indent, parts }) = self.line.take() else {
            return;
        };
        let whole = parts.concat();
        if indent + whole.chars().count() <= WIDTH {
            self.put_line(indent, &whole);
            return;
        }
        for (number, part) in parts.iter().enumerate() {
            let further = if number > 0 { FURTHER } else { 0 };
            self.put_line(indent + further, part.trim_start());
        }
    }

    fn put_line(&mut self, indent: usize, text: &str) {
        self.text.extend(std::iter::repeat_n(' ', indent));
        self.text.push_str(text);
        self.text.push('\n');
    }
}

impl Line {
    fn put(&mut self, space: bool, text: &str) {
        let part = self.parts.last_mut().expect("a line has a part");
        if space {
            part.push(' ');
        }
        part.push_str(text);
    }
}

/// Whether a space stands between a token and the one before.
fn spaced(before: Option<Kind>, kind: Kind) -> bool {
    match (before, kind) {
        (Some(Kind::LParen | Kind::LAngle), _) => false,
        (Some(Kind::Equals), Kind::Comma | Kind::Semicolon) => true,
        (Some(_), Kind::RParen | Kind::RAngle | Kind::Comma | Kind::Semicolon) => false,
        _ => true,
    }
}
