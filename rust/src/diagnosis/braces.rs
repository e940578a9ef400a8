//! Braces that are open at a token, and the one that lacks its `}`.

use super::Place;
use crate::items::{kind, start_of_item};
use crate::rows::{Kind, Token, Tokens};

/// A rule's or block's braces up to some token.
pub(super) struct Braces<'a> {
    tokens: Tokens<'a>,
    /// The rule's first token.
    start: usize,
    /// The `{` that are open, outermost first.
    open: Vec<usize>,
    /// The `{` that are closed, each with its `}`, in the order of these.
    closed: Vec<(usize, usize)>,
}

impl<'a> Braces<'a> {
    /// Those of the item that the token at `at` stands in, before it.
    pub fn before(tokens: Tokens<'a>, at: usize) -> Self {
        let start = start_of_item(tokens, at);
        let (mut open, mut closed) = (Vec::new(), Vec::new());
        for index in start..at {
            match kind(tokens, index) {
                Some(Kind::LBrace) => open.push(index),
                Some(Kind::RBrace) => closed.extend(open.pop().map(|brace| (brace, index))),
                _ => {}
            }
        }
        Self {
            tokens,
            start,
            open,
            closed,
        }
    }

    /// The rule's name, as in "the rule `F`".
    pub fn rule(&self) -> String {
        let entry = kind(self.tokens, self.start) == Some(Kind::Entry);
        let name = self.tokens.get(self.start + usize::from(entry));
        match name.filter(|token| token.kind() == Kind::Identifier) {
            Some(name) => format!("the rule `{}`", name.text()),
            None => "the rule".into(),
        }
    }

    /// How many are open.
    pub fn depth(&self) -> usize {
        self.open.len()
    }

    /// The place of the innermost that is open.
    pub fn innermost(&self) -> Option<Place> {
        self.open.last().map(|&brace| self.place(brace))
    }

    /// What to do about the `}` that are missing before something.
    pub fn write_the_missing(&self, before: &str) -> String {
        if let Some((brace, end)) = self.closed_from_the_left() {
            let (brace, end) = (self.place(brace), self.place(end));
            return format!(
                "Write the `}}` that closes the `{{` of {brace}: the `}}` of line {}, which closes it now, stands further \
                 left and seems to belong to a `{{` before it.",
                end.line
            );
        }
        let mut open = self.open.iter().rev().map(|&brace| self.place(brace));
        let Some(inner) = open.next() else {
            return format!("Write `}}` before {before}.");
        };
        let places: String = open
            .map(|place| format!(", and the one for the `{{` of {place}"))
            .collect();
        let rule = if places.is_empty() {
            format!("closes {}, opened by the `{{` of {inner},", self.rule())
        } else {
            format!("closes the `{{` of {inner}{places},")
        };
        format!("Write the `}}` that {rule} before {before}.")
    }

    /// A pair of which the `}` starts its line further left than the line of the `{` does: as lines are set, the `{` has lost
    /// its own.
    fn closed_from_the_left(&self) -> Option<(usize, usize)> {
        let pair = |&&(brace, end): &&(usize, usize)| {
            let closing = self.tokens.get(end).filter(|&token| self.is_first(token));
            let opening = self.tokens.get(brace);
            closing
                .zip(opening)
                .is_some_and(|(closing, opening)| self.indent(closing) < self.indent(opening))
        };
        self.closed.iter().find(pair).copied()
    }

    fn line(&self, token: Token<'_>) -> &'a str {
        let source = self.tokens.source();
        let start = source[..token.span().start]
            .rfind('\n')
            .map_or(0, |at| at + 1);
        &source[start..]
    }

    /// White space before the first character of a token's line.
    fn indent(&self, token: Token<'_>) -> usize {
        let line = self.line(token);
        line.len() - line.trim_start_matches([' ', '\t']).len()
    }

    fn is_first(&self, token: Token<'_>) -> bool {
        let line = self.line(token);
        let start = self.tokens.source().len() - line.len();
        token.span().start == start + self.indent(token)
    }

    fn place(&self, index: usize) -> Place {
        let source = self.tokens.source().as_bytes();
        let span = self.tokens.get(index).expect("it is a token's index");
        Place::of(source, span.span())
    }
}
