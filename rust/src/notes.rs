//! Notes on a source that is accepted: what is read otherwise than it may be meant.

use crate::comments::comments;
use crate::diagnosis::{Place, messages};
use crate::rows::{Kind, Token, Tokens};
use crate::{Span, comments::Comment};

/// What a note is about.
#[derive(Debug, Clone, Copy, PartialEq, Eq)]
pub enum About {
    /// Words that touch, as `s12`, which is s1 and 2.
    Joined,
    /// A literal with a doubled quote, as `'a''b'`, which is one.
    Quotes,
    /// A line that is a comment, and has a `;`.
    Comment,
    /// A file without a rule.
    Nothing,
}

impl About {
    /// The name that JSON has.
    pub fn name(self) -> &'static str {
        match self {
            Self::Joined => "joined",
            Self::Quotes => "quotes",
            Self::Comment => "comment",
            Self::Nothing => "nothing",
        }
    }
}

/// A note with its place, in one sentence.
#[derive(Debug, Clone, PartialEq, Eq)]
pub struct Note {
    pub about: About,
    pub place: Place,
    pub message: String,
}

/// The notes on the tokens of a source that is accepted, in order.
///
/// ```
/// let mut rows = refal5::rows::TokenRows::new();
/// let notes = refal5::notes(rows.read(b"F { s12 = ; }")?);
/// assert_eq!(
///     notes[0].message,
///     "`s12` is read as the variable `s1`, then the number `2`; one variable is `s.12`."
/// );
/// # Ok::<(), refal5::Refusal>(())
/// ```
pub fn notes(tokens: Tokens<'_>) -> Vec<Note> {
    let mut found: Vec<(About, Span, String)> = Vec::new();
    let comments = comments(tokens);
    if let Some(note) = nothing(tokens, &comments) {
        return vec![note];
    }
    found.extend(joined(tokens));
    found.extend(quotes(tokens));
    let source = tokens.source();
    for Comment { span, star, .. } in comments {
        if star && source[span.start..span.end].contains(';') {
            let message =
                "This line is a comment, since it starts with `*`: what it says is not read.";
            found.push((About::Comment, span, message.into()));
        }
    }
    found.sort_by_key(|note| note.1.start);
    let mut places = Lines::new(source);
    found
        .into_iter()
        .map(|(about, span, message)| Note {
            about,
            place: places.of(span),
            message,
        })
        .collect()
}

/// Places in order, so that each line is counted once.
struct Lines<'a> {
    source: &'a str,
    at: usize,
    line: usize,
}

impl<'a> Lines<'a> {
    fn new(source: &'a str) -> Self {
        Self {
            source,
            at: 0,
            line: 1,
        }
    }

    fn of(&mut self, span: Span) -> Place {
        let passed = &self.source[self.at..span.start];
        self.line += passed.bytes().filter(|&byte| byte == b'\n').count();
        self.at = span.start;
        let line = self.source[..span.start].rfind('\n').map_or(0, |at| at + 1);
        Place {
            span,
            line: self.line,
            column: 1 + self.source[line..span.start].chars().count(),
        }
    }
}

fn nothing(tokens: Tokens<'_>, comments: &[Comment]) -> Option<Note> {
    if tokens
        .iter()
        .any(|token| !matches!(token.kind(), Kind::Semicolon | Kind::Eof))
    {
        return None;
    }
    let what = if !comments.is_empty() {
        "The file is all comment"
    } else if tokens.len() == 1 {
        "The file is empty"
    } else {
        "The file is all `;`"
    };
    Some(Note {
        about: About::Nothing,
        place: Lines::new("").of(Span { start: 0, end: 0 }),
        message: format!("{what}: it has no rule."),
    })
}

/// Runs of words that touch.
fn joined(tokens: Tokens<'_>) -> Vec<(About, Span, String)> {
    let word = |token: &Token<'_>| {
        matches!(
            token.kind(),
            Kind::Variable | Kind::Number | Kind::Identifier
        )
    };
    let mut runs = Vec::new();
    let mut run: Vec<Token<'_>> = Vec::new();
    for token in tokens {
        let touches = run
            .last()
            .is_some_and(|last| last.span().end == token.span().start);
        if !(touches && word(&token)) {
            runs.extend(one_run(tokens.source(), &run));
            run.clear();
        }
        if word(&token) {
            run.push(token);
        }
    }
    runs
}

fn one_run(source: &str, run: &[Token<'_>]) -> Option<(About, Span, String)> {
    let [first, .., last] = run else { return None };
    let span = Span {
        start: first.span().start,
        end: last.span().end,
    };
    let whole = &source[span.start..span.end];
    let parts: Vec<String> = run
        .iter()
        .map(|token| messages::describe(token.kind(), token.spelling()))
        .collect();
    let message = format!(
        "`{}` is read as {}{}.",
        messages::clip(whole),
        parts.join(", then "),
        meant(whole, run)
    );
    Some((About::Joined, span, message))
}

/// What such a run may be meant for.
fn meant(whole: &str, run: &[Token<'_>]) -> String {
    match run {
        [first, second]
            if first.kind() == Kind::Variable
                && second.kind() != Kind::Variable
                && !first.spelling().contains('.') =>
        {
            format!("; one variable is `{}.{}`", &whole[..1], &whole[1..])
        }
        [first, second] if first.kind() == Kind::Number && second.letter() == Some('e') => {
            let digits = second.text().bytes().all(|byte| byte.is_ascii_digit());
            let plain = digits && !second.spelling().contains('.');
            if plain {
                format!("; a real number is `{}E{}`", first.text(), second.text())
            } else {
                String::new()
            }
        }
        _ => String::new(),
    }
}

/// Literals with a doubled quote and other characters.
fn quotes(tokens: Tokens<'_>) -> Vec<(About, Span, String)> {
    let mut notes = Vec::new();
    let mut at = 0;
    while let Some(token) = tokens.get(at) {
        let span = token.span();
        let length = (at..)
            .take_while(|&index| {
                let same = |token: Token<'_>| token.kind() == Kind::Char && token.span() == span;
                tokens.get(index).is_some_and(same)
            })
            .count();
        if length > 1 {
            let spelling = token.spelling();
            let quote = &spelling[..1];
            let inside = &spelling[1..spelling.len() - 1];
            let doubled = inside.contains(&quote.repeat(2));
            if doubled && !inside.replace(quote, "").is_empty() {
                let message = format!(
                    "`{}` is one quoted text of {length} characters: two quotes inside it are one quote character.",
                    messages::clip(spelling)
                );
                notes.push((About::Quotes, span, message));
            }
        }
        at += length.max(1);
    }
    notes
}
