//! What is laid out, in order: tokens, literals whole, and the comments between them.

use crate::comments::{Comment, comments};
use crate::rows::{Kind, Tokens};

/// A token or comment as the source spells it.
#[derive(Debug, Clone, Copy)]
pub(super) struct Piece<'a> {
    pub text: &'a str,
    pub what: What,
    /// Lines that end before it, after the piece before: 0, 1, or 2 for more.
    pub newlines: usize,
}

#[derive(Debug, Clone, Copy, PartialEq, Eq)]
pub(super) enum What {
    Token(Kind),
    Comment { star: bool },
}

pub(super) fn pieces(tokens: Tokens<'_>) -> Vec<Piece<'_>> {
    let source = tokens.source();
    let mut comments = comments(tokens).into_iter().peekable();
    let mut pieces = Vec::new();
    let mut end = 0;
    for (index, token) in tokens.iter().enumerate() {
        while let Some(comment) = comments.next_if(|comment| comment.before == index) {
            let Comment { span, star, .. } = comment;
            pieces.push(Piece {
                text: source[span.start..span.end].trim_end(),
                what: What::Comment { star },
                newlines: newlines(&source[end..span.start]),
            });
            end = span.end;
        }
        let span = token.span();
        // The characters of a literal after its first.
        if token.kind() == Kind::Eof || (span.start < end && token.kind() == Kind::Char) {
            continue;
        }
        pieces.push(Piece {
            text: token.spelling(),
            what: What::Token(token.kind()),
            newlines: newlines(&source[end..span.start]),
        });
        end = span.end;
    }
    pieces
}

fn newlines(gap: &str) -> usize {
    gap.bytes().filter(|&byte| byte == b'\n').take(2).count()
}
