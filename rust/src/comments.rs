//! The comments of a source that was read.

use crate::Span;
use crate::rows::Tokens;

/// A comment between tokens.
#[derive(Debug, Clone, Copy, PartialEq, Eq)]
pub struct Comment {
    /// From its `*` to the line's end, or from `/*` to `*/`.
    pub span: Span,
    /// The index of the token after it.
    pub before: usize,
    /// Whether it is a line that starts with `*`.
    pub star: bool,
}

/// The comments in order.
pub fn comments(tokens: Tokens<'_>) -> Vec<Comment> {
    let mut comments = Vec::new();
    let mut end = 0;
    for (index, token) in tokens.iter().enumerate() {
        let span = token.span();
        // The characters of a literal share its span.
        if span.start >= end {
            between(tokens.source(), end, span.start, index, &mut comments);
            end = span.end;
        }
    }
    comments
}

/// The comments of a gap, which holds nothing else but white space.
fn between(source: &str, from: usize, to: usize, before: usize, comments: &mut Vec<Comment>) {
    let mut at = from;
    while let Some(white) = source[at..to].find(|c: char| !c.is_whitespace()) {
        let start = at + white;
        let rest = &source[start..to];
        let star = rest.starts_with('*');
        let length = if star {
            rest.find('\n')
        } else {
            // `/*/` does not close itself.
            rest.get(2..)
                .and_then(|rest| rest.find("*/"))
                .map(|at| at + 4)
        };
        let end = start + length.unwrap_or(rest.len());
        comments.push(Comment {
            span: Span { start, end },
            before,
            star,
        });
        at = end;
    }
}

#[cfg(test)]
mod tests {
    use super::*;
    use crate::rows::TokenRows;

    #[test]
    fn of_each_kind() {
        let source = "* one\r\nF { /* two */ 'a*b' /*/ three */ =\n  * four\n /**/ ; } * five\n"
            .replace("} * five", "}\n* five");
        let mut rows = TokenRows::new();
        let tokens = rows.read(source.as_bytes()).unwrap();
        let found: Vec<(&str, bool, usize)> = comments(tokens)
            .iter()
            .map(|comment| {
                (
                    &source[comment.span.start..comment.span.end],
                    comment.star,
                    comment.before,
                )
            })
            .collect();
        assert_eq!(
            found,
            [
                ("* one\r", true, 0),
                ("/* two */", false, 2),
                ("/*/ three */", false, 5),
                ("* four", true, 6),
                ("/**/", false, 6),
                ("* five", true, 8),
            ]
        );
    }
}
