//! Places of a source by line and column.

use std::fmt;

use crate::Span;

/// A span of the source, with the line and column where it starts.
#[derive(Debug, Clone, Copy, PartialEq, Eq)]
pub struct Place {
    pub span: Span,
    /// Counted from 1; a line ends with a newline.
    pub line: usize,
    /// Counted from 1, in characters.
    pub column: usize,
}

impl Place {
    /// The place of a span. What stands before it is UTF-8.
    pub(crate) fn of(source: &[u8], span: Span) -> Self {
        let before = &source[..span.start.min(source.len())];
        let line_start = line_start(before);
        Self {
            span,
            line: 1 + before.iter().filter(|&&byte| byte == b'\n').count(),
            column: 1 + characters(&before[line_start..]),
        }
    }

    /// The whole line that the place starts on, without its end.
    pub fn line_of<'a>(&self, source: &'a [u8]) -> &'a [u8] {
        let at = self.span.start.min(source.len());
        let start = line_start(&source[..at]);
        let rest = &source[start..];
        let end = rest.iter().position(|&byte| byte == b'\n');
        let line = &rest[..end.unwrap_or(rest.len())];
        line.strip_suffix(b"\r").unwrap_or(line)
    }
}

impl fmt::Display for Place {
    fn fmt(&self, out: &mut fmt::Formatter<'_>) -> fmt::Result {
        write!(out, "line {}, column {}", self.line, self.column)
    }
}

/// Where the line that these bytes end on starts.
fn line_start(before: &[u8]) -> usize {
    before
        .iter()
        .rposition(|&byte| byte == b'\n')
        .map_or(0, |at| at + 1)
}

/// The number of characters: bytes that do not go on with a sequence.
fn characters(bytes: &[u8]) -> usize {
    bytes.iter().filter(|&&byte| byte & 0xc0 != 0x80).count()
}
