//! Whether a text is the same program.

use crate::comments::comments;
use crate::rows::{NodeRows, TokenRows, Tokens, Tree};

/// Whether a text reads to the same tokens, as spelled, and comments, and parses to a tree that is written the same.
pub(super) fn same(tokens: Tokens<'_>, tree: Tree<'_>, text: &str) -> bool {
    let mut rows = TokenRows::new();
    let Ok(again) = rows.read(text.as_bytes()) else {
        return false;
    };
    let mut nodes = NodeRows::new();
    let Ok(tree_again) = nodes.parse(again) else {
        return false;
    };
    // Both are refused alike where the written text would be too long.
    tokens_alike(tokens, again)
        && comments_of(tokens) == comments_of(again)
        && tree.to_text() == tree_again.to_text()
}

fn tokens_alike(a: Tokens<'_>, b: Tokens<'_>) -> bool {
    a.len() == b.len()
        && a.iter().zip(b).all(|(a, b)| {
            a.kind() == b.kind()
                && a.text() == b.text()
                && a.character() == b.character()
                && a.letter() == b.letter()
        })
}

fn comments_of(tokens: Tokens<'_>) -> Vec<&str> {
    let source = tokens.source();
    comments(tokens)
        .iter()
        .map(|comment| source[comment.span.start..comment.span.end].trim_end())
        .collect()
}
