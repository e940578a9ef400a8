//! The rows that the library puts down, viewed in place: nothing is copied, and texts are parts of the source.
//!
//! [`Tokens::read`] and [`Tree::parse`] take words that the caller lends and allocate nothing. [`TokenRows`] and
//! [`NodeRows`] own such words and make them as large as is needed.
//!
//! ```
//! use refal5::rows::{NodeKind, NodeRows, TokenRows};
//!
//! let mut token_rows = TokenRows::new();
//! let tokens = token_rows.read(b"$ENTRY Go { = <Prout 'Hi'>; }")?;
//! let mut node_rows = NodeRows::new();
//! let tree = node_rows.parse(tokens)?;
//! let go = tree.items().next().unwrap();
//! assert!(go.is_entry() && go.text() == "Go" && go.span().end == 29);
//! let calls = tree.nodes().filter(|node| node.kind() == NodeKind::Call);
//! assert_eq!(calls.map(|call| call.text()).collect::<Vec<_>>(), ["Prout"]);
//! assert_eq!(tree.to_text()?, "$ENTRY Go { = < Prout 'H' 'i' > ; } ");
//! # Ok::<(), refal5::Refusal>(())
//! ```
//!
//! With lent words only:
//!
//! ```
//! use refal5::raw::{NODE_WORDS, TOKEN_WORDS, node_bound, token_bound};
//! use refal5::rows::{Tokens, Tree};
//!
//! const SOURCE: &[u8] = b"F{=;}";
//! let mut words = [0; token_bound(SOURCE.len()) * TOKEN_WORDS];
//! let tokens = Tokens::read(SOURCE, &mut words)?;
//! let mut words = [0; node_bound(token_bound(SOURCE.len())) * NODE_WORDS];
//! let tree = Tree::parse(tokens, &mut words)?;
//! assert_eq!((tokens.len(), tree.len()), (6, 4));
//! let mut text = [0; 12];
//! assert_eq!(tree.write_into(&mut text)?, "F { = ; } ");
//! # Ok::<(), refal5::Refusal>(())
//! ```

mod buffers;
mod kinds;
mod tokens;
mod tree;

pub use buffers::{NodeRows, TokenRows};
pub use kinds::{Kind, NodeKind};
pub use tokens::{Token, TokenIter, Tokens};
pub use tree::{Children, Node, Tree};
