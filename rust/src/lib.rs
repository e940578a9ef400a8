//! A front end for Classic Refal-5: reading, parsing and writing, done by the proved library librefal5.a.
//!
//! [`lexer`], [`parser`] and [`ast`] have the types of the original Rust front end, so that a program changes its `use`
//! lines only. [`rows`] views the library's rows in place and allocates nothing. [`check`] explains what is wrong with a
//! source to the person who wrote it, [`recover`] finds all that is wrong and what still parses, and [`notes`] says what is
//! read otherwise than it may be meant. [`link`] loads a rule file with the file that declares the tool's functions.
//! [`real`] is the exact number that a text with a point or an `E` stands for.
//! [`layout`], [`outline`] and [`differences`] serve people who work on programs. [`raw`] is the library's functions over
//! lent slices.
//!
//! ```
//! use refal5::{lexer::Lexer, parser::Parser, ast::Item};
//!
//! let tokens = Lexer::new("$EXTRN Prout; $ENTRY Go { = <Prout 'Hi'>; }").tokenize()?;
//! let program = Parser::new(tokens).parse_program()?;
//! for item in &program.items {
//!     match item {
//!         Item::Function(function) => println!("{} {:?}", function.name, function.span),
//!         Item::Declaration(declaration) => println!("{:?}", declaration.names),
//!     }
//! }
//! # Ok::<(), Box<dyn std::error::Error>>(())
//! ```

pub mod ast;
mod comments;
mod diagnosis;
mod difference;
mod items;
mod layout;
pub mod lexer;
mod link;
mod names;
mod notes;
mod outline;
pub mod parser;
pub mod raw;
mod real;
mod recovery;
mod refusals;
pub mod rows;

pub use ast::Span;
pub use comments::{Comment, comments};
pub use diagnosis::{Accepted, Diagnosis, Gap, Place, cannot_be_seen, check};
pub use difference::{Change, Difference, differences};
pub use layout::{NoLayout, layout, one_line};
pub use link::{LinkError, MOST_LINK_PROBLEMS, Named, link, link_problems};
pub use names::{
    PROGRAM_ENTRY_POINT, canonical_identifier, canonical_variable_index, identifiers_equal,
};
pub use notes::{About, Note, notes};
pub use outline::{Rule, outline};
pub use real::{Real, real};
pub use recovery::{Problem, Recovered, recover};
pub use refusals::{Call, Example, Meaning, REFUSALS, Refusal, meaning};
