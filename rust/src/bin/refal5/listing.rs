//! `refal5 tokens`, `tree` and `write`.

use std::fmt::Write;
use std::io;

use refal5::rows::{Kind, NodeKind, NodeRows, Token, TokenRows, Tokens, Tree};
use refal5::{Diagnosis, Refusal};

use crate::args::Args;
use crate::check::{refused, unreadable};
use crate::json::Object;
use crate::output::Output;
use crate::walk::{Step, walk};
use crate::{Status, input};

/// Puts a listing of a source down. A refusal comes before anything is put.
pub type List = fn(&Listing<'_>, &mut Sink<'_>) -> Result<(), Trouble>;

pub struct Listing<'a> {
    pub file: &'a str,
    pub source: &'a [u8],
    pub json: bool,
}

/// Why a listing is not made.
pub enum Trouble {
    Refused(Box<Diagnosis>),
    Output(io::Error),
}

impl From<Box<Diagnosis>> for Trouble {
    fn from(diagnosis: Box<Diagnosis>) -> Self {
        Self::Refused(diagnosis)
    }
}

impl From<io::Error> for Trouble {
    fn from(error: io::Error) -> Self {
        Self::Output(error)
    }
}

/// Gathers text and prints it in pieces.
pub struct Sink<'a> {
    output: &'a Output,
    text: String,
    /// Whether what was put last ends a line.
    ended: bool,
}

impl Sink<'_> {
    const PIECE: usize = 1 << 16;

    pub fn put(&mut self, text: &str) -> io::Result<()> {
        if !text.is_empty() {
            self.ended = text.ends_with('\n');
        }
        self.text.push_str(text);
        if self.text.len() < Self::PIECE {
            return Ok(());
        }
        let printed = self.output.print(&self.text);
        self.text.clear();
        printed
    }

    pub fn line(&mut self, text: &str) -> io::Result<()> {
        self.put(text.trim_end())?;
        self.put("\n")
    }
}

/// Lists each file; several under their names, each in a line that is a Refal comment.
pub fn run(args: &Args, output: &mut Output, list: List) -> io::Result<Status> {
    let mut status = Status::Fine;
    let headed = args.files.len() > 1 && !output.options.json;
    for name in &args.files {
        let file = input::shown(name);
        output.progress.begin(&file);
        let one = match input::read(name) {
            Ok(source) => {
                let heading = if headed {
                    format!("* {file}\n")
                } else {
                    String::new()
                };
                one(&file, &source, heading, output, list)?
            }
            Err(error) => unreadable(&file, &error, output)?,
        };
        status = status.max(one);
    }
    Ok(status)
}

fn one(
    file: &str,
    source: &[u8],
    heading: String,
    output: &Output,
    list: List,
) -> io::Result<Status> {
    let headed = !heading.is_empty();
    let listing = Listing {
        file,
        source,
        json: output.options.json,
    };
    let mut sink = Sink {
        output,
        text: heading,
        ended: headed,
    };
    match list(&listing, &mut sink) {
        Ok(()) => {
            if headed && !sink.ended {
                sink.text.push('\n');
            }
            output.print(&sink.text)?;
            Ok(Status::Fine)
        }
        Err(Trouble::Refused(diagnosis)) => refused(file, source, &diagnosis, output),
        Err(Trouble::Output(error)) => Err(error),
    }
}

impl Listing<'_> {
    fn read<'a>(&'a self, rows: &'a mut TokenRows) -> Result<Tokens<'a>, Box<Diagnosis>> {
        rows.read(self.source)
            .map_err(|refusal| Box::new(Diagnosis::of_reading(self.source, refusal)))
    }

    /// Reads and parses, and lends the tree to `work`.
    pub fn with_tree(
        &self,
        work: impl FnOnce(Tokens<'_>, Tree<'_>) -> Result<(), Trouble>,
    ) -> Result<(), Trouble> {
        let mut token_rows = TokenRows::new();
        let tokens = self.read(&mut token_rows)?;
        let mut node_rows = NodeRows::new();
        match node_rows.parse(tokens) {
            Ok(tree) => work(tokens, tree),
            Err(refusal) => Err(explained(tokens, refusal)),
        }
    }
}

pub fn explained(tokens: Tokens<'_>, refusal: Refusal) -> Trouble {
    Trouble::Refused(Box::new(Diagnosis::of_parsing(tokens, refusal)))
}

pub fn tokens(listing: &Listing<'_>, out: &mut Sink<'_>) -> Result<(), Trouble> {
    let mut rows = TokenRows::new();
    for (index, token) in listing.read(&mut rows)?.iter().enumerate() {
        if listing.json {
            out.line(&token_object(listing.file, index, token))?;
        } else {
            let span = format!("{}-{}", token.span().start, token.span().end);
            let kind = token.kind().name();
            out.line(&format!("{span:<11} {kind:<10} {}", spelled(token)))?;
        }
    }
    Ok(())
}

/// A token's text as the source has it; a Char's own character, since its literal may hold others.
fn spelled(token: Token<'_>) -> String {
    token
        .character()
        .map_or_else(|| token.spelling().to_owned(), quoted)
}

fn quoted(character: char) -> String {
    match character {
        '\'' => "''''".into(),
        other if other.is_control() => format!("'{}'", other.escape_default()),
        other => format!("'{other}'"),
    }
}

fn token_object(file: &str, index: usize, token: Token<'_>) -> String {
    let object = Object::new()
        .string("file", file)
        .plain("index", index)
        .plain("kind", token.kind().number())
        .string("name", token.kind().name());
    let object = match token.kind() {
        Kind::Identifier | Kind::Number => object.string("text", token.text()),
        Kind::Variable => letter(object, token.letter()).string("text", token.text()),
        Kind::Char => character(object, token.character()),
        _ => object,
    };
    object
        .plain("start", token.span().start)
        .plain("end", token.span().end)
        .end()
}

fn letter(object: Object, letter: Option<char>) -> Object {
    object.string("letter", &String::from_iter(letter))
}

fn character(object: Object, character: Option<char>) -> Object {
    object.string("character", &String::from_iter(character))
}

pub fn tree(listing: &Listing<'_>, out: &mut Sink<'_>) -> Result<(), Trouble> {
    listing.with_tree(|_, tree| {
        for step in walk(tree) {
            if listing.json {
                out.line(&node_object(listing.file, &step))?;
            } else {
                out.line(&node_line(&step))?;
            }
        }
        Ok(())
    })
}

fn node_line(step: &Step<'_>) -> String {
    let node = step.node;
    let mut line = format!("{}{}", "  ".repeat(step.depth), node.kind().name());
    let words = match node.kind() {
        NodeKind::Char => node.character().map(quoted),
        NodeKind::Variable => node
            .letter()
            .map(|letter| format!("{letter}.{}", node.text())),
        _ => Some(node.text().to_owned()).filter(|text| !text.is_empty()),
    };
    for word in words.iter().map(String::as_str).chain([step.role]) {
        if !word.is_empty() {
            line = line + " " + word;
        }
    }
    if node.is_entry() {
        line += " entry";
    }
    if node.is_left_off() {
        line += " without ;";
    }
    if !matches!(node.kind(), NodeKind::Name | NodeKind::Terms) {
        let span = node.span();
        write!(line, " {}-{}", span.start, span.end).expect("a string takes all");
    }
    line
}

fn node_object(file: &str, step: &Step<'_>) -> String {
    let node = step.node;
    let object = Object::new()
        .string("file", file)
        .plain("row", node.index())
        .plain("depth", step.depth)
        .plain("kind", node.kind().number())
        .string("name", node.kind().name());
    let object = match node.kind() {
        NodeKind::Function => object
            .plain("entry", node.is_entry())
            .string("text", node.text()),
        NodeKind::Sentence => object.plain("left_off", node.is_left_off()),
        NodeKind::Name | NodeKind::Identifier | NodeKind::Number | NodeKind::Call => {
            object.string("text", node.text())
        }
        NodeKind::Variable => letter(object, node.letter()).string("text", node.text()),
        NodeKind::Char => character(object, node.character()),
        NodeKind::Terms if !step.role.is_empty() => object.string("role", step.role),
        _ => object,
    };
    object
        .plain("start", node.span().start)
        .plain("end", node.span().end)
        .plain("next", node.next())
        .end()
}

pub fn write(listing: &Listing<'_>, out: &mut Sink<'_>) -> Result<(), Trouble> {
    listing.with_tree(|tokens, tree| {
        let text = tree
            .to_text()
            .map_err(|refusal| explained(tokens, refusal))?;
        if listing.json {
            let object = Object::new().string("file", listing.file);
            out.line(&object.string("text", &text).end())?;
        } else {
            out.put(&text)?;
        }
        Ok(())
    })
}
