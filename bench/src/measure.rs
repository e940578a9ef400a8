//! Times of the original, the proved library and the mark on one input, taken in turn.

use crate::{clock, mark};
use compare::{Library, has};
use oracle::cases::{Case, Functions};
use oracle::original;
use refal5::lexer::Lexer;
use refal5::parser::Parser;
use refal5::raw::NODE_WORDS;
use refal5::rows::{NodeRows, TokenRows};
use std::hint::black_box;
use std::time::{Duration, Instant};

/// Medians in seconds; None for what is not there.
#[derive(Debug, Clone, Copy, Default)]
pub struct Times {
    /// The call alone.
    pub original: Option<f64>,
    /// The call, and giving back what it allocated.
    pub released: Option<f64>,
    pub ours: Option<f64>,
    pub mark: Option<f64>,
}

impl Times {
    pub fn plus(self, other: Self) -> Self {
        let add = |a: Option<f64>, b: Option<f64>| Some(a? + b?);
        Self {
            original: add(self.original, other.original),
            released: add(self.released, other.released),
            ours: add(self.ours, other.ours),
            mark: add(self.mark, other.mark),
        }
    }
}

/// One input, with what was measured on it.
#[derive(Debug, Clone)]
pub struct Measured {
    pub name: String,
    pub bytes: usize,
    pub tokens: usize,
    pub nodes: usize,
    pub reading: Times,
    pub parsing: Times,
    /// Writing the tree, and reading the text that was written, by the library alone.
    pub writing: Option<Writing>,
}

#[derive(Debug, Clone, Copy)]
pub struct Writing {
    pub bytes: usize,
    pub write: f64,
    pub read_it: f64,
}

/// From a source to its tree, with all that is allocated on the way made and given back: medians in seconds.
#[derive(Debug, Clone, Copy)]
pub struct Whole {
    pub original: Option<f64>,
    /// By the crate's types that mirror the original's.
    pub types: f64,
    /// By the crate's rows, made for the call and given back after it.
    pub rows: f64,
    /// By rows that an earlier call left.
    pub again: f64,
}

/// How often each is timed: at least this many times, and for at least so long in all.
#[derive(Debug, Clone, Copy)]
pub struct Effort {
    pub times: usize,
    pub long: Duration,
}

/// Whether the library has reading, parsing and writing.
fn library() -> [bool; 3] {
    let src = Vec::new();
    let (tokens, tree) = (Vec::new(), Vec::new());
    [
        has(&Case::Read {
            src: src.clone(),
            lent: 0,
        }),
        has(&Case::Parse { tokens, lent: 0 }),
        has(&Case::Write { tree, src, lent: 0 }),
    ]
}

pub fn measure(name: &str, src: &str, effort: Effort) -> Measured {
    let [reads, parses, writes] = library();
    // Lent rows are made and touched before anything is timed.
    let mut rows = vec![1u32; 6 * (src.len() + 1)];
    let tokens = mark::read(src.as_bytes(), &mut rows)[1] as usize;
    assert!(tokens > 0, "{name} is read");
    rows.truncate(6 * tokens);
    let reading = {
        let mut out = vec![1u32; rows.len()];
        let mut theirs = Vec::new();
        let mut released = Vec::new();
        let mut ours = Vec::new();
        let mut marks = Vec::new();
        repeat(effort, || {
            if original::PRESENT {
                let (called, tokens) = time(|| original::tokenize(black_box(src)));
                let (freed, ()) = once(|| drop(tokens));
                theirs.push(called);
                released.push(called + freed);
            }
            if reads {
                ours.push(time(|| Library.read(black_box(src.as_bytes()), &mut out)).0);
                assert!(out == rows);
            }
            marks.push(time(|| mark::read(black_box(src.as_bytes()), &mut out)).0);
            assert!(out == rows);
        });
        medians(theirs, released, ours, marks)
    };
    let need = mark::parse(&rows, &mut [])[6] as usize;
    let mut tree = vec![1u32; NODE_WORDS * need];
    mark::parse(&rows, &mut tree);
    let parsing = {
        let mut out = vec![1u32; tree.len()];
        let mut theirs = Vec::new();
        let mut released = Vec::new();
        let mut ours = Vec::new();
        let mut marks = Vec::new();
        let tokens = original::tokenize(src);
        repeat(effort, || {
            if let Some(tokens) = &tokens {
                drop(original::parse_tokens(black_box(tokens.copy())));
                let copy = tokens.copy();
                let (called, tree) = once(|| original::parse_tokens(black_box(copy)));
                let (freed, ()) = once(|| drop(tree));
                theirs.push(called);
                released.push(called + freed);
            }
            if parses {
                ours.push(time(|| Library.parse(black_box(&rows), &mut out)).0);
                assert!(out == tree);
            }
            marks.push(time(|| mark::parse(black_box(&rows), &mut out)).0);
            assert!(out == tree);
        });
        medians(theirs, released, ours, marks)
    };
    let writing = (reads && writes)
        .then(|| writing(src, &tree, effort))
        .flatten();
    Measured {
        name: name.to_string(),
        bytes: src.len(),
        tokens,
        nodes: need,
        reading,
        parsing,
        writing,
    }
}

/// What a caller waits for who begins with a source and with nothing allocated.
pub fn whole(src: &str, effort: Effort) -> Whole {
    let mut theirs = Vec::new();
    let mut types = Vec::new();
    let mut rows = Vec::new();
    let mut again = Vec::new();
    let mut kept = (TokenRows::new(), NodeRows::new());
    repeat(effort, || {
        if original::PRESENT {
            theirs.push(
                time(|| drop(original::tokenize(black_box(src)).map(original::parse_tokens))).0,
            );
        }
        types.push(time(|| drop(by_types(black_box(src)))).0);
        let fresh = || (TokenRows::new(), NodeRows::new());
        rows.push(time(|| by_rows(black_box(src), &mut fresh())).0);
        again.push(time(|| by_rows(black_box(src), &mut kept)).0);
    });
    Whole {
        original: median(theirs),
        types: median(types).unwrap_or_default(),
        rows: median(rows).unwrap_or_default(),
        again: median(again).unwrap_or_default(),
    }
}

fn by_types(src: &str) -> refal5::ast::Program {
    let tokens = Lexer::new(src).tokenize().expect("a delivery is read");
    let program = Parser::new(tokens).parse_program();
    program.expect("a delivery is parsed")
}

/// The nodes' number.
fn by_rows(src: &str, (token_rows, node_rows): &mut (TokenRows, NodeRows)) -> usize {
    let tokens = token_rows.read(src.as_bytes()).expect("a delivery is read");
    let tree = node_rows.parse(tokens).expect("a delivery is parsed");
    tree.len()
}

/// The library's seconds for reading, median of five, whether it accepts the source or refuses it.
pub fn reading(src: &[u8]) -> f64 {
    let mut rows = vec![1u32; 6 * (src.len() + 1)];
    let mut times = Vec::new();
    for _ in 0..5 {
        times.push(time(|| Library.read(black_box(src), &mut rows)).0);
    }
    median(times).unwrap_or_default()
}

/// A source's tree written by the library: the text's bytes, and seconds of writing it and of asking with nothing lent how
/// long it is, the least of five each.
#[derive(Debug, Clone, Copy)]
pub struct Written {
    pub bytes: usize,
    pub write: f64,
    pub ask: f64,
}

pub fn written(src: &str) -> Written {
    let src = src.as_bytes();
    let mut rows = vec![1u32; 6 * (src.len() + 1)];
    let tokens = mark::read(src, &mut rows)[1] as usize;
    rows.truncate(6 * tokens);
    let mut tree = vec![1u32; NODE_WORDS * mark::parse(&rows, &mut [])[6] as usize];
    mark::parse(&rows, &mut tree);
    drop(rows);
    let mut text = vec![1; Library.write(&tree, src, &mut [])[6] as usize];
    let mut write = Vec::new();
    let mut ask = Vec::new();
    for _ in 0..5 {
        let (seconds, answer) = time(|| Library.write(black_box(&tree), src, &mut text));
        assert_eq!(answer[0], 0, "a text of {} bytes is written", text.len());
        write.push(seconds);
        ask.push(time(|| Library.write(black_box(&tree), src, &mut [])).0);
    }
    Written {
        bytes: text.len(),
        write: least(&write),
        ask: least(&ask),
    }
}

fn least(times: &[f64]) -> f64 {
    times.iter().copied().fold(f64::INFINITY, f64::min)
}

/// None where the text would be too long.
fn writing(src: &str, tree: &[u32], effort: Effort) -> Option<Writing> {
    let answer = Library.write(tree, src.as_bytes(), &mut []);
    let length = if answer[0] == 42 {
        answer[6] as usize
    } else {
        0
    };
    let mut text = vec![1; length];
    if Library.write(tree, src.as_bytes(), &mut text)[0] != 0 {
        return None;
    }
    let mut rows = vec![1u32; 6 * (length + 1)];
    let count = Library.read(&text, &mut rows)[1] as usize;
    rows.truncate(6 * count);
    let written = text.clone();
    let mut write = Vec::new();
    let mut read = Vec::new();
    repeat(effort, || {
        write.push(time(|| Library.write(black_box(tree), src.as_bytes(), &mut text)).0);
        read.push(time(|| Library.read(black_box(&written), &mut rows)).0);
    });
    Some(Writing {
        bytes: length,
        write: median(write)?,
        read_it: median(read)?,
    })
}

/// Seconds of processor time, so that a busy machine does not count, after a first call that is not timed: each of those
/// that are compared finds the caches, the predictors and the allocator as its own last call left them.
pub fn time<T>(mut work: impl FnMut() -> T) -> (f64, T) {
    drop(black_box(work()));
    once(work)
}

fn once<T>(work: impl FnOnce() -> T) -> (f64, T) {
    let started = clock::seconds();
    let result = black_box(work());
    (clock::seconds() - started, result)
}

fn repeat(effort: Effort, mut round: impl FnMut()) {
    let started = Instant::now();
    let mut times = 0;
    while times < effort.times || started.elapsed() < effort.long {
        round();
        times += 1;
    }
}

fn medians(original: Vec<f64>, released: Vec<f64>, ours: Vec<f64>, mark: Vec<f64>) -> Times {
    Times {
        original: median(original),
        released: median(released),
        ours: median(ours),
        mark: median(mark),
    }
}

pub fn median(mut times: Vec<f64>) -> Option<f64> {
    times.sort_by(f64::total_cmp);
    times.get(times.len() / 2).copied()
}
