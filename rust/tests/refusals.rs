//! The table of refusals against the library, and docs/REFUSALS.md and the constants of include/refal5.h against the table.
//!
//! With UPDATE_GOLDEN set the two are written anew.

use std::env;
use std::fs;
use std::path::{Path, PathBuf};

use refal5::raw::{self, MAX_BYTES, NO_PARENT, NODE_WORDS, TOKEN_WORDS};
use refal5::rows::{Kind, NodeKind, NodeRows, TokenRows, Tokens, Tree};
use refal5::{Call, Example, Meaning, REFUSALS, Refusal};

fn number(result: Result<usize, Refusal>) -> u32 {
    result.map_or_else(|refusal| refusal.number, |_| 0)
}

/// The number that reading and parsing a source is refused with, and, where it is for linking, linking it with an empty one;
/// or 0.
fn refused(call: Call, source: &[u8]) -> u32 {
    let (mut rows, mut nodes) = (TokenRows::new(), NodeRows::new());
    let parsed = rows.read(source).and_then(|tokens| nodes.parse(tokens));
    let linked = parsed.and_then(|tree| match call {
        Call::Linking => refal5::link(tree, nothing()).map_err(|error| error.refusal),
        _ => Ok(0),
    });
    number(linked)
}

/// The tree of an empty source.
fn nothing() -> Tree<'static> {
    let tokens: &mut [u32] = Vec::leak(vec![0; TOKEN_WORDS]);
    let tokens = Tokens::read(b"", tokens).expect("an empty source is read");
    Tree::parse(tokens, &mut []).expect("and parsed")
}

#[test]
fn examples_are_refused_and_accepted() {
    for meaning in REFUSALS {
        if let Example::Source(source) = meaning.wrong {
            assert_eq!(
                refused(meaning.call, source),
                meaning.number,
                "{}",
                meaning.name
            );
        }
        if let Example::Source(source) = meaning.right {
            assert_eq!(refused(meaning.call, source), 0, "{}", meaning.name);
        }
    }
}

/// What no source shows, as the words of the table say it: wrong first.
#[test]
fn the_other_examples() {
    let words: Vec<u32> = REFUSALS
        .iter()
        .filter(|meaning| matches!(meaning.wrong, Example::Words(_)))
        .map(|meaning| meaning.number)
        .collect();
    assert_eq!(words, [1, 25, 30, 36, 38, 40, 41, 42, 50, 64, 65, 66]);

    let spaces = vec![b' '; MAX_BYTES + 1];
    assert_eq!(number(raw::read(&spaces, &mut [0; 6])), 1);
    assert_eq!(number(raw::read(&spaces[1..], &mut [0; 6])), 0);

    assert_eq!(number(raw::read(b"F{}", &mut [0; TOKEN_WORDS])), 25);
    let mut tokens = [0; 4 * TOKEN_WORDS];
    assert_eq!(number(raw::read(b"F{}", &mut tokens)), 0);

    let mut nodes = [0; 4 * NODE_WORDS];
    assert_eq!(
        number(raw::parse(&tokens[..3 * TOKEN_WORDS], &mut nodes)),
        30
    );
    assert_eq!(number(raw::parse(&tokens, &mut nodes)), 0);

    let mut variable = [0; 5 * TOKEN_WORDS];
    assert_eq!(number(raw::read(b"F{s1=", &mut variable)), 0);
    variable[2 * TOKEN_WORDS + 1] = b'x'.into();
    assert_eq!(number(raw::parse(&variable, &mut nodes)), 36);

    let mut tokens = [0; 6 * TOKEN_WORDS];
    assert_eq!(number(raw::read(b"F{=;}", &mut tokens)), 0);
    assert_eq!(number(raw::parse(&tokens, &mut nodes[..NODE_WORDS])), 38);
    assert_eq!(number(raw::parse(&tokens, &mut nodes)), 0);

    let mut text = [0; 10];
    let mut wrong = nodes;
    wrong[NODE_WORDS - 2] = 3;
    assert_eq!(number(raw::write(&wrong, b"F{=;}", &mut text)), 40);
    wrong = nodes;
    wrong[NODE_WORDS - 1] = 0;
    assert_eq!(number(raw::write(&wrong, b"F{=;}", &mut text)), 40);
    assert_eq!(number(raw::write(&nodes, b"f{=;}", &mut text)), 41);
    assert_eq!(number(raw::write(&nodes, b"F{=;}", &mut text[..9])), 42);
    assert_eq!(number(raw::write(&nodes, b"F{=;}", &mut text)), 0);

    assert_eq!(number(raw::canonical_name(b"Foo", &mut [0; 2])), 50);
    assert_eq!(number(raw::canonical_name(b"Foo", &mut [0; 3])), 0);

    let real = |text: &[u8], lent| number(raw::real(text, &mut vec![0; lent], &mut [0; 3]));
    for wrong in [&b"15"[..], b"1.5 ", b".5", b"1,5"] {
        assert_eq!(real(wrong, wrong.len()), 64);
    }
    for right in [&b"15E0"[..], b"1.5", b"0.5", b"-1.5"] {
        assert_eq!(real(right, right.len()), 0);
    }
    assert_eq!(real(b"1E1000000000", 1), 65);
    assert_eq!(real(b"1E999999999", 1), 0);
    assert_eq!(real(b"1.5", 1), 66);
    assert_eq!(real(b"1.5", 2), 0);
}

fn repository(file: &str) -> PathBuf {
    Path::new(env!("CARGO_MANIFEST_DIR")).join("..").join(file)
}

/// Holds a file against what is made, or writes it.
fn hold(file: &str, made: &str) {
    let path = repository(file);
    if env::var_os("UPDATE_GOLDEN").is_some() {
        fs::write(&path, made).expect("the repository is writable");
    }
    let there = fs::read_to_string(&path).unwrap_or_default();
    assert!(there == made, "{file} is not what the table makes");
}

#[test]
fn the_document() {
    let mut made = String::from(
        "# Refusals\n\n\
         What each number means, with a wrong and a right example. Made from the table in rust/src/refusals/table.rs by\n\
         `UPDATE_GOLDEN=1 cargo test -p refal5 --test refusals`; `refal5 explain NUMBER` prints the same. The constants of\n\
         include/refal5.h are the names here after `REFAL5_`.\n",
    );
    for meaning in REFUSALS {
        made += &section(meaning);
    }
    hold("docs/REFUSALS.md", &made);
}

fn section(meaning: &Meaning) -> String {
    let Meaning {
        number,
        name,
        title,
        meaning: words,
        wrong,
        right,
        call,
    } = *meaning;
    let call = call.name();
    let (wrong, right) = (example("Wrong", wrong), example("Right", right));
    format!("\n## {number}: {title}\n\n{words} (`{name}`, {call})\n{wrong}{right}")
}

fn example(word: &str, example: Example) -> String {
    match example {
        Example::Source(_) => {
            let indented: Vec<String> = example
                .text()
                .lines()
                .map(|line| format!("    {line}"))
                .collect();
            format!("\n{word}:\n\n{}\n", indented.join("\n"))
        }
        Example::Words(words) => format!("\n{word}: {words}.\n"),
    }
}

const FIRST: &str = "/* Constants, made from the tables of the Rust crate";
const LAST: &str = "/* End of the constants. */\n";

#[test]
fn the_headers_constants() {
    let header = fs::read_to_string(repository("include/refal5.h")).expect("the header is there");
    let (before, rest) = header.split_once(FIRST).expect("the constants start");
    let (_, after) = rest.split_once(LAST).expect("the constants end");
    hold(
        "include/refal5.h",
        &format!("{before}{}{LAST}{after}", constants()),
    );
}

fn constants() -> String {
    let mut made = format!("{FIRST}: kinds, refusals and widths. */\n");
    let mut define = |name: &str, value: u64| {
        made += &format!("#define REFAL5_{name} {value}\n");
    };
    for number in 1.. {
        let Some(kind) = Kind::from_number(number) else {
            break;
        };
        define(&format!("TOKEN_{}", constant(kind.name())), number.into());
    }
    for number in 1.. {
        let Some(kind) = NodeKind::from_number(number) else {
            break;
        };
        define(&format!("NODE_{}", constant(kind.name())), number.into());
    }
    for meaning in REFUSALS {
        define(meaning.name, meaning.number.into());
    }
    define("TOKEN_WORDS", TOKEN_WORDS as u64);
    define("NODE_WORDS", NODE_WORDS as u64);
    define("NO_PARENT", NO_PARENT.into());
    define("ANSWER_WORDS", 7);
    define("MAX_BYTES", MAX_BYTES as u64);
    made
}

/// A name as constants are written: `LBrace` is LBRACE, `EndingBlock` is ENDING_BLOCK.
fn constant(name: &str) -> String {
    let mut out = String::new();
    let mut before = 'A';
    for letter in name.chars() {
        if letter.is_uppercase() && before.is_lowercase() {
            out.push('_');
        }
        out.extend(letter.to_uppercase());
        before = letter;
    }
    out
}
