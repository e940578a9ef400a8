//! The largest inputs of parsing and writing, and one more. Those that take some gigabytes run only
//! when asked: cargo test --release -p compare --test limits -- --ignored --test-threads 1

use compare::Library;
use oracle::cases::Functions;
use oracle::reference;
use oracle::terms::{
    MAX_NODES, MAX_SOURCE, MAX_TEXT, MAX_TOKENS, NO_PARENT, NODE_WIDTH, node, token,
};

/// Semicolons and Eof, as many rows as asked.
fn semicolons(rows: usize) -> Vec<u32> {
    let mut words = Vec::with_capacity(6 * rows);
    for at in 1..rows as u32 {
        words.extend([token::SEMICOLON, 0, 0, 0, at - 1, at]);
    }
    words.extend([token::EOF, 0, 0, 0, rows as u32 - 1, rows as u32 - 1]);
    words
}

#[test]
#[ignore = "takes much memory"]
fn token_rows() {
    let mut rows = [7; 3];
    let most = Library.parse(&semicolons(MAX_TOKENS), &mut rows);
    assert_eq!((most, rows), ([0; 7], [7; 3]));
    let more = Library.parse(&semicolons(MAX_TOKENS + 1), &mut rows);
    assert_eq!((more, rows), ([30, 0, 0, 0, 0, 0, 0], [0; 3]));
}

/// Declarations of one name each, the last of two where the number of rows is odd.
fn declarations(rows: usize) -> Vec<u32> {
    let mut words = Vec::with_capacity(NODE_WIDTH * rows);
    let mut at = 0;
    while at < rows {
        let names = if rows - at == 3 { 2 } else { 1 };
        let next = (at + 1 + names) as u32;
        words.extend([node::DECLARATION, 0, 0, 0, 0, 0, next, NO_PARENT]);
        for place in 0..names {
            let end = (at + 2 + place) as u32;
            words.extend([node::NAME, 0, 0, 1, 0, 0, end, at as u32]);
        }
        at = next as usize;
    }
    words
}

#[test]
#[ignore = "takes much memory"]
fn node_rows() {
    let mut out = [7; 3];
    // `$EXTRN A ; ` is 11 bytes.
    let need = 11 * MAX_NODES as u64 / 2;
    let most = Library.write(&declarations(MAX_NODES), b"A", &mut out);
    assert_eq!((most, out), ([42, 0, 0, 0, 0, 0, need], [0; 3]));
    let more = Library.write(&declarations(MAX_NODES + 1), b"A", &mut out);
    assert_eq!((more, out), ([40, 0, 0, 0, 0, 0, 0], [0; 3]));
}

/// Empty functions, the last with a name of that length.
fn functions(count: usize, last: u32) -> Vec<u32> {
    let mut words = Vec::with_capacity(NODE_WIDTH * count);
    for at in 1..=count {
        let length = if at == count { last } else { 1 };
        words.extend([node::FUNCTION, 0, 0, length, 0, 0, at as u32, NO_PARENT]);
    }
    words
}

#[test]
#[ignore = "takes much memory"]
fn text_length() {
    let src = b"Abcdefg";
    // `A { } ` is 6 bytes.
    let count = MAX_TEXT / 6;
    let last = 1 + (MAX_TEXT % 6) as u32;
    let mut out = vec![7; MAX_TEXT + 2];
    let most = Library.write(&functions(count, last), src, &mut out);
    assert_eq!(most, [0, MAX_TEXT as u64, 0, 0, 0, 0, 0]);
    assert_eq!(out[MAX_TEXT - 4..], *b"{ } \x07\x07");
    let more = Library.write(&functions(count, last + 1), src, &mut out);
    assert_eq!(more, [42, 0, 0, 0, 0, 0, MAX_TEXT as u64 + 1]);
    assert!(out.iter().all(|&byte| byte == 0));
}

/// A function `F` whose one result is the number that stands behind `F` in the source.
fn number(digits: usize) -> (Vec<u32>, Vec<u8>) {
    let mut src = vec![b'0'; digits + 1];
    src[0] = b'F';
    let rows = [
        [node::FUNCTION, 0, 0, 1, 0, 0, 5, NO_PARENT],
        [node::SENTENCE, 0, 0, 0, 0, 0, 5, 0],
        [node::TERMS, 0, 0, 0, 0, 0, 3, 1],
        [node::TERMS, 0, 0, 0, 0, 0, 5, 1],
        [node::NUMBER, 0, 1, digits as u32, 0, 0, 5, 3],
    ];
    (rows.concat(), src)
}

/// Reading gives no number that is longer than a source may be, so 41 comes before 42.
#[test]
fn number_length() {
    for (digits, refusal, need) in [
        (MAX_SOURCE, 42, MAX_SOURCE as u64 + 11),
        (MAX_SOURCE + 1, 41, 0),
    ] {
        let (tree, src) = number(digits);
        let answer = [refusal, 0, 0, 0, 0, 0, need];
        let mut out = [7; 3];
        assert_eq!(
            (Library.write(&tree, &src, &mut out), out),
            (answer, [0; 3])
        );
        let mut out = [7; 3];
        assert_eq!(
            (reference::write::write(&tree, &src, &mut out), out),
            (answer, [0; 3])
        );
    }
}
