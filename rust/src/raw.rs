//! The exported functions over slices that the caller lends: safe, and nothing is allocated.
//!
//! A call either puts down its rows or bytes from the front and gives their number, leaving what stands past them, or
//! is refused, and then every word or byte of the output is 0. Linking puts nothing down and gives the number of calls.

use crate::Refusal;

/// Words of a token row: kind, detail, text start, text length, span start, span end.
pub const TOKEN_WORDS: usize = 6;
/// Words of a node row: those of a token row, then the row after the node's subtree, then the row of its parent.
pub const NODE_WORDS: usize = 8;

/// The parent's row of a node that has no parent.
pub const NO_PARENT: u32 = u32::MAX;

/// The most bytes that reading takes (more: refusal 1) and that writing puts down (more: refusal 42).
pub const MAX_BYTES: usize = 16_777_216;

/// Token rows that hold the tokens of any source of so many bytes: each token but Eof takes a byte of its own.
pub const fn token_bound(bytes: usize) -> usize {
    bytes.saturating_add(1)
}

/// Node rows that hold the tree of any list of so many tokens.
pub const fn node_bound(tokens: usize) -> usize {
    tokens.saturating_mul(2)
}

/// Work words for two trees of so many rows in all, with which linking takes linear time: with fewer it may look at every row
/// for each name.
pub const fn link_words(rows: usize) -> usize {
    rows.saturating_mul(2)
}

mod c {
    unsafe extern "C" {
        pub fn refal5_canonical_name(
            name: *const u8,
            n: usize,
            out: *mut u8,
            m: usize,
            answer: *mut u64,
        );
        pub fn refal5_canonical_index(
            name: *const u8,
            n: usize,
            out: *mut u8,
            m: usize,
            answer: *mut u64,
        );
        pub fn refal5_names_equal(a: *const u8, n: usize, b: *const u8, m: usize) -> bool;
        pub fn refal5_read(src: *const u8, n: usize, rows: *mut u32, m: usize, answer: *mut u64);
        pub fn refal5_parse(
            tokens: *const u32,
            n: usize,
            rows: *mut u32,
            m: usize,
            answer: *mut u64,
        );
        pub fn refal5_write(
            tree: *const u32,
            n: usize,
            src: *const u8,
            k: usize,
            out: *mut u8,
            m: usize,
            answer: *mut u64,
        );
        pub fn refal5_link(
            tree1: *const u32,
            n1: usize,
            src1: *const u8,
            m1: usize,
            tree2: *const u32,
            n2: usize,
            src2: *const u8,
            m2: usize,
            work: *mut u32,
            w: usize,
            answer: *mut u64,
        );
        pub fn refal5_real(
            text: *const u8,
            n: usize,
            digits: *mut u8,
            m: usize,
            form: *mut u64,
            answer: *mut u64,
        );
    }
}

/// The count put down, or the refusal, from an answer's seven words.
fn result(answer: [u64; 7]) -> Result<usize, Refusal> {
    match answer {
        [0, count, ..] => Ok(count as usize),
        [number, _, expected, found, start, end, need] => Err(Refusal {
            number: number as u32,
            expected: expected as u32,
            found: found as u32,
            span: crate::Span {
                start: start as usize,
                end: end as usize,
            },
            need,
        }),
    }
}

// In each call below a pointer comes from a slice and stands beside that slice's length, the slices are borrowed for
// the call, so that those written overlap no other, and the answer and the form have the seven and three words that are written.

/// Puts the canonical form of a name into `out`: a to z become A to Z, `_` becomes `-`. 50 where `out` is shorter.
pub fn canonical_name(name: &[u8], out: &mut [u8]) -> Result<usize, Refusal> {
    let mut answer = [0; 7];
    // Sound: see above.
    unsafe {
        c::refal5_canonical_name(
            name.as_ptr(),
            name.len(),
            out.as_mut_ptr(),
            out.len(),
            answer.as_mut_ptr(),
        );
    }
    result(answer)
}

/// Puts the canonical form of a variable's index into `out`: a to z become A to Z. 50 where `out` is shorter.
pub fn canonical_index(name: &[u8], out: &mut [u8]) -> Result<usize, Refusal> {
    let mut answer = [0; 7];
    // Sound: see above.
    unsafe {
        c::refal5_canonical_index(
            name.as_ptr(),
            name.len(),
            out.as_mut_ptr(),
            out.len(),
            answer.as_mut_ptr(),
        );
    }
    result(answer)
}

/// Whether two names are equal: their canonical forms are.
pub fn names_equal(a: &[u8], b: &[u8]) -> bool {
    // Sound: see above.
    unsafe { c::refal5_names_equal(a.as_ptr(), a.len(), b.as_ptr(), b.len()) }
}

/// Reads a source into token rows of [`TOKEN_WORDS`] words. Refusals 1, 2, 10 to 25.
pub fn read(source: &[u8], rows: &mut [u32]) -> Result<usize, Refusal> {
    let mut answer = [0; 7];
    // Sound: see above.
    unsafe {
        c::refal5_read(
            source.as_ptr(),
            source.len(),
            rows.as_mut_ptr(),
            rows.len(),
            answer.as_mut_ptr(),
        );
    }
    result(answer)
}

/// Parses token rows into node rows of [`NODE_WORDS`] words. Refusals 30 to 38.
pub fn parse(tokens: &[u32], rows: &mut [u32]) -> Result<usize, Refusal> {
    let mut answer = [0; 7];
    // Sound: see above.
    unsafe {
        c::refal5_parse(
            tokens.as_ptr(),
            tokens.len(),
            rows.as_mut_ptr(),
            rows.len(),
            answer.as_mut_ptr(),
        );
    }
    result(answer)
}

/// Writes a tree whose texts stand in `source` as text. Refusals 40 to 42.
pub fn write(tree: &[u32], source: &[u8], out: &mut [u8]) -> Result<usize, Refusal> {
    let mut answer = [0; 7];
    // Sound: see above.
    unsafe {
        c::refal5_write(
            tree.as_ptr(),
            tree.len(),
            source.as_ptr(),
            source.len(),
            out.as_mut_ptr(),
            out.len(),
            answer.as_mut_ptr(),
        );
    }
    result(answer)
}

/// Links two trees whose texts stand in their sources: the number of calls. `work` is any number of words, of which each is 0
/// afterwards; the answer does not depend on them. Refusals 40 and 41 of the first, of the second, then 60, 61 and 62, whose
/// `found` is the file, 1 or 2.
pub fn link(
    tree1: &[u32],
    source1: &[u8],
    tree2: &[u32],
    source2: &[u8],
    work: &mut [u32],
) -> Result<usize, Refusal> {
    let mut answer = [0; 7];
    // Sound: see above.
    unsafe {
        c::refal5_link(
            tree1.as_ptr(),
            tree1.len(),
            source1.as_ptr(),
            source1.len(),
            tree2.as_ptr(),
            tree2.len(),
            source2.as_ptr(),
            source2.len(),
            work.as_mut_ptr(),
            work.len(),
            answer.as_mut_ptr(),
        );
    }
    result(answer)
}

/// Puts the digits of a real's normal form into `digits`, and into `form` its sign (0 plus, 1 minus), its power's sign (0 for zero
/// or plus, 1 minus) and the power's magnitude. Refusals 64 to 66, which make `form` 0 too.
pub fn real(text: &[u8], digits: &mut [u8], form: &mut [u64; 3]) -> Result<usize, Refusal> {
    let mut answer = [0; 7];
    // Sound: see above.
    unsafe {
        c::refal5_real(
            text.as_ptr(),
            text.len(),
            digits.as_mut_ptr(),
            digits.len(),
            form.as_mut_ptr(),
            answer.as_mut_ptr(),
        );
    }
    result(answer)
}
