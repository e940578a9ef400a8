//! One call of one function with what is lent to it, and all that it leaves.

use crate::reference;
use crate::reference::link::File;
use crate::terms::Answer;

/// What lent output holds before a call, so that what must stay can be told.
pub const FILL: u8 = 0xa5;
pub const FILL_WORD: u32 = 0xa5a5_a5a5;
const FILL_FORM: [u64; 3] = [0xa5a5_a5a5_a5a5_a5a5; 3];
/// Words and bytes on both sides of lent output that no call may touch.
const GUARD: usize = 8;

/// A call: the input, and how many words or bytes are lent for output.
#[derive(Debug, Clone, PartialEq, Eq)]
pub enum Case {
    Name {
        name: Vec<u8>,
        lent: usize,
    },
    Index {
        name: Vec<u8>,
        lent: usize,
    },
    Equal {
        a: Vec<u8>,
        b: Vec<u8>,
    },
    Read {
        src: Vec<u8>,
        lent: usize,
    },
    Parse {
        tokens: Vec<u32>,
        lent: usize,
    },
    Write {
        tree: Vec<u32>,
        src: Vec<u8>,
        lent: usize,
    },
    Link {
        tree1: Vec<u32>,
        src1: Vec<u8>,
        tree2: Vec<u32>,
        src2: Vec<u8>,
        lent: usize,
    },
    Real {
        text: Vec<u8>,
        lent: usize,
    },
    /// Two reals: whether their normal forms are equal.
    Reals {
        a: Vec<u8>,
        b: Vec<u8>,
    },
}

/// The answer and the whole of the lent output after the call.
#[derive(Debug, Clone, PartialEq, Eq)]
pub enum Outcome {
    Bytes(Answer, Vec<u8>),
    Words(Answer, Vec<u32>),
    Form(Answer, [u64; 3], Vec<u8>),
    Truth(bool),
}

impl Outcome {
    /// The refusal's number, or 0.
    pub fn number(&self) -> u64 {
        match self {
            Self::Bytes(answer, _) | Self::Words(answer, _) | Self::Form(answer, _, _) => answer[0],
            Self::Truth(_) => 0,
        }
    }
}

/// The functions, in the shape of the exported C functions.
pub trait Functions {
    fn canonical_name(&self, name: &[u8], out: &mut [u8]) -> Answer;
    fn canonical_index(&self, name: &[u8], out: &mut [u8]) -> Answer;
    fn names_equal(&self, a: &[u8], b: &[u8]) -> bool;
    fn read(&self, src: &[u8], rows: &mut [u32]) -> Answer;
    fn parse(&self, tokens: &[u32], rows: &mut [u32]) -> Answer;
    fn write(&self, tree: &[u32], src: &[u8], out: &mut [u8]) -> Answer;
    fn link(&self, one: File<'_>, two: File<'_>, work: &mut [u32]) -> Answer;
    fn real(&self, text: &[u8], digits: &mut [u8], form: &mut [u64; 3]) -> Answer {
        reference::real(text, digits, form)
    }
    /// Whether two reals have one normal form.
    fn same_reals(&self, a: &[u8], b: &[u8]) -> bool {
        let form = |text: &[u8]| {
            let mut digits = vec![0; text.len()];
            let mut form = [0; 3];
            let answer = self.real(text, &mut digits, &mut form);
            digits.truncate(answer[1] as usize);
            (answer[0] == 0).then_some((form, digits))
        };
        form(a).is_some_and(|a| form(b) == Some(a))
    }
}

/// The plain reference.
pub struct Reference;

impl Functions for Reference {
    fn canonical_name(&self, name: &[u8], out: &mut [u8]) -> Answer {
        reference::canonical_name(name, out)
    }
    fn canonical_index(&self, name: &[u8], out: &mut [u8]) -> Answer {
        reference::canonical_index(name, out)
    }
    fn names_equal(&self, a: &[u8], b: &[u8]) -> bool {
        reference::names_equal(a, b)
    }
    fn read(&self, src: &[u8], rows: &mut [u32]) -> Answer {
        reference::read(src, rows)
    }
    fn parse(&self, tokens: &[u32], rows: &mut [u32]) -> Answer {
        reference::parse(tokens, rows)
    }
    fn write(&self, tree: &[u32], src: &[u8], out: &mut [u8]) -> Answer {
        reference::write(tree, src, out)
    }
    fn link(&self, one: File<'_>, two: File<'_>, work: &mut [u32]) -> Answer {
        reference::link(one, two, work)
    }
    /// By their values, not by their forms.
    fn same_reals(&self, a: &[u8], b: &[u8]) -> bool {
        reference::real::same_value(a, b)
    }
}

/// Makes the call and gives all that it left. Panics where the call touched what was not lent for
/// output.
pub fn run(case: &Case, functions: &impl Functions) -> Outcome {
    let before = case.clone();
    let outcome = match case {
        Case::Name { name, lent } => bytes(*lent, |out| functions.canonical_name(name, out)),
        Case::Index { name, lent } => bytes(*lent, |out| functions.canonical_index(name, out)),
        Case::Equal { a, b } => Outcome::Truth(functions.names_equal(a, b)),
        Case::Read { src, lent } => words(*lent, |rows| functions.read(src, rows)),
        Case::Parse { tokens, lent } => words(*lent, |rows| functions.parse(tokens, rows)),
        Case::Write { tree, src, lent } => bytes(*lent, |out| functions.write(tree, src, out)),
        Case::Link {
            tree1,
            src1,
            tree2,
            src2,
            lent,
        } => {
            let one = File {
                tree: tree1,
                src: src1,
            };
            let two = File {
                tree: tree2,
                src: src2,
            };
            words(*lent, |work| functions.link(one, two, work))
        }
        Case::Real { text, lent } => {
            let mut form = FILL_FORM;
            let (answer, out) = guarded(FILL, *lent, |out| functions.real(text, out, &mut form));
            Outcome::Form(answer, form, out)
        }
        Case::Reals { a, b } => Outcome::Truth(functions.same_reals(a, b)),
    };
    assert!(before == *case, "what was lent for reading changed");
    outcome
}

fn bytes(lent: usize, call: impl FnOnce(&mut [u8]) -> Answer) -> Outcome {
    let (answer, out) = guarded(FILL, lent, call);
    Outcome::Bytes(answer, out)
}

fn words(lent: usize, call: impl FnOnce(&mut [u32]) -> Answer) -> Outcome {
    let (answer, out) = guarded(FILL_WORD, lent, call);
    Outcome::Words(answer, out)
}

fn guarded<T: Copy + PartialEq>(
    fill: T,
    lent: usize,
    call: impl FnOnce(&mut [T]) -> Answer,
) -> (Answer, Vec<T>) {
    let mut whole = vec![fill; GUARD + lent + GUARD];
    let answer = call(&mut whole[GUARD..GUARD + lent]);
    let untouched = |part: &[T]| part.iter().all(|&word| word == fill);
    assert!(
        untouched(&whole[..GUARD]) && untouched(&whole[GUARD + lent..]),
        "words or bytes beside the lent ones changed"
    );
    whole.truncate(GUARD + lent);
    whole.drain(..GUARD);
    (answer, whole)
}

/// Holds the reference's outcome against the original's, where the original can be asked: it is
/// present, its types can hold the input, no added refusal applies, reading meets no number with a
/// sign after its `E`, and parsing meets no left-off `;`.
pub fn original_agrees(case: &Case, outcome: &Outcome) -> bool {
    use crate::original;
    use crate::terms::{put_bytes, put_rows};
    let added = matches!(
        outcome.number(),
        1 | 2 | 25 | 30 | 37 | 38 | 40 | 41 | 42 | 50 | 60 | 61 | 62
    );
    if added {
        return true;
    }
    let text = |bytes: &[u8]| String::from_utf8(bytes.to_vec()).ok();
    let theirs = match case {
        Case::Name { name, lent } => text(name).and_then(|name| {
            let form = original::canonical_name(&name)?;
            Some(bytes(*lent, |out| put_bytes(Ok(form.into_bytes()), out)))
        }),
        Case::Index { name, lent } => text(name).and_then(|name| {
            let form = original::canonical_index(&name)?;
            Some(bytes(*lent, |out| put_bytes(Ok(form.into_bytes()), out)))
        }),
        Case::Equal { a, b } => text(a)
            .zip(text(b))
            .and_then(|(a, b)| original::names_equal(&a, &b).map(Outcome::Truth)),
        Case::Read { src, .. } if reference::read::signed_exponent(src).is_some() => None,
        Case::Read { src, lent } => text(src).and_then(|src| {
            let rows = original::read(&src)?;
            Some(words(*lent, |out| put_rows(rows, 25, out)))
        }),
        Case::Parse { tokens, .. } if reference::parse::first_left_off(tokens).is_some() => None,
        Case::Parse { tokens, lent } => {
            let rows: Vec<_> = tokens
                .chunks(6)
                .map(|row| row.try_into().expect("six words"))
                .collect();
            original::parse(&rows).map(|tree| words(*lent, |out| put_rows(tree, 38, out)))
        }
        Case::Write { .. } | Case::Link { .. } | Case::Real { .. } | Case::Reals { .. } => None,
    };
    theirs.is_none_or(|theirs| theirs == *outcome)
}
