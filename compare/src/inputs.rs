//! Random calls from a seed.

use oracle::cases::Case;
use oracle::generate::{Rng, files, sources, tokens, trees};
use oracle::lists::reals;
use oracle::reference::real::form;
use oracle::reference::{parse, read, write};
use oracle::terms::NODE_WIDTH;

/// A random call of any of the functions, lent about as much as it needs.
pub fn any(rng: &mut Rng) -> Case {
    match rng.below(15) {
        0 => name(rng),
        1..=5 => reading(rng),
        6..=8 => parsing(rng),
        9..=11 => writing(rng),
        12 => real(rng),
        _ => linking(rng),
    }
}

/// Around `exact`, in words or bytes, for rows of `width`.
fn lent(rng: &mut Rng, exact: usize, width: usize) -> usize {
    match rng.below(8) {
        0 => exact.saturating_sub(1),
        1 => exact + 1,
        2 => exact.saturating_sub(width),
        3 => exact + width,
        4 => exact + rng.below(4 * width),
        5 => rng.below(exact + 1),
        _ => exact,
    }
}

fn name(rng: &mut Rng) -> Case {
    let name: Vec<u8> = (0..rng.below(41))
        .map(|_| {
            if rng.once_in(3) {
                rng.bits() as u8
            } else {
                b"AZazmM09_-@[`{/:"[rng.below(16)]
            }
        })
        .collect();
    let lent = lent(rng, name.len(), 4);
    match rng.below(3) {
        0 => Case::Name { name, lent },
        1 => Case::Index { name, lent },
        _ => {
            let mut b = name.clone();
            for byte in &mut b {
                match *byte {
                    b'_' | b'-' if rng.once_in(2) => *byte ^= b'_' ^ b'-',
                    _ if byte.is_ascii_alphabetic() && rng.once_in(2) => *byte ^= 0x20,
                    _ => (),
                }
            }
            if rng.once_in(3) && !b.is_empty() {
                let at = rng.below(b.len());
                b[at] ^= 1 << rng.below(8);
            }
            if rng.once_in(6) {
                b.truncate(rng.below(b.len() + 1));
            }
            Case::Equal { a: name, b }
        }
    }
}

/// A real, or almost one; or two of almost the same value.
pub fn real(rng: &mut Rng) -> Case {
    let text = reals::text(rng);
    if rng.once_in(3) {
        let b = reals::respelled(rng, &text);
        return Case::Reals { a: text, b };
    }
    let exact = form(&text).map_or_else(|_| rng.below(9), |form| form.digits.len());
    let lent = lent(rng, exact, 4);
    Case::Real { text, lent }
}

pub fn reading(rng: &mut Rng) -> Case {
    let src = sources::any(rng);
    let exact = read::tokens(&src).map_or_else(|_| rng.below(30), |rows| rows.len() * 6);
    let lent = lent(rng, exact, 6);
    Case::Read { src, lent }
}

pub fn parsing(rng: &mut Rng) -> Case {
    let tokens = tokens::any(rng);
    let exact = parse::tree(&tokens).map_or_else(|_| rng.below(30), |rows| rows.len() * NODE_WIDTH);
    let lent = lent(rng, exact, NODE_WIDTH);
    Case::Parse { tokens, lent }
}

pub fn writing(rng: &mut Rng) -> Case {
    let (tree, src) = trees::any(rng);
    let exact = write::text(&tree, &src).map_or_else(|_| rng.below(30), |text| text.len());
    let lent = lent(rng, exact, 4);
    Case::Write { tree, src, lent }
}

pub fn linking(rng: &mut Rng) -> Case {
    let (tree1, src1) = files::any(rng, 4);
    let (tree2, src2) = if rng.once_in(2) {
        files::declarations()
    } else {
        files::any(rng, 4)
    };
    let rows = (tree1.len() + tree2.len()) / NODE_WIDTH;
    let exact = rng.below(3) * rows;
    let lent = lent(rng, exact, NODE_WIDTH);
    Case::Link {
        tree1,
        src1,
        tree2,
        src2,
        lent,
    }
}
