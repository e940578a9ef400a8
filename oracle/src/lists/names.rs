//! Names: every byte value, lengths 0 to 40, outputs shorter, exact and longer.

use super::SEED;
use crate::cases::Case;
use crate::generate::Rng;

pub fn cases() -> Vec<Case> {
    let mut rng = Rng::new(SEED);
    let mut cases = Vec::new();
    let every: Vec<u8> = (0..=255).collect();
    forms(&mut cases, &every, 256);
    for length in 0..=40 {
        let name: Vec<u8> = (0..length).map(|_| byte(&mut rng)).collect();
        let shortest = if length > 0 { length - 1 } else { 0 };
        for lent in [shortest, length, length + 1, length + 9] {
            forms(&mut cases, &name, lent);
        }
        if length > 1 {
            forms(&mut cases, &name, 0);
        }
        equals(&mut cases, &mut rng, &name);
    }
    for a in 0..=255u8 {
        let b = [a ^ 0x20, b'-', b'_', a][usize::from(a % 4)];
        cases.push(Case::Equal {
            a: vec![a],
            b: vec![b],
        });
    }
    cases
}

fn forms(cases: &mut Vec<Case>, name: &[u8], lent: usize) {
    let name = name.to_vec();
    cases.push(Case::Name {
        name: name.clone(),
        lent,
    });
    cases.push(Case::Index { name, lent });
}

/// A byte, more often one of a name.
fn byte(rng: &mut Rng) -> u8 {
    const NAMES: &[u8] = b"AZazmM09_-@[`{/:";
    if rng.once_in(4) {
        rng.bits() as u8
    } else {
        NAMES[rng.below(NAMES.len())]
    }
}

fn equals(cases: &mut Vec<Case>, rng: &mut Rng, name: &[u8]) {
    let respelled: Vec<u8> = name
        .iter()
        .map(|&byte| match byte {
            b'_' => b'-',
            b'-' => b'_',
            _ if rng.once_in(2) => byte.to_ascii_uppercase(),
            _ => byte.to_ascii_lowercase(),
        })
        .collect();
    let mut other = respelled.clone();
    if !other.is_empty() {
        let at = rng.below(other.len());
        other[at] ^= 1 << rng.below(8);
    }
    let mut longer = respelled.clone();
    longer.push(b'-');
    for b in [name.to_vec(), respelled, other, longer] {
        cases.push(Case::Equal {
            a: name.to_vec(),
            b,
        });
    }
}
