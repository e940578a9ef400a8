//! 01 "Names".

use crate::terms::{Answer, Refusal, put_bytes};

fn upper(byte: u8) -> u8 {
    if byte.is_ascii_lowercase() {
        byte - b'a' + b'A'
    } else {
        byte
    }
}

fn name_byte(byte: u8) -> u8 {
    if byte == b'_' { b'-' } else { upper(byte) }
}

fn canonical(name: &[u8], out: &mut [u8], form: fn(u8) -> u8) -> Answer {
    let result = if out.len() < name.len() {
        Err(Refusal::plain(50))
    } else {
        Ok(name.iter().map(|&byte| form(byte)).collect())
    };
    put_bytes(result, out)
}

/// a to z become A to Z, `_` becomes `-`. 50 when the output is shorter than the input.
pub fn canonical_name(name: &[u8], out: &mut [u8]) -> Answer {
    canonical(name, out, name_byte)
}

/// a to z become A to Z. 50 when the output is shorter than the input.
pub fn canonical_index(name: &[u8], out: &mut [u8]) -> Answer {
    canonical(name, out, upper)
}

/// Whether the canonical names are equal.
pub fn names_equal(a: &[u8], b: &[u8]) -> bool {
    let form = |name: &[u8]| name.iter().map(|&byte| name_byte(byte)).collect::<Vec<_>>();
    form(a) == form(b)
}

/// Whether the canonical indices are equal.
pub fn indices_equal(a: &[u8], b: &[u8]) -> bool {
    let form = |index: &[u8]| index.iter().map(|&byte| upper(byte)).collect::<Vec<_>>();
    form(a) == form(b)
}
