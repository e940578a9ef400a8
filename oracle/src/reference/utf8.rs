//! UTF-8 by Unicode table 3-7, and the White_Space set.

/// Table 3-7: the bytes that may stand in each place of a well-formed sequence.
const ROWS: [&[(u8, u8)]; 9] = [
    &[(0x00, 0x7f)],
    &[(0xc2, 0xdf), (0x80, 0xbf)],
    &[(0xe0, 0xe0), (0xa0, 0xbf), (0x80, 0xbf)],
    &[(0xe1, 0xec), (0x80, 0xbf), (0x80, 0xbf)],
    &[(0xed, 0xed), (0x80, 0x9f), (0x80, 0xbf)],
    &[(0xee, 0xef), (0x80, 0xbf), (0x80, 0xbf)],
    &[(0xf0, 0xf0), (0x90, 0xbf), (0x80, 0xbf), (0x80, 0xbf)],
    &[(0xf1, 0xf3), (0x80, 0xbf), (0x80, 0xbf), (0x80, 0xbf)],
    &[(0xf4, 0xf4), (0x80, 0x8f), (0x80, 0xbf), (0x80, 0xbf)],
];

fn fits(bytes: &[u8], row: &[(u8, u8)]) -> bool {
    bytes.len() >= row.len()
        && row
            .iter()
            .zip(bytes)
            .all(|(&(low, high), &byte)| low <= byte && byte <= high)
}

/// Where the first ill-formed sequence starts, if there is one.
pub fn first_ill_formed(bytes: &[u8]) -> Option<usize> {
    let mut at = 0;
    while at < bytes.len() {
        match ROWS.iter().find(|row| fits(&bytes[at..], row)) {
            Some(row) => at += row.len(),
            None => return Some(at),
        }
    }
    None
}

/// The code point and the length of the well-formed sequence at the start of `bytes`.
pub fn first_char(bytes: &[u8]) -> Option<(u32, usize)> {
    let row = ROWS.iter().find(|row| fits(bytes, row))?;
    let lead = u32::from(bytes[0]);
    let value = match row.len() {
        1 => lead,
        2 => lead - 0xc0,
        3 => lead - 0xe0,
        _ => lead - 0xf0,
    };
    let value = bytes[1..row.len()]
        .iter()
        .fold(value, |value, &byte| value * 64 + u32::from(byte) - 0x80);
    Some((value, row.len()))
}

/// A code point that is no surrogate and not over 10FFFF.
pub fn is_scalar(value: u32) -> bool {
    value <= 0xd7ff || (0xe000..=0x10_ffff).contains(&value)
}

/// The bytes of a scalar value, by table 3-6.
pub fn encode(value: u32) -> Vec<u8> {
    let last = |shift: u32| 0x80 + (value >> shift & 63) as u8;
    match value {
        0..=0x7f => vec![value as u8],
        0x80..=0x7ff => vec![0xc0 + (value >> 6) as u8, last(0)],
        0x800..=0xffff => vec![0xe0 + (value >> 12) as u8, last(6), last(0)],
        _ => vec![0xf0 + (value >> 18) as u8, last(12), last(6), last(0)],
    }
}

/// Unicode White_Space: 25 code points.
pub const WHITE_SPACE: [u32; 25] = [
    0x09, 0x0a, 0x0b, 0x0c, 0x0d, 0x20, 0x85, 0xa0, 0x1680, 0x2000, 0x2001, 0x2002, 0x2003, 0x2004,
    0x2005, 0x2006, 0x2007, 0x2008, 0x2009, 0x200a, 0x2028, 0x2029, 0x202f, 0x205f, 0x3000,
];

pub fn is_white_space(value: u32) -> bool {
    WHITE_SPACE.contains(&value)
}

#[cfg(test)]
mod tests {
    use super::*;

    #[test]
    fn agrees_with_the_standard_library() {
        for value in 0..=0x11_ffff {
            let std = char::from_u32(value);
            assert_eq!(is_scalar(value), std.is_some());
            assert_eq!(
                is_white_space(value),
                std.is_some_and(char::is_whitespace),
                "{value:x}"
            );
            if let Some(c) = std {
                let bytes = c.to_string().into_bytes();
                assert_eq!(encode(value), bytes);
                assert_eq!(first_char(&bytes), Some((value, bytes.len())));
                assert_eq!(first_ill_formed(&bytes), None);
            }
        }
    }

    #[test]
    fn finds_the_first_ill_formed_sequence() {
        let telling = [
            0x00, 0x41, 0x7f, 0x80, 0x8f, 0x90, 0x9f, 0xa0, 0xbf, 0xc0, 0xc1, 0xc2, 0xdf, 0xe0,
            0xe1, 0xec, 0xed, 0xee, 0xef, 0xf0, 0xf1, 0xf3, 0xf4, 0xf5, 0xff,
        ];
        let mut bytes = Vec::new();
        for &a in &telling {
            for &b in &telling {
                for &c in &telling {
                    for &d in &telling {
                        bytes.clear();
                        bytes.extend([a, b, c, d]);
                        let std = std::str::from_utf8(&bytes).err().map(|e| e.valid_up_to());
                        assert_eq!(first_ill_formed(&bytes), std, "{bytes:x?}");
                    }
                }
            }
        }
    }
}
