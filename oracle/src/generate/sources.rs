//! Small sources: programs by the grammar, soups of telling parts, and damaged copies.

use super::{Rng, nests};

/// Parts that meet every rule of reading and their edges.
pub const PARTS: [&str; 96] = [
    "{",
    "}",
    "(",
    ")",
    "<",
    ">",
    ",",
    ":",
    "=",
    ";",
    "'",
    "\"",
    "''",
    "\"\"",
    "$",
    "$ENTRY",
    "$EXTERN",
    "$EXTRN",
    "$EXTERNAL",
    "$ENTRYX",
    "$entry",
    "$EXT",
    "A",
    "Z",
    "Go",
    "B1",
    "F-x",
    "F_x",
    "Abcdefghijklmno",
    "Abcdefghijklmnop",
    "a",
    "s",
    "t",
    "e",
    "s.",
    "t.",
    "e.",
    "s1",
    "tX",
    "eA",
    "s.1",
    "t.abc",
    "e.A-b_C",
    "s.abcdefghijklmno",
    "e.abcdefghijklmnop",
    "_",
    "-",
    "+",
    "-a",
    "_A",
    "0",
    "7",
    "42",
    "4294967295",
    "4294967296",
    "0004294967295",
    "0004294967296",
    "99999999999999999999999",
    "00000000000000000000000",
    "1.",
    "1.5",
    "1E",
    "1E5",
    "1.5E10",
    "1E5.2",
    "1.E5",
    "+1",
    "-1",
    "+1.5",
    "-2E3",
    "+1.",
    ".5",
    ".",
    "*",
    "\n*",
    "\n *",
    " *",
    "\n\u{a0}*",
    "/*",
    "*/",
    "/**/",
    "/*/",
    "/* x */",
    "/",
    "\n",
    "\r\n",
    "\r",
    "\t",
    " ",
    "\u{85}",
    "\u{2028}",
    "\u{3000}",
    "é",
    "漢",
    "😀",
    "'ab'",
];

/// A few parts set side by side, with or without spaces.
pub fn soup(rng: &mut Rng, most: usize) -> String {
    let mut text = String::new();
    let spaced = rng.once_in(2);
    for _ in 0..rng.within(0, most) {
        text.push_str(rng.pick(&PARTS));
        if spaced && rng.once_in(2) {
            text.push(if rng.once_in(4) { '\n' } else { ' ' });
        }
    }
    text
}

/// A program by the grammar, with gaps of every kind; reading and parsing accept it. In every second
/// one no `;` is left off, so that the original can be asked.
pub fn program(rng: &mut Rng, items: usize) -> String {
    let leaves_off = rng.once_in(2);
    let mut maker = Maker {
        rng,
        leaves_off,
        text: String::new(),
    };
    for _ in 0..items {
        maker.item();
    }
    maker.gap();
    maker.text
}

/// The program with a sign after the `E` of each of its numbers.
pub fn signed_exponents(program: &str) -> String {
    program.replace("E10", "E+10").replace("E3", "E-3")
}

/// A copy with a few places cut, doubled, swapped, changed or put in, or a `;` left out.
pub fn damaged(rng: &mut Rng, good: &[u8]) -> Vec<u8> {
    let mut bytes = good.to_vec();
    for _ in 0..rng.within(1, 3) {
        let at = rng.below(bytes.len() + 1);
        let end = (at + rng.within(1, 4)).min(bytes.len());
        match rng.below(8) {
            0 => drop(bytes.drain(at..end)),
            1 => {
                let part = bytes[at..end].to_vec();
                bytes.splice(at..at, part);
            }
            2 => {
                let part = rng.pick(&PARTS);
                bytes.splice(at..at, part.bytes());
            }
            3 => {
                let part = rng.pick(&PARTS);
                bytes.splice(at..end, part.bytes());
            }
            4 if end < bytes.len() => bytes.swap(at, end),
            5 if at < bytes.len() => bytes[at] ^= 1 << rng.below(8),
            6 => {
                if let Some(next) = bytes[at..].iter().position(|&byte| byte == b';') {
                    bytes.remove(at + next);
                }
            }
            _ => bytes.truncate(at),
        }
    }
    bytes
}

/// Any of the ways above, as bytes.
pub fn any(rng: &mut Rng) -> Vec<u8> {
    match rng.below(11) {
        10 => limits(rng).into_bytes(),
        0 | 1 => soup(rng, 8).into_bytes(),
        2 => soup(rng, 30).into_bytes(),
        3 | 4 => program(rng, 2).into_bytes(),
        5..=7 => {
            let good = program(rng, 2).into_bytes();
            damaged(rng, &good)
        }
        8 => {
            let depth = rng.within(60, 68);
            let ways = nests::ways(rng, depth);
            let mut source = nests::nested(&ways).0;
            if rng.once_in(3) {
                source = nests::left_off(rng, &source);
            }
            let source = source.into_bytes();
            if rng.once_in(3) {
                damaged(rng, &source)
            } else {
                source
            }
        }
        _ => (0..rng.within(0, 12)).map(|_| byte(rng)).collect(),
    }
}

/// Something about as long as may be, with something before and after.
fn limits(rng: &mut Rng) -> String {
    let middle = match rng.below(4) {
        0 => {
            let part = rng.pick(&["a", "''", "é", "漢", "😀", "\"", "a\u{a0}"]);
            let length = rng.within(250, 260);
            let close = rng.pick(&["'", "'", "'", "", "\n'", "''"]);
            format!("'{}{close}", part.repeat(length))
        }
        1 => format!(
            "A{}",
            rng.pick(&["b", "-", "_", "9"]).repeat(rng.within(12, 17))
        ),
        2 => {
            let letter = rng.pick(&["s", "t", "e"]);
            format!(
                "{letter}.{}",
                rng.pick(&["b", "-", "_", "9"]).repeat(rng.within(12, 17))
            )
        }
        _ => {
            let value = 4_294_967_200 + rng.below(200);
            format!("{}{value}", "0".repeat(rng.below(30)))
        }
    };
    format!("{}{middle}{}", soup(rng, 2), soup(rng, 2))
}

/// A byte, more often one that means something.
fn byte(rng: &mut Rng) -> u8 {
    const TELLING: &[u8] =
        b"{}()<>,:=;'\"$ENTRYste.Aaz09+-_*/\n \r\t\xc2\xa0\xe2\x80\xa8\xf0\x9f\x98";
    if rng.once_in(4) {
        rng.bits() as u8
    } else {
        TELLING[rng.below(TELLING.len())]
    }
}

struct Maker<'a> {
    rng: &'a mut Rng,
    /// Whether a last sentence's `;` may be left off.
    leaves_off: bool,
    text: String,
}

const GAPS: [&str; 12] = [
    " ",
    "  ",
    "\n",
    "\r\n",
    "\t",
    "\u{a0}",
    "\u{2003}",
    "\n* star\n",
    "\n  *x\n",
    "/* c */",
    "/***/",
    "\n\u{3000}*\n",
];

impl Maker<'_> {
    fn gap(&mut self) {
        while self.rng.once_in(3) {
            let gap = self.rng.pick(&GAPS);
            self.text.push_str(gap);
        }
    }

    /// A token, parted from the one before where the two would run together.
    fn put(&mut self, token: &str) {
        let before = self.text.len();
        self.gap();
        let joins = |c: char| c.is_ascii_alphanumeric() || "_-.+'\"$".contains(c);
        let runs_on = self.text.ends_with(joins) && token.starts_with(joins);
        if self.text.len() == before && runs_on {
            self.text.push(' ');
        }
        self.text.push_str(token);
    }

    fn name(&mut self) {
        let name = self.rng.pick(&[
            "A",
            "Go",
            "F-1",
            "Prout",
            "Add_Up",
            "ZZ9",
            "Abcdefghijklmno",
            "X",
            "Card",
            "B",
        ]);
        self.put(name);
    }

    fn item(&mut self) {
        while self.rng.once_in(4) {
            self.put(";");
        }
        if self.rng.once_in(4) {
            let word = self.rng.pick(&["$EXTRN", "$EXTERN", "$EXTERNAL"]);
            self.put(word);
            self.name();
            while self.rng.once_in(2) {
                self.put(",");
                self.name();
            }
            self.put(";");
            return;
        }
        if self.rng.once_in(3) {
            self.put("$ENTRY");
        }
        self.name();
        self.body(3, 2);
    }

    /// At most so many sentences in braces; every second last one's `;` is left off where that may
    /// be.
    fn body(&mut self, most: usize, blocks: usize) {
        self.put("{");
        let count = self.rng.within(0, most);
        for left in (0..count).rev() {
            self.sentence(blocks);
            if left > 0 || !self.leaves_off || self.rng.once_in(2) {
                self.put(";");
            }
        }
        self.put("}");
    }

    /// A sentence without its `;`.
    fn sentence(&mut self, blocks: usize) {
        self.terms(2);
        while self.rng.once_in(3) {
            self.put(",");
            self.terms(2);
            self.put(":");
            if blocks > 0 && self.rng.once_in(3) {
                self.body(2, blocks - 1);
            } else {
                self.terms(2);
            }
        }
        self.put("=");
        if blocks > 0 && self.rng.once_in(4) {
            self.put(",");
            self.terms(2);
            self.put(":");
            self.body(2, blocks - 1);
        } else {
            self.terms(3);
        }
    }

    fn terms(&mut self, depth: usize) {
        for _ in 0..self.rng.within(0, 3) {
            self.term(depth);
        }
    }

    fn term(&mut self, depth: usize) {
        match self.rng.below(8) {
            0 => self.name(),
            1 => {
                let number = self
                    .rng
                    .pick(&["0", "42", "4294967295", "-1.5", "+2E10", "1.25E3"]);
                self.put(number);
            }
            2 => {
                let literal = self.rng.pick(&[
                    "'a'",
                    "'it''s'",
                    "\"x\"\"y\"",
                    "'é漢😀'",
                    "\" ' \"",
                    "'*/'",
                    "''''",
                ]);
                self.put(literal);
            }
            3 | 4 => {
                let variable = self.rng.pick(&[
                    "s1",
                    "tX",
                    "e.A",
                    "s.abc-D_1",
                    "e1e2",
                    "t.abcdefghijklmno",
                    "sAs2",
                ]);
                self.put(variable);
            }
            5 if depth > 0 => {
                self.put("(");
                self.terms(depth - 1);
                self.put(")");
            }
            6 if depth > 0 => {
                self.put("<");
                self.name();
                self.terms(depth - 1);
                self.put(">");
            }
            _ => self.put("A"),
        }
    }
}
