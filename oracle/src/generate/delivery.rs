//! Deliveries: rule files as a supplier's generator writes them, and hostile files.

use super::Rng;
use crate::terms::MAX_DEPTH;

/// A rule file that reading and parsing accept, of exactly `size` bytes (white space fills the rest).
pub fn delivery(seed: u64, size: usize) -> String {
    let mut maker = Maker {
        rng: Rng::new(seed),
        text: String::with_capacity(size + 4096),
    };
    maker.text.push_str("* Rules of one delivery.\n");
    maker.declaration();
    let mut kept = if maker.text.len() <= size {
        maker.text.len()
    } else {
        0
    };
    while maker.text.len() < size {
        kept = maker.text.len();
        maker.item();
    }
    if maker.text.len() > size {
        maker.text.truncate(kept);
    }
    while maker.text.len() < size {
        maker.text.push(if maker.text.len() % 64 == 63 {
            '\n'
        } else {
            ' '
        });
    }
    maker.text
}

/// Hostile files that reading takes whole, by name.
pub const HOSTILE: [&str; 22] = [
    "stars",
    "spaced-stars",
    "block-comments",
    "one-block-comment",
    "slashes-in-comment",
    "quotes",
    "long-literals",
    "utf8-literals",
    "white-space",
    "newlines",
    "wide-white-space",
    "long-names",
    "short-names",
    "marks",
    "numbers",
    "nests",
    "empty-sentences",
    "short-sentences",
    "code-tables",
    "declared-names",
    "words",
    "bracketed-names",
];

/// A hostile file of about `size` bytes; never more.
pub fn hostile(name: &str, size: usize) -> String {
    match name {
        "stars" => repeat("", "*\n", "", size),
        "spaced-stars" => repeat("", "\n        *******", "\n", size),
        "block-comments" => repeat("", "/**/", "", size),
        "one-block-comment" => repeat("/*", "*", "*/", size),
        "slashes-in-comment" => repeat("/*", "/", "*/", size),
        "quotes" => repeat("F {", &format!(" '{}'", "''".repeat(255)), " = ; }", size),
        "long-literals" => repeat("F {", &format!(" \"{}\"", "a".repeat(255)), " = ; }", size),
        "utf8-literals" => repeat("F {", " 'жёлтый 漢字 😀 é'", " = ; }", size),
        "white-space" => repeat("", " ", "", size),
        "newlines" => repeat("", "\n", "", size),
        "wide-white-space" => repeat("", "\u{3000}\u{2003}\u{a0}", "", size),
        "long-names" => repeat("F {", " Abcdefghijklm-9", " = ; }", size),
        "short-names" => repeat("F {", " A", " = ; }", size),
        "marks" => repeat("F {", "()", " = ; }", size),
        "numbers" => repeat("F {", " 4294967295 -12.5E07", " = ; }", size),
        "nests" => repeat("F {", &nest(), " = ; }", size),
        "empty-sentences" => repeat("F {", "=;", "}", size),
        "short-sentences" => repeat("F {", " A = B;", " }", size),
        "code-tables" => repeat("F {", "\n  'DE' = Germany; 25 = Keep 10;", "\n}", size),
        "declared-names" => repeat("$EXTRN A", ",A", ";", size),
        "words" => repeat("F {", " e.1 A", " = ; }", size),
        "bracketed-names" => repeat("F { =", "(A)", "; }", size),
        _ => panic!("no hostile file `{name}`"),
    }
}

/// As deep as may be, by brackets and calls in turn.
fn nest() -> String {
    let mut text = String::from(" ");
    for level in 0..MAX_DEPTH {
        text.push_str(if level % 2 == 0 { "(" } else { "<F " });
    }
    for level in (0..MAX_DEPTH).rev() {
        text.push(if level % 2 == 0 { ')' } else { '>' });
    }
    text
}

fn repeat(before: &str, part: &str, after: &str, size: usize) -> String {
    let room = size.saturating_sub(before.len() + after.len());
    format!("{before}{}{after}", part.repeat(room / part.len()))
}

const STEMS: [&str; 24] = [
    "Match", "Scan", "Field", "Invoice", "Letter", "Date", "Sum", "Check", "Norm", "Split", "Join",
    "Head", "Tail", "Order", "Client", "Line", "Total", "Page", "Mark", "Code", "Form", "Case",
    "Rule", "Key",
];
const INDICES: [&str; 16] = [
    "A",
    "B",
    "X",
    "Line",
    "rest",
    "Head",
    "Tail",
    "Value",
    "name",
    "Acc",
    "Sum",
    "text-part",
    "N_1",
    "left",
    "right",
    "Key",
];
const PHRASES: [&str; 16] = [
    "INVOICE",
    "Total:",
    "EUR",
    "No. ",
    ", ",
    "client",
    "of",
    "Jimmy''s Pizza",
    "=",
    "Straße",
    "дата",
    "page 1",
    "***",
    "/* no comment */",
    "€",
    "VAT 19%",
];

struct Maker {
    rng: Rng,
    text: String,
}

impl Maker {
    fn put(&mut self, text: &str) {
        self.text.push_str(text);
    }

    fn name(&mut self) -> String {
        let mut name = self.rng.pick(&STEMS).to_string();
        match self.rng.below(4) {
            0 => name.push_str(self.rng.pick(&STEMS)),
            1 => name.push_str(&format!("-{}", self.rng.below(1000))),
            2 => name.push_str(&format!("_{}", self.rng.pick(&STEMS).to_lowercase())),
            _ => (),
        }
        name.truncate(15);
        name
    }

    fn item(&mut self) {
        match self.rng.below(20) {
            0 => self.declaration(),
            1 => self.put("\n/* Rules below were checked\n   against the archive. */\n"),
            _ => self.function(),
        }
    }

    fn declaration(&mut self) {
        let word = self.rng.pick(&["$EXTRN ", "$EXTERN ", "$EXTERNAL "]);
        self.put(word);
        for place in 0..self.rng.within(1, 5) {
            if place > 0 {
                self.put(", ");
            }
            let name = self.name();
            self.put(&name);
        }
        self.put(";\n");
    }

    fn function(&mut self) {
        if self.rng.once_in(2) {
            self.put("\n* A rule for one field of the page, then its parts.\n");
        }
        if self.rng.once_in(6) {
            self.put("$ENTRY ");
        }
        let name = self.name();
        self.put(&name);
        self.put(" {\n");
        for _ in 0..self.rng.within(1, 8) {
            self.sentence(1);
        }
        self.put("}\n");
    }

    fn indent(&mut self, level: usize) {
        for _ in 0..level {
            self.put("  ");
        }
    }

    fn sentence(&mut self, level: usize) {
        if self.rng.once_in(8) {
            self.indent(level);
            self.put("* the next one holds for the last line only\n");
        }
        self.indent(level);
        self.terms(4, 2, false);
        while self.rng.once_in(4) {
            self.put(",\n");
            self.indent(level + 2);
            self.terms(3, 2, true);
            self.put(" : ");
            if level < 4 && self.rng.once_in(6) {
                self.block(level);
            } else {
                self.terms(3, 1, false);
            }
        }
        self.put(" = ");
        if level < 4 && self.rng.once_in(12) {
            self.put(", ");
            self.terms(2, 1, true);
            self.put(" : ");
            self.block(level);
        } else {
            self.terms(5, 3, true);
        }
        self.put(";\n");
    }

    fn block(&mut self, level: usize) {
        self.put("{\n");
        for _ in 0..self.rng.within(1, 3) {
            self.sentence(level + 2);
        }
        self.indent(level + 1);
        self.put("}");
    }

    fn terms(&mut self, most: usize, depth: usize, calls: bool) {
        for place in 0..self.rng.within(0, most) {
            if place > 0 {
                self.put(" ");
            }
            self.term(depth, calls);
        }
    }

    fn term(&mut self, depth: usize, calls: bool) {
        match self.rng.below(14) {
            0..=4 => self.variable(),
            5 | 6 => {
                let name = self.name();
                self.put(&name);
            }
            7 | 8 => {
                let phrase = self.rng.pick(&PHRASES);
                self.put("'");
                self.put(phrase);
                self.put("'");
            }
            9 => self.number(),
            10 | 11 if depth > 0 => {
                self.put("(");
                self.terms(3, depth - 1, calls);
                self.put(")");
            }
            12 | 13 if calls && depth > 0 => {
                let name = self.name();
                self.put("<");
                self.put(&name);
                self.put(" ");
                self.terms(3, depth - 1, calls);
                self.put(">");
            }
            _ => self.variable(),
        }
    }

    fn variable(&mut self) {
        let letter = self.rng.pick(&["s", "t", "e", "e"]);
        self.put(letter);
        if self.rng.once_in(3) {
            let digit = self.rng.within(1, 9).to_string();
            self.put(&digit);
        } else {
            let index = self.rng.pick(&INDICES);
            self.put(".");
            self.put(index);
        }
    }

    fn number(&mut self) {
        let value = self.rng.below(1 << 20);
        let text = match self.rng.below(4) {
            0 => format!("{value}.{:02}", self.rng.below(100)),
            1 => format!("-{}.5E{}", value % 1000, self.rng.below(12)),
            _ => value.to_string(),
        };
        self.put(&text);
    }
}

#[cfg(test)]
mod tests {
    use super::*;
    use crate::reference::{parse, read};

    fn flat(rows: &[[u32; 6]]) -> Vec<u32> {
        rows.iter().flatten().copied().collect()
    }

    #[test]
    fn deliveries_are_accepted() {
        for (seed, size) in [(1, 0), (1, 10), (2, 4096), (3, 65_536)] {
            let text = delivery(seed, size);
            assert_eq!(text.len(), size);
            let tokens = read::tokens(text.as_bytes()).expect("read");
            parse::tree(&flat(&tokens)).expect("parsed");
        }
    }

    #[test]
    fn hostile_files_are_accepted() {
        for name in HOSTILE {
            let text = hostile(name, 8192);
            assert!(text.len() <= 8192 && text.len() > 4096, "{name}");
            let tokens = read::tokens(text.as_bytes()).expect(name);
            parse::tree(&flat(&tokens)).expect(name);
        }
    }
}
