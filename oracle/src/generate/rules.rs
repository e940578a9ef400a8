//! Deliveries of one pattern: a rule generator writes the same few sentences over and over, with other words in them.

use super::Rng;

/// A rule file that reading and parsing accept, of exactly `size` bytes (white space fills the rest).
pub fn rules(seed: u64, size: usize) -> String {
    made(seed, size, None)
}

/// The same with a number of its own for each class, and calls of classes that are there: linking accepts it.
pub fn linked(seed: u64, size: usize) -> String {
    made(seed, size, Some(0))
}

fn made(seed: u64, size: usize, numbered: Option<usize>) -> String {
    let mut maker = Maker {
        rng: Rng::new(seed),
        numbered,
        text: String::from("* Stamps for incoming pages.\n$EXTRN Stamp, Keep, Year, Trim, Next;\n"),
    };
    let mut kept = if maker.text.len() <= size {
        maker.text.len()
    } else {
        0
    };
    while maker.text.len() < size {
        kept = maker.text.len();
        maker.class();
    }
    if maker.text.len() > size {
        maker.text.truncate(kept);
    }
    while maker.text.len() < size {
        let full = maker.text.len() % 64 == 63;
        maker.text.push(if full { '\n' } else { ' ' });
    }
    maker.text
}

const WORDS: [&str; 32] = [
    "Invoice",
    "No.",
    "Total",
    "due",
    "by",
    "account",
    "Rechnung",
    "Straße",
    "contract",
    "of",
    "employment",
    "notice",
    "Kündigung",
    "page",
    "annex",
    "to",
    "the",
    "file",
    "tax",
    "return",
    "receipt",
    "for",
    "VAT",
    "19%",
    "EUR",
    "client's",
    "copy",
    "minutes",
    "board",
    "meeting",
    "signed",
    "draft",
];
const FIELDS: [&str; 8] = ["Page", "Rest", "Head", "Tail", "Name", "No", "Date", "Sum"];

struct Maker {
    rng: Rng,
    /// How many classes there are, where each has a number of its own.
    numbered: Option<usize>,
    text: String,
}

impl Maker {
    fn put(&mut self, text: &str) {
        self.text.push_str(text);
    }

    /// One retention class: a comment, its sentences, and the one that hands on.
    fn class(&mut self) {
        let number = self.numbered.unwrap_or_else(|| self.rng.below(1000));
        self.put(&format!(
            "\n* Retention class {number}.\nClass-{number} {{\n"
        ));
        for _ in 0..self.rng.within(4, 16) {
            self.sentence(number);
        }
        // A class that does not fit at the end is left out: no other calls it.
        let next = self
            .rng
            .below(self.numbered.map_or(1000, |count| count + 1));
        self.numbered = self.numbered.map(|count| count + 1);
        self.put(&format!("  e.Page = <Class-{next} e.Page>;\n}}\n"));
    }

    fn sentence(&mut self, class: usize) {
        let words = self.words();
        let years = self.rng.within(2, 30);
        let field = self.rng.pick(&FIELDS);
        let text = match self.rng.below(16) {
            0..=7 => format!("e.1 '{words}' e.2 = <Stamp Class-{class} (e.1) e.2>;"),
            8..=10 => format!("e.1 '{words}' s.{field} e.2 = <Keep {years} (s.{field}) e.1 e.2>;"),
            11 | 12 => {
                let more = self.words();
                format!(
                    "e.1 '{words}' e.{field} '{more}' e.2 = <Stamp Class-{class} (e.{field}) <Trim e.2>>;"
                )
            }
            13 | 14 => {
                format!(
                    "e.1 '{words}' e.2,\n      <Year e.2> : s.Year e.{field} = <Keep {years} (s.Year) e.1>;"
                )
            }
            _ => format!("(e.1) '{words}' e.2 = , <Next e.2> : {{ {years} = Shred; e.3 = e.1; }};"),
        };
        self.put("  ");
        self.put(&text);
        self.put("\n");
    }

    /// One to four words, as they stand within apostrophes.
    fn words(&mut self) -> String {
        let mut words = Vec::new();
        for _ in 0..self.rng.within(1, 4) {
            words.push(self.rng.pick(&WORDS).replace('\'', "''"));
        }
        words.join(" ")
    }
}

#[cfg(test)]
mod tests {
    use super::*;
    use crate::reference::{parse, read};

    #[test]
    fn rules_are_accepted() {
        for (seed, size) in [(1, 0), (1, 10), (2, 4096), (3, 65_536)] {
            for text in [rules(seed, size), linked(seed, size)] {
                assert_eq!(text.len(), size);
                let tokens = read::tokens(text.as_bytes()).expect("read");
                let rows: Vec<u32> = tokens.iter().flatten().copied().collect();
                parse::tree(&rows).expect("parsed");
            }
        }
    }
}
