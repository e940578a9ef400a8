//! Notes on a source that is accepted.

use refal5::{About, Note};

use super::place_object;
use crate::json::array;
use crate::output::Style;

/// The most notes of a kind that are printed for people where there are more than one above.
const MOST: usize = 5;

/// A line for each note; of many of a kind, the first and then the number of the others.
pub fn text(file: &str, notes: &[Note], style: Style) -> String {
    let mut out = String::new();
    let mut seen: Vec<(About, usize)> = Vec::new();
    for note in notes {
        let at = seen.iter().position(|(about, _)| *about == note.about);
        let at = at.unwrap_or_else(|| {
            seen.push((note.about, 0));
            seen.len() - 1
        });
        seen[at].1 += 1;
        let word = style.blue("note:");
        let alike = |other: &&Note| other.about == note.about;
        let more = || notes.iter().filter(alike).count() - MOST;
        match seen[at].1 {
            number if number <= MOST || (number == MOST + 1 && more() == 1) => {
                let place = format!("{file}:{}:{}:", note.place.line, note.place.column);
                out += &format!("{} {word} {}\n", style.bold(&place), note.message);
            }
            number if number == MOST + 1 => {
                let place = style.bold(&format!("{file}:"));
                let more = more();
                out += &format!("{place} {word} {more} more like the last; --json lists all.\n");
            }
            _ => {}
        }
    }
    out
}

/// All notes for machines.
pub fn json(notes: &[Note]) -> String {
    let one = |note: &Note| {
        place_object(&note.place)
            .string("about", note.about.name())
            .string("message", &note.message)
            .end()
    };
    array(&notes.iter().map(one).collect::<Vec<_>>())
}
