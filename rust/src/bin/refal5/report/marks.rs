//! Lines of a source with marks under them.

use refal5::Place;

use super::excerpt::Excerpt;
use crate::output::Style;

#[derive(Debug, Clone, Copy)]
pub enum Ink {
    Red,
    Blue,
    Green,
}

/// A place that is marked, with what is said of it.
pub struct Mark {
    place: Place,
    sign: char,
    label: String,
    ink: Ink,
}

impl Mark {
    pub fn new(place: Place, sign: char, label: String, ink: Ink) -> Self {
        Self {
            place,
            sign,
            label,
            ink,
        }
    }
}

/// Prints each mark under its line; a line is printed once for marks that follow each other on it, where it holds them.
pub fn draw(out: &mut String, source: &[u8], marks: &[Mark], style: Style) {
    let last = marks.iter().map(|mark| mark.place.line).max();
    let gutter = last.unwrap_or(1).to_string().len();
    let mut printed: Option<(usize, Excerpt)> = None;
    for mark in marks {
        let place = &mark.place;
        let again = printed
            .take()
            .filter(|(line, excerpt)| *line == place.line && excerpt.holds(place.column - 1));
        let (line, excerpt) = again.unwrap_or_else(|| {
            let excerpt = self::line(out, source, place, gutter, style);
            (place.line, excerpt)
        });
        under(out, source, &excerpt, mark, gutter, style);
        printed = Some((line, excerpt));
    }
}

/// Prints the line of a place with its number.
fn line(out: &mut String, source: &[u8], place: &Place, gutter: usize, style: Style) -> Excerpt {
    let excerpt = Excerpt::new(place.line_of(source), place.column - 1);
    let number = format!("{:>gutter$} |", place.line);
    let text = excerpt.text();
    *out += format!("  {} {text}", style.blue(&number)).trim_end();
    out.push('\n');
    excerpt
}

/// Prints a mark under the line last printed: under the part of its span that stands on its first line.
fn under(
    out: &mut String,
    source: &[u8],
    excerpt: &Excerpt,
    mark: &Mark,
    gutter: usize,
    style: Style,
) {
    let place = &mark.place;
    let span = source.get(place.span.start..place.span.end).unwrap_or(&[]);
    let on_line = span.split(|&byte| byte == b'\n').next().unwrap_or(&[]);
    let start = place.column - 1;
    let length = String::from_utf8_lossy(on_line).chars().count();
    let (indent, signs) = excerpt.marks(start, start + length, mark.sign);
    let text = format!("{signs} {}", mark.label);
    let text = match mark.ink {
        Ink::Red => style.red(&text),
        Ink::Blue => style.blue(&text),
        Ink::Green => style.green(&text),
    };
    let bar = style.blue(&format!("{:gutter$} |", ""));
    *out += format!("  {bar} {indent}{text}").trim_end();
    out.push('\n');
}
