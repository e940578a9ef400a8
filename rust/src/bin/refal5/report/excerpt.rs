//! A source line as it is printed, with lines of marks under it.

/// The most characters of a source line that are printed.
const WIDTH: usize = 100;
/// Characters printed before the first mark where the line is cut.
const BEFORE: usize = 40;

/// A part of a source line fit to be printed: its characters with their columns on a terminal.
pub struct Excerpt {
    /// The number of the first character printed, counted from 0.
    first: usize,
    cells: Vec<(char, usize)>,
    /// The columns that are printed.
    width: usize,
    /// Whether the line goes on after them.
    goes_on: bool,
}

impl Excerpt {
    /// The part of a line that holds the character `around`, counted from 0.
    pub fn new(line: &[u8], around: usize) -> Self {
        let line = String::from_utf8_lossy(line);
        let first = match line.char_indices().nth(WIDTH) {
            Some(_) => around.saturating_sub(BEFORE),
            None => 0,
        };
        let mut rest = line.chars().skip(first);
        let mut width = 0;
        let cells = rest
            .by_ref()
            .take(WIDTH)
            .map(|character| {
                let column = width;
                width += columns(character);
                (character, column)
            })
            .collect();
        Self {
            first,
            cells,
            width,
            goes_on: rest.next().is_some(),
        }
    }

    /// The part, with `…` at either end where the line is longer.
    pub fn text(&self) -> String {
        let mut text = String::new();
        if self.first > 0 {
            text.push('…');
        }
        for &(character, _) in &self.cells {
            match character {
                '\t' => text.push_str("    "),
                other if refal5::cannot_be_seen(other) => text.push('\u{fffd}'),
                other => text.push(other),
            }
        }
        if self.goes_on {
            text.push('…');
        }
        text.truncate(text.trim_end().len());
        text
    }

    /// Whether the character, or the line's end, is in the part that is printed.
    pub fn holds(&self, character: usize) -> bool {
        (self.first..=self.first + self.cells.len()).contains(&character)
    }

    /// Spaces up to the character `start`, then marks up to `end`, at least one.
    pub fn marks(&self, start: usize, end: usize, mark: char) -> (String, String) {
        let left = self.column(start);
        let right = self.column(end).max(left + 1);
        let indent = left + usize::from(self.first > 0);
        (" ".repeat(indent), String::from(mark).repeat(right - left))
    }

    /// The column of a character, or of the end of what is printed.
    fn column(&self, character: usize) -> usize {
        let at = character.saturating_sub(self.first);
        self.cells.get(at).map_or(self.width, |cell| cell.1)
    }
}

/// The columns that a character takes on a terminal.
fn columns(character: char) -> usize {
    match u32::from(character) {
        0x09 => 4,
        _ if refal5::cannot_be_seen(character) => 1,
        0x300..=0x36f | 0x483..=0x489 | 0x20d0..=0x20f0 | 0xfe00..=0xfe0f => 0,
        0x1100..=0x115f
        | 0x2e80..=0x303e
        | 0x3041..=0x4dbf
        | 0x4e00..=0x9fff
        | 0xa000..=0xa4cf
        | 0xac00..=0xd7a3
        | 0xf900..=0xfaff
        | 0xfe30..=0xfe6f
        | 0xff00..=0xff60
        | 0xffe0..=0xffe6
        | 0x1f300..=0x1f64f
        | 0x1f900..=0x1f9ff
        | 0x20000..=0x3fffd => 2,
        _ => 1,
    }
}

#[cfg(test)]
mod tests {
    use super::*;

    fn shown(line: &str, start: usize, end: usize) -> [String; 2] {
        let excerpt = Excerpt::new(line.as_bytes(), start);
        let (indent, marks) = excerpt.marks(start, end, '^');
        [excerpt.text(), indent + &marks]
    }

    #[test]
    fn marks_stand_under_their_characters() {
        assert_eq!(shown("F{=A}", 4, 5), ["F{=A}", "    ^"]);
        assert_eq!(shown("F{=A}", 5, 5), ["F{=A}", "     ^"]);
        assert_eq!(shown("\t%", 1, 2), ["    %", "    ^"]);
        assert_eq!(shown("'字' %", 4, 5), ["'字' %", "     ^"]);
        assert_eq!(shown("e\u{301} %", 3, 4), ["e\u{301} %", "  ^"]);
        assert_eq!(shown("A\u{200b}B", 1, 2), ["A\u{fffd}B", " ^"]);
        assert_eq!(shown("", 0, 0), ["", "^"]);
    }

    #[test]
    fn long_lines_are_cut() {
        let line = format!("{}%{}", "A ".repeat(500), " B".repeat(500));
        let [text, marks] = shown(&line, 1000, 1001);
        assert!(text.starts_with('…') && text.ends_with('…'));
        assert_eq!(text.chars().count(), WIDTH + 2);
        let at = marks.chars().count() - 1;
        assert_eq!(text.chars().nth(at), Some('%'));
    }

    #[test]
    fn controls_are_not_sent_to_the_terminal() {
        assert_eq!(shown("\u{1b}[31m", 0, 1)[0], "\u{fffd}[31m");
    }
}
