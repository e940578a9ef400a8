//! Which name is spelled most alike to one that is missing.

/// The first of those that are fewest edits away, where these are at most one for three bytes of the name.
pub(super) fn nearest<T: Copy>(name: &str, names: &[(String, T)]) -> Option<T> {
    let mut best = None;
    let mut most = name.len() / 3;
    let mut edits = Edits::default();
    for (other, row) in names {
        if most == 0 {
            break;
        }
        if let Some(number) = edits.at_most(most, name.as_bytes(), other.as_bytes()) {
            best = Some(*row);
            // The next must be nearer.
            most = number.saturating_sub(1);
        }
    }
    best
}

/// Counts edits: bytes put in, left out, changed or exchanged with the next. Its rows are used again for the next name.
#[derive(Default)]
struct Edits {
    before: Vec<usize>,
    last: Vec<usize>,
    row: Vec<usize>,
}

impl Edits {
    /// The fewest edits that make one of the other, where they are at most so many.
    fn at_most(&mut self, most: usize, a: &[u8], b: &[u8]) -> Option<usize> {
        if a.len().abs_diff(b.len()) > most {
            return None;
        }
        let Self { before, last, row } = self;
        last.clear();
        last.extend(0..=b.len());
        for i in 0..a.len() {
            row.clear();
            row.push(i + 1);
            for j in 0..b.len() {
                let changed = last[j] + usize::from(a[i] != b[j]);
                let mut least = changed.min(last[j + 1] + 1).min(row[j] + 1);
                if i > 0 && j > 0 && a[i] == b[j - 1] && a[i - 1] == b[j] {
                    least = least.min(before[j - 1] + 1);
                }
                row.push(least);
            }
            // No later row has fewer than the fewer of two that follow each other.
            let fewest = row.iter().chain(last.iter()).min();
            if fewest.is_some_and(|&fewest| fewest > most) {
                return None;
            }
            std::mem::swap(before, last);
            std::mem::swap(last, row);
        }
        last.get(b.len()).copied().filter(|&number| number <= most)
    }
}

#[cfg(test)]
mod tests {
    use super::*;

    #[test]
    fn numbers_of_edits() {
        for (a, b, number) in [
            ("", "", 0),
            ("", "AB", 2),
            ("PRINT", "PRINT", 0),
            ("PRINT", "PRNIT", 1),
            ("PRINT", "PRIN", 1),
            ("PRINT", "SPRINT", 1),
            ("PRINT", "PAINT", 1),
            ("PRINT", "RPNIT", 2),
            ("STAMP", "KEEP", 4),
        ] {
            let mut edits = Edits::default();
            for (a, b) in [(a, b), (b, a)] {
                for most in 0..8 {
                    let found = edits.at_most(most, a.as_bytes(), b.as_bytes());
                    let expected = (number <= most).then_some(number);
                    assert_eq!(found, expected, "{a} {b} {most}");
                }
            }
        }
    }

    #[test]
    fn the_first_of_the_nearest() {
        let names = ["TRIM", "STEMP", "STAMPS", "STAMPING"].map(|name| (name.to_owned(), name));
        assert_eq!(nearest("STAMP", &names), Some("STEMP"));
        assert_eq!(nearest("STAMPIN", &names), Some("STAMPING"));
        assert_eq!(nearest("KEEP", &names), None);
        assert_eq!(nearest("TR", &names), None);
    }
}
