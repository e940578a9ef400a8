//! Offsets of problems in UTF-16 units.

use refal5::Problem;

/// The units before some offsets of a source, counted in one pass.
pub struct Units {
    /// Offsets in bytes and in units, in order.
    known: Vec<(usize, usize)>,
}

impl Units {
    /// Counts at the offsets of these problems.
    pub fn new(source: &str, problems: &[Problem]) -> Self {
        let mut offsets: Vec<usize> = problems
            .iter()
            .flat_map(|problem| {
                let diagnosis = &problem.diagnosis;
                let (meant, shown) = (diagnosis.meant.span, diagnosis.shown.span);
                let gap = diagnosis
                    .gap
                    .map_or(meant.start, |gap| gap.place.span.start);
                [meant.start, meant.end, shown.start, shown.end, gap]
            })
            .map(|offset| offset.min(source.len()))
            .collect();
        offsets.sort_unstable();
        offsets.dedup();
        let (mut at, mut units) = (0, 0);
        let known = offsets
            .into_iter()
            .map(|offset| {
                units += source[at..offset].encode_utf16().count();
                at = offset;
                (offset, units)
            })
            .collect();
        Self { known }
    }

    /// The units before one of those offsets, or before the last.
    pub fn at(&self, offset: usize) -> usize {
        let after = self.known.partition_point(|known| known.0 <= offset);
        after.checked_sub(1).map_or(0, |at| self.known[at].1)
    }
}
