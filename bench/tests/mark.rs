//! The mark answers as the reference does: what is measured is the same work.

use bench::mark;
use compare::runs::{Size, compare};
use oracle::cases::{Case, Functions, Reference};
use oracle::reference::link::File;
use oracle::terms::Answer;

struct Mark;

impl Functions for Mark {
    fn canonical_name(&self, name: &[u8], out: &mut [u8]) -> Answer {
        Reference.canonical_name(name, out)
    }
    fn canonical_index(&self, name: &[u8], out: &mut [u8]) -> Answer {
        Reference.canonical_index(name, out)
    }
    fn names_equal(&self, a: &[u8], b: &[u8]) -> bool {
        Reference.names_equal(a, b)
    }
    fn read(&self, src: &[u8], rows: &mut [u32]) -> Answer {
        mark::read(src, rows)
    }
    fn parse(&self, tokens: &[u32], rows: &mut [u32]) -> Answer {
        mark::parse(tokens, rows)
    }
    fn write(&self, tree: &[u32], src: &[u8], out: &mut [u8]) -> Answer {
        Reference.write(tree, src, out)
    }
    fn link(&self, one: File<'_>, two: File<'_>, work: &mut [u32]) -> Answer {
        Reference.link(one, two, work)
    }
}

#[test]
fn answers_as_the_reference() {
    let size = Size {
        source_parts: 3,
        tokens: 2,
        random: 60_000,
    };
    let has = |case: &Case| matches!(case, Case::Read { .. } | Case::Parse { .. });
    compare(&Mark, has, 2, size, |_| ()).unwrap_or_else(|found| panic!("{found}"));
}
