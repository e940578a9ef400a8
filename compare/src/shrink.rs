//! Makes a failing call as small as it gets while it still fails.

use oracle::cases::Case;
use oracle::terms::{NO_PARENT, NODE_WIDTH};

/// One way to make a call smaller.
#[derive(Debug, Clone, Copy)]
enum Edit {
    /// Leaves out a run of the first input.
    Cut(usize, usize),
    /// Leaves out a run of the second input.
    CutSecond(usize, usize),
    /// Leaves out the same place of both.
    CutBoth(usize),
    /// Leaves out a tree's node and all below it, and puts the nexts right.
    Prune(usize, usize),
    /// The same of a second tree.
    PruneSecond(usize, usize),
    /// Makes a word 0.
    Zero(usize),
    /// Lends less.
    Lend(usize),
}

/// The smallest call found for which `fails` still holds.
pub fn shrink(case: Case, fails: impl Fn(&Case) -> bool) -> Case {
    let mut best = case;
    let mut edits = edits(&best);
    let mut at = 0;
    let mut missed = 0;
    while missed < edits.len() {
        at = if at < edits.len() { at } else { 0 };
        let smaller = apply(&best, edits[at]);
        if fails(&smaller) {
            best = smaller;
            edits = self::edits(&best);
            missed = 0;
        } else {
            at += 1;
            missed += 1;
        }
    }
    best
}

/// The edits of a call, the boldest first.
fn edits(case: &Case) -> Vec<Edit> {
    let mut edits = Vec::new();
    let mut lent = 0;
    match case {
        Case::Name { name, lent: l } | Case::Index { name, lent: l } => {
            cuts(name.len(), 1, Edit::Cut, &mut edits);
            lent = *l;
        }
        Case::Equal { a, b } | Case::Reals { a, b } => {
            cuts(a.len(), 1, Edit::Cut, &mut edits);
            cuts(b.len(), 1, Edit::CutSecond, &mut edits);
            edits.extend((0..a.len().min(b.len())).map(Edit::CutBoth));
        }
        Case::Read { src, lent: l } | Case::Real { text: src, lent: l } => {
            cuts(src.len(), 1, Edit::Cut, &mut edits);
            lent = *l;
        }
        Case::Parse { tokens, lent: l } => {
            cuts(tokens.len(), 6, Edit::Cut, &mut edits);
            words(tokens, &mut edits);
            lent = *l;
        }
        Case::Write { tree, src, lent: l } => {
            prunings(tree, Edit::Prune, &mut edits);
            cuts(tree.len(), NODE_WIDTH, Edit::Cut, &mut edits);
            words(tree, &mut edits);
            cuts(src.len(), 1, Edit::CutSecond, &mut edits);
            lent = *l;
        }
        Case::Link {
            tree1,
            tree2,
            lent: l,
            ..
        } => {
            prunings(tree1, Edit::Prune, &mut edits);
            prunings(tree2, Edit::PruneSecond, &mut edits);
            lent = *l;
        }
    }
    if lent > 1 {
        edits.push(Edit::Lend(lent / 2));
    }
    if lent > 0 {
        edits.push(Edit::Lend(lent - 1));
    }
    edits
}

/// Runs of rows of `width`: halves first, single rows last; short runs from every row on.
fn cuts(length: usize, width: usize, cut: fn(usize, usize) -> Edit, edits: &mut Vec<Edit>) {
    let rows = length / width;
    let mut size = rows;
    while size > 0 {
        let step = if size <= 8 { 1 } else { size };
        for start in (0..rows).step_by(step) {
            edits.push(cut(start * width, rows.min(start + size) * width));
        }
        size = if size <= 8 { size - 1 } else { size / 2 };
    }
}

fn words(words: &[u32], edits: &mut Vec<Edit>) {
    edits.extend((0..words.len()).map(|at| Edit::Cut(at, at + 1)));
    let nonzero = (0..words.len()).filter(|&at| words[at] != 0);
    edits.extend(nonzero.map(Edit::Zero));
}

fn prunings(tree: &[u32], prune: fn(usize, usize) -> Edit, edits: &mut Vec<Edit>) {
    let rows = tree.len() / NODE_WIDTH;
    for at in 0..rows {
        let end = tree[NODE_WIDTH * at + 6] as usize;
        if at < end && end <= rows {
            edits.push(prune(at, end));
        }
    }
}

fn apply(case: &Case, edit: Edit) -> Case {
    let mut case = case.clone();
    match &mut case {
        Case::Name { name: input, lent }
        | Case::Index { name: input, lent }
        | Case::Read { src: input, lent }
        | Case::Real { text: input, lent } => match edit {
            Edit::Cut(start, end) => drop(input.drain(start..end)),
            Edit::Lend(less) => *lent = less,
            _ => (),
        },
        Case::Equal { a, b } | Case::Reals { a, b } => match edit {
            Edit::Cut(start, end) => drop(a.drain(start..end)),
            Edit::CutSecond(start, end) => drop(b.drain(start..end)),
            Edit::CutBoth(at) => {
                a.remove(at);
                b.remove(at);
            }
            _ => (),
        },
        Case::Parse { tokens, lent } => match edit {
            Edit::Lend(less) => *lent = less,
            _ => edit_words(tokens, edit),
        },
        Case::Write { tree, src, lent } => match edit {
            Edit::Lend(less) => *lent = less,
            Edit::CutSecond(start, end) => {
                src.drain(start..end);
                // Texts that stand after the cut keep their bytes.
                for text in tree.iter_mut().skip(2).step_by(NODE_WIDTH) {
                    if *text as usize >= end {
                        *text -= (end - start) as u32;
                    }
                }
            }
            _ => edit_words(tree, edit),
        },
        Case::Link {
            tree1, tree2, lent, ..
        } => match edit {
            Edit::Lend(less) => *lent = less,
            Edit::PruneSecond(at, end) => edit_words(tree2, Edit::Prune(at, end)),
            _ => edit_words(tree1, edit),
        },
    }
    case
}

fn edit_words(words: &mut Vec<u32>, edit: Edit) {
    match edit {
        Edit::Cut(start, end) => drop(words.drain(start..end)),
        Edit::Zero(at) => words[at] = 0,
        Edit::Prune(at, end) => {
            words.drain(NODE_WIDTH * at..NODE_WIDTH * end);
            let moved = |row: &mut u32| {
                if *row as usize >= end && *row != NO_PARENT {
                    *row -= (end - at) as u32;
                }
            };
            for row in words.chunks_exact_mut(NODE_WIDTH) {
                // A row's next and its parent.
                row[6..].iter_mut().for_each(moved);
            }
        }
        _ => (),
    }
}

#[cfg(test)]
mod tests {
    use super::*;

    #[test]
    fn finds_the_smallest() {
        let case = Case::Read {
            src: b"F { A 'x' = <G 1> ; }".to_vec(),
            lent: 100,
        };
        let small = shrink(
            case,
            |case| matches!(case, Case::Read { src, .. } if src.contains(&b'<') && src.contains(&b';')),
        );
        let src = b"<;".to_vec();
        assert_eq!(small, Case::Read { src, lent: 0 });
        let case = Case::Parse {
            tokens: (0..60).collect(),
            lent: 9,
        };
        let small = shrink(
            case,
            |case| matches!(case, Case::Parse { tokens, .. } if tokens.contains(&44)),
        );
        let tokens = vec![44];
        assert_eq!(small, Case::Parse { tokens, lent: 0 });
    }
}
