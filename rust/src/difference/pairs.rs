//! Which of two lists of sentences differ, side by side.

use crate::Span;

/// Above so many comparisons, what lies between the first and the last difference is taken as changed.
const MOST: usize = 4_000_000;

type Pair = (Option<Span>, Option<Span>);

/// The sentences outside a longest common part, those that stand for each other in pairs.
pub(super) fn pairs(old: &[(String, Span)], new: &[(String, Span)]) -> Vec<Pair> {
    let same = |a: &(String, Span), b: &(String, Span)| a.0 == b.0;
    let start = old.iter().zip(new).take_while(|(a, b)| same(a, b)).count();
    let (old, new) = (&old[start..], &new[start..]);
    let end = old
        .iter()
        .rev()
        .zip(new.iter().rev())
        .take_while(|(a, b)| same(a, b))
        .count();
    let (old, new) = (&old[..old.len() - end], &new[..new.len() - end]);
    if old.len() * new.len() > MOST {
        let mut pairs = Vec::new();
        beside(old, new, &mut pairs);
        return pairs;
    }
    let lengths = lengths(old, new);
    let (mut a, mut b) = (0, 0);
    let (mut from_a, mut from_b) = (0, 0);
    let mut pairs = Vec::new();
    while a < old.len() && b < new.len() {
        if same(&old[a], &new[b]) {
            beside(&old[from_a..a], &new[from_b..b], &mut pairs);
            (a, b) = (a + 1, b + 1);
            (from_a, from_b) = (a, b);
        } else if lengths[a + 1][b] >= lengths[a][b + 1] {
            a += 1;
        } else {
            b += 1;
        }
    }
    beside(&old[from_a..], &new[from_b..], &mut pairs);
    pairs
}

/// For each pair of ends, how much the lists have in common from there on.
fn lengths(old: &[(String, Span)], new: &[(String, Span)]) -> Vec<Vec<u32>> {
    let mut lengths = vec![vec![0; new.len() + 1]; old.len() + 1];
    for a in (0..old.len()).rev() {
        for b in (0..new.len()).rev() {
            lengths[a][b] = if old[a].0 == new[b].0 {
                lengths[a + 1][b + 1] + 1
            } else {
                lengths[a + 1][b].max(lengths[a][b + 1])
            };
        }
    }
    lengths
}

/// Two runs side by side; what is left of the longer one stands alone.
fn beside(old: &[(String, Span)], new: &[(String, Span)], pairs: &mut Vec<Pair>) {
    for at in 0..old.len().max(new.len()) {
        let span = |list: &[(String, Span)]| list.get(at).map(|sentence| sentence.1);
        pairs.push((span(old), span(new)));
    }
}
