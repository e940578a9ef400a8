//! Linking: names equal by case, hyphen and underscore; the same name declared and defined; duplicates
//! within file one, within two and across; calls missing in one and in both, at every level; empty
//! files; 40 and 41 in each file; work words of every number that matters. Variables bound in a
//! pattern, in a call there, by a condition, in a block and used after it, equal by case, by letter and
//! index; blocks in conditions and endings, 64 levels deep; unbound in one file, in the other, in both.

use super::SEED;
use crate::cases::Case;
use crate::generate::{Rng, files, trees};
use crate::terms::NODE_WIDTH;

pub fn cases() -> Vec<Case> {
    let mut rng = Rng::new(SEED + 3);
    let mut cases = Vec::new();
    for (one, two) in PAIRS.into_iter().chain(VARIABLES) {
        let (one, two) = (tree(one), tree(two));
        put_around(&mut cases, &one, &two);
        put_around(&mut cases, &two, &one);
    }
    for deep in 1..=64 {
        for last in ["e.1", "e.2"] {
            for (from, to) in [("e.1,A:{", "=e.1;}"), ("e.1=,A:{", ";}")] {
                let nested = nested(deep, from, last, to);
                put(&mut cases, &tree(&nested), &tree(""), 0);
                put(&mut cases, &tree(""), &tree(&nested), 4 * nested.len());
            }
        }
    }
    for file in [tree("F{=<G>;}"), tree("$EXTRN F;G{}")] {
        for damaged in spoiled(&file) {
            for other in [tree(""), tree("G{}"), damaged.clone()] {
                put(&mut cases, &damaged, &other, 0);
                put(&mut cases, &other, &damaged, 99);
            }
        }
    }
    let declared = files::declarations();
    for _ in 0..200 {
        let one = files::any(&mut rng, 3);
        let two = if rng.once_in(2) {
            declared.clone()
        } else {
            files::any(&mut rng, 3)
        };
        let rows = (one.0.len() + two.0.len()) / NODE_WIDTH;
        let lent = rng.below(3 * rows + 2);
        put(&mut cases, &one, &two, lent);
        put(&mut cases, &two, &one, 2 * rows);
    }
    cases
}

type File = (Vec<u32>, Vec<u8>);

/// Variables: what binds, what is in force where, and what is equal.
const VARIABLES: [(&str, &str); 46] = [
    ("F{=e.1;}", ""),
    ("F{}", "G{=e.1;}"),
    ("F{=e.1;}", "G{=s.1;}"),
    ("F{=<L e.1>;}", ""),
    ("F{=e.1;}", "G{=<L>;}"),
    ("F{e.1=e.1;}", "G{s.1=s.1;}"),
    ("F{e.1 e.1=e.1 e.1;}", ""),
    ("F{(<F (e.1)>)=(<F e.1>);}", ""),
    ("F{e.a=e.A;}", ""),
    ("F{e.A-b=e.a-B;}", ""),
    ("F{e.a-b=e.a_b;}", ""),
    ("F{e.a_b=e.a-b;}", ""),
    ("F{e.a=s.a;}", ""),
    ("F{s.1=t.1;}", ""),
    ("F{t.1=s.1;}", ""),
    ("F{e.1=e.11;}", ""),
    ("F{e.11=e.1;}", ""),
    ("F{s1=s.1;}", ""),
    ("F{s1=s.1x;}", ""),
    ("F{e.1=;=e.1;}", ""),
    ("F{e.1=;}G{=e.1;}", ""),
    ("G{=e.1;}F{e.1=;}", ""),
    ("F{,e.1:e.1=;}", ""),
    ("F{,A:e.1=e.1;}", ""),
    ("F{,A:e.1,e.1:e.2=e.1 e.2;}", ""),
    ("F{,e.2:e.1,A:e.2=;}", ""),
    ("F{e.1,e.1:{e.2=e.1 e.2;}=e.2;}", ""),
    ("F{e.1,e.1:{e.2=e.2;}=e.1;}", ""),
    ("F{e.1,e.1:{e.2=e.2;},e.2:e.3=;}", ""),
    ("F{e.1,e.1:{e.2=e.2;},A:e.2=e.2;}", ""),
    ("F{e.1,A:{=e.2;},A:e.2=;}", ""),
    ("F{e.1,e.2:{e.2=;}=;}", ""),
    ("F{e.1,A:{e.2,A:{e.3=e.1 e.2 e.3;}=e.3;}=;}", ""),
    ("F{e.1=,e.1:{e.2=e.1 e.2;};}", ""),
    ("F{e.1=,e.2:{e.2=;};}", ""),
    ("F{e.1=,e.1:{e.2=;=e.2;};}", ""),
    ("F{e.1=,e.1:{e.2=,e.2:{e.3=e.1 e.2 e.3;};};}", ""),
    ("F{e.1=,e.1:{e.2=,e.2:{e.3=;=e.3;};};}", ""),
    ("F{e.1=,e.1:{e.1=e.1;=e.1;};=e.1;}", ""),
    ("F{e.1=,e.1:{,A:e.2=e.2;=e.2;};}", ""),
    ("F{e.1=,e.1:{e.1=}}", ""),
    ("F{e.1,<F e.1>:<F e.2>=<F e.2>;}", ""),
    ("F{'e.1' e1=e1 'e.2';}", ""),
    ("F{e.1=<F <F s.1>>;}", "G{=e.1;}"),
    ("F{=s.1 s.2;}", ""),
    ("F{,s.2:{=s.1;}=s.3;}", ""),
];

const PAIRS: [(&str, &str); 30] = [
    ("", ""),
    ("$ENTRY Go{=;}", ""),
    ("$ENTRY Go{=<Go>;}", ""),
    ("$ENTRY Go{=<GO>;}", "$EXTRN Go;"),
    ("F{e.1=<Sort-It e.1>;}", "SORT_IT{e.1=e.1;}"),
    ("F{e.1=<Sort_it e.1>;}", "$EXTRN A,SORT-IT,B;"),
    ("F{=<Sort--it>;}", "Sort_-it{}"),
    ("F{=<Sort->;}", "Sort_{}"),
    ("F{=<Sort>;}", "Sort-{}"),
    ("F{=<F1><F2>;}", "F1{}F2{}"),
    ("F{=<F1><F2>;}", "F1{}F3{}"),
    ("F{=<G>;}$EXTRN G;", "G{}"),
    ("$EXTRN F;F{}", "$EXTRN F,F;"),
    ("$EXTRN Fa,FA;", "$EXTRN Fa;"),
    ("F{}F{}", ""),
    ("Fa{}G{}FA{}", "G{}"),
    ("Ab-c{}G{}AB_C{}G{}", "G{}"),
    ("F{}", "G{}F{}"),
    ("F{}", "G{}G{}F{}"),
    ("F{=<G>;}F{}", "H{=<G>;}"),
    ("F{=<A>;}", "G{=<B>;}"),
    ("F{=<G>;}", "G{=<A>;}"),
    ("F{=<G <H <A>>>;}", "G{}H{}"),
    ("F{(<G (<A>)>)=;}", "$EXTRN G;"),
    ("F{e.1,<G>:e.2=;}", "$EXTRN G;"),
    ("F{e.1,e.1:<G e.2>=;}", "$EXTRN H;"),
    ("F{,A:{<G>=<H>;=<G>;}=<F>;}", "$EXTRN G,H;"),
    ("F{,A:{<G>=<H>;=<K>;}=<F>;}", "$EXTRN G,H;"),
    ("F{=,<G>:{A=<H>;=,B:{=<F>;};};}", "$EXTRN G,H;"),
    ("F{=,<G>:{A=<H>;=,B:{=<L>;};};}", "$EXTRN G,H;"),
];

/// A function with so many blocks in one another, and a sentence in the innermost.
fn nested(deep: usize, from: &str, last: &str, to: &str) -> String {
    format!("F{{{}={last};{}}}", from.repeat(deep), to.repeat(deep))
}

fn tree(src: &str) -> File {
    let (rows, src) = trees::of_source(src.as_bytes().to_vec());
    (trees::flat(&rows), src)
}

/// Trees that get 40, and trees that get 41: each word changed, words cut off, the source cut.
fn spoiled((words, src): &File) -> Vec<File> {
    let mut all = Vec::new();
    for at in 0..words.len() {
        let mut words = words.clone();
        words[at] = words[at].wrapping_add(1);
        all.push((words, src.clone()));
    }
    all.push((words[1..].to_vec(), src.clone()));
    all.push((words.clone(), src[..src.len() - 1].to_vec()));
    all.push((words.clone(), Vec::new()));
    all
}

fn put(cases: &mut Vec<Case>, one: &File, two: &File, lent: usize) {
    cases.push(Case::Link {
        tree1: one.0.clone(),
        src1: one.1.clone(),
        tree2: two.0.clone(),
        src2: two.1.clone(),
        lent,
    });
}

/// No work words, one, as many as rows and one less and more, the number that the header names, more.
fn put_around(cases: &mut Vec<Case>, one: &File, two: &File) {
    let rows = (one.0.len() + two.0.len()) / NODE_WIDTH;
    for lent in [
        0,
        1,
        rows.saturating_sub(1),
        rows,
        rows + 1,
        rows + 2,
        2 * rows,
        2 * rows + 5,
    ] {
        put(cases, one, two, lent);
    }
}

#[cfg(test)]
mod tests {
    use super::*;

    #[test]
    fn pairs_have_trees() {
        for src in PAIRS
            .iter()
            .chain(&VARIABLES)
            .flat_map(|&(one, two)| [one, two])
        {
            assert_eq!(tree(src).0.is_empty(), src.is_empty(), "{src}");
        }
    }
}
