//! What is told of a source after its first refusal.

use oracle::generate::{Rng, sources};
use refal5::rows::{NodeRows, TokenRows};
use refal5::{Recovered, recover};

fn lines(recovered: &Recovered<'_>) -> Vec<(usize, u32, bool)> {
    let one = |problem: &refal5::Problem| {
        let diagnosis = &problem.diagnosis;
        (
            diagnosis.meant.line,
            diagnosis.refusal.number,
            problem.possibly,
        )
    };
    recovered.problems.iter().map(one).collect()
}

fn names(recovered: &Recovered<'_>) -> Vec<String> {
    let items = recovered.tree().items();
    items.map(|item| item.text().to_owned()).collect()
}

#[test]
fn a_source_that_is_accepted_is_whole() {
    let source = b"$EXTRN A, B;; F { 'ab' s1 = <A (s1)>; }\n$ENTRY Go { e1, e1 : { = ; } = ; }";
    let recovered = recover(source);
    assert!(recovered.problems.is_empty() && !recovered.stopped);
    let mut rows = TokenRows::new();
    let tokens = rows.read(source).unwrap();
    assert_eq!(recovered.tokens().words(), tokens.words());
    let mut nodes = NodeRows::new();
    let tree = nodes.parse(tokens).unwrap();
    assert_eq!(recovered.tree().words(), tree.words());
}

#[test]
fn what_is_kept_after_a_broken_item() {
    // The next $ENTRY or $EXTRN is searched from the broken item's second token on.
    let recovered = recover(b"$EXTRN $EXTRN A;\n$ENTRY $ENTRY G { }\n$ENTRY H { }");
    assert_eq!(lines(&recovered), [(1, 31, false), (2, 32, false)]);
    assert_eq!(names(&recovered), ["", "G", "H"]);
    // A name with a brace is a guess, and only what comes of it is possible.
    let recovered = recover(b"F { A }\nG { = A; }\nH { A }\n$ENTRY K { B }\nL { = ; }");
    assert_eq!(
        lines(&recovered),
        [(1, 34, false), (3, 34, true), (4, 34, false)]
    );
    assert_eq!(names(&recovered), ["G", "L"]);
    // Items before the broken one are kept, and a second problem inside it is not looked for.
    let recovered = recover(b"A { = ; } B { = ; }\nC { ) ( }\n");
    assert_eq!(lines(&recovered), [(2, 34, false)]);
    assert_eq!(names(&recovered), ["A", "B"]);
}

#[test]
fn what_is_kept_after_a_refusal_of_reading() {
    let recovered =
        recover(b"A { ) }\nB { = ; }\nC { = %; }\n  D = E;\nF\n{ = <G>; }\n$ENTRY Go { A }\n");
    assert_eq!(
        lines(&recovered),
        [(1, 34, false), (3, 10, false), (7, 34, true)]
    );
    assert_eq!(names(&recovered), ["B", "F"]);
    // All is in the source's own places.
    let call = recovered.tree().nodes().find(|node| node.text() == "G");
    assert_eq!(call.unwrap().span().start, 44);
    // An item is not reported as unfinished where reading stopped in it.
    let recovered = recover(b"F { = 'a; }\n");
    assert_eq!(lines(&recovered), [(1, 22, false)]);
    // Nothing is read after a comment that is not closed but what seems to follow it.
    let recovered = recover(b"F { = ; }\n/* G\nH { A }\n");
    assert_eq!(lines(&recovered), [(2, 24, false), (3, 34, true)]);
    // What is not UTF-8 ends it.
    let recovered = recover(b"F { = ; }\nG { ) }\nH { = \xff; }\nK { ) }\n");
    assert_eq!(lines(&recovered), [(2, 34, false), (3, 2, false)]);
    assert_eq!(names(&recovered), ["F"]);
}

#[test]
fn so_many_problems_are_enough() {
    for broken in ["F { ) }\n", "F { % }\n"] {
        let source = broken.repeat(1_000);
        let recovered = recover(source.as_bytes());
        assert_eq!(recovered.problems.len(), 200);
        assert!(recovered.stopped);
    }
}

/// Items that are right and items that are not, each after `$ENTRY`, in any order.
#[test]
fn each_broken_item_is_found_and_each_other_kept() {
    let right = ["R { = ; }", "R { s1, <G s1> : { = A; } = s1; };"];
    let wrong = [
        "W { A }",
        "W { = (A; }",
        "W = A;",
        "W W { = ; }",
        "W { A == B; }",
    ];
    let mut rng = Rng::new(7);
    for _ in 0..500 {
        let mut source = String::new();
        let (mut broken, mut kept) = (Vec::new(), 0);
        for line in 1..=rng.below(9) + 1 {
            let item = if rng.below(2) == 0 {
                kept += 1;
                right[rng.below(right.len())]
            } else {
                broken.push(line);
                wrong[rng.below(wrong.len())]
            };
            source += &format!("$ENTRY {item}\n");
        }
        let recovered = recover(source.as_bytes());
        let mut found: Vec<usize> = lines(&recovered)
            .iter()
            .filter(|problem| !problem.2)
            .map(|problem| problem.0)
            .collect();
        found.dedup();
        // A broken item's refusal may show at the next one's start.
        assert_eq!(found.len(), broken.len(), "{source}");
        let items = names(&recovered);
        let right = items.iter().filter(|name| *name == "R").count();
        assert_eq!(right, kept, "{source}");
    }
}

#[test]
fn random_sources() {
    let mut rng = Rng::new(31);
    for _ in 0..20_000 {
        let source = sources::any(&mut rng);
        let recovered = recover(&source);
        match refal5::check(&source) {
            Ok(accepted) => {
                assert!(recovered.problems.is_empty());
                assert_eq!(recovered.tree().len(), accepted.nodes);
            }
            // The library's own refusal is there, as certain as it is.
            Err(diagnosis) => assert!(
                recovered
                    .problems
                    .iter()
                    .any(|problem| problem.diagnosis == *diagnosis && !problem.possibly)
            ),
        }
        // What is kept is a lawful tree, which the library writes, reads and parses again.
        let text = recovered.tree().to_text().expect("the tree is lawful");
        let again = recover(text.as_bytes());
        assert!(again.problems.is_empty(), "{text:?}");
        assert_eq!(again.tree().len(), recovered.tree().len());
        assert_eq!(again.tree().to_text().unwrap(), text);
        let starts: Vec<usize> = recovered
            .problems
            .iter()
            .map(|problem| problem.diagnosis.meant.span.start)
            .collect();
        assert!(starts.is_sorted());
    }
}
