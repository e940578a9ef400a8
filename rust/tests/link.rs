//! Linking two files: the library, and what the crate says of its refusals, against the definition written out plainly.

use oracle::generate::{Rng, sources};
use refal5::raw;
use refal5::rows::{Node, NodeKind, NodeRows, TokenRows, Tree};
use refal5::{
    LinkError, MOST_LINK_PROBLEMS, canonical_variable_index, identifiers_equal, link, link_problems,
};

/// Lends the trees of two sources.
fn with<T>(one: &str, two: &str, work: impl FnOnce(Tree<'_>, Tree<'_>) -> T) -> T {
    let (mut a, mut b) = (TokenRows::new(), TokenRows::new());
    let (mut c, mut d) = (NodeRows::new(), NodeRows::new());
    let one = c.parse(a.read(one.as_bytes()).unwrap()).unwrap();
    let two = d.parse(b.read(two.as_bytes()).unwrap()).unwrap();
    work(one, two)
}

/// The nodes of these kinds in both files, with their file.
fn rows<'a>(one: Tree<'a>, two: Tree<'a>, kinds: &[NodeKind]) -> Vec<(u32, Node<'a>)> {
    let of = |file: u32, tree: Tree<'a>| tree.nodes().map(move |node| (file, node));
    of(1, one)
        .chain(of(2, two))
        .filter(|(_, node)| kinds.contains(&node.kind()))
        .collect()
}

/// Number, file and start of each problem, every name compared with every other.
fn plainly(one: Tree<'_>, two: Tree<'_>) -> Vec<(u32, u32, usize)> {
    let equal =
        |a: &(u32, Node<'_>), b: &(u32, Node<'_>)| identifiers_equal(a.1.text(), b.1.text());
    let functions = rows(one, two, &[NodeKind::Function]);
    let bearers = rows(one, two, &[NodeKind::Function, NodeKind::Name]);
    let calls = rows(one, two, &[NodeKind::Call]);
    let lost = |call: &(u32, Node<'_>)| !bearers.iter().any(|bearer| equal(bearer, call));
    let mut found = Vec::new();
    for (at, function) in functions.iter().enumerate() {
        if functions[..at]
            .iter()
            .any(|earlier| equal(earlier, function))
        {
            found.push((60, function.0, function.1.span().start));
        }
    }
    for (at, call) in calls.iter().enumerate() {
        // A name that is missing is told of once.
        if lost(call) && !calls[..at].iter().any(|earlier| equal(earlier, call)) {
            found.push((61, call.0, call.1.span().start));
        }
    }
    for (file, tree) in [(1, one), (2, two)] {
        let unbound = unbound(tree);
        for (at, used) in unbound.iter().enumerate() {
            // A variable is told of once in a sentence.
            let told = |earlier: &Node<'_>| {
                same(*earlier, *used) && sentence(*earlier).index() == sentence(*used).index()
            };
            if !unbound[..at].iter().any(told) {
                found.push((62, file, used.span().start));
            }
        }
    }
    found
}

/// The sentence that a node is in, the innermost.
fn sentence(node: Node<'_>) -> Node<'_> {
    node.ancestors()
        .find(|node| node.kind() == NodeKind::Sentence)
        .unwrap()
}

fn same(a: Node<'_>, b: Node<'_>) -> bool {
    let index = |node: Node<'_>| canonical_variable_index(node.text());
    a.letter() == b.letter() && index(a) == index(b)
}

/// The sentence whose pattern, or whose condition's pattern, a variable stands in.
fn binds(variable: Node<'_>) -> Option<Node<'_>> {
    let terms = variable
        .ancestors()
        .find(|node| node.kind() == NodeKind::Terms)?;
    let around = terms.parent()?;
    let first = around.children().next()?.index() == terms.index();
    match (around.kind(), first) {
        (NodeKind::Sentence, true) => Some(around),
        (NodeKind::Condition, false) => around.parent(),
        _ => None,
    }
}

/// The uses at which no equal binding is in force, every use held against every binding.
fn unbound(tree: Tree<'_>) -> Vec<Node<'_>> {
    let variables: Vec<Node<'_>> = tree
        .nodes()
        .filter(|node| node.kind() == NodeKind::Variable)
        .collect();
    let in_force = |used: Node<'_>, binding: Node<'_>| {
        let end = binds(binding).map(|sentence| sentence.next());
        binding.index() < used.index()
            && end.is_some_and(|end| used.index() < end)
            && same(binding, used)
    };
    variables
        .iter()
        .copied()
        .filter(|&used| {
            binds(used).is_none() && !variables.iter().any(|&binding| in_force(used, binding))
        })
        .collect()
}

fn shape(error: &LinkError) -> (u32, u32, usize) {
    (
        error.refusal.number,
        error.refusal.found,
        error.refusal.span.start,
    )
}

#[test]
fn every_answer_is_the_definitions() {
    let mut rng = Rng::new(11);
    let mut seen = [0; 4];
    for _ in 0..1500 {
        let mut source = || {
            let items = rng.below(5);
            sources::program(&mut rng, items)
        };
        let (one, two) = (source(), source());
        with(&one, &two, |one, two| {
            let expected = plainly(one, two);
            let problems = link_problems(one, two);
            let found: Vec<_> = problems.iter().map(shape).collect();
            assert_eq!(found, expected);
            match link(one, two) {
                Ok(calls) => {
                    assert!(expected.is_empty());
                    assert_eq!(calls, rows(one, two, &[NodeKind::Call]).len());
                    seen[0] += 1;
                }
                Err(error) => {
                    assert_eq!(*error, problems[0]);
                    seen[error.refusal.number as usize - 59] += 1;
                }
            }
        });
    }
    assert!(seen.iter().all(|&times| times > 10), "{seen:?}");
}

#[test]
fn the_answer_does_not_depend_on_the_work_words() {
    for (one, two, answer) in [
        ("Go{=<A><B-c>;}", "$EXTRN A;B_C{}", Ok(2)),
        ("Go{=<A><B-C>;}", "$EXTRN A;", Err(61)),
        ("Go{}", "GO{=<A>;}", Err(60)),
        ("Go{e.1=e.2;}", "F{s.A(e.a)=s.a e.A;}", Err(62)),
        ("Go{e.1 s.2,s.2:{t.3=t.3 e.1;}=e.1;}", "F{}", Ok(0)),
        ("", "", Ok(0)),
    ] {
        with(one, two, |a, b| {
            let rows = a.len() + b.len();
            for words in [0, 1, rows, rows + 1, raw::link_words(rows), 3 * rows + 7] {
                let mut work = vec![7; words];
                let found = raw::link(
                    a.words(),
                    a.source().as_bytes(),
                    b.words(),
                    b.source().as_bytes(),
                    &mut work,
                );
                assert_eq!(found.map_err(|refusal| refusal.number), answer);
                assert!(work.iter().all(|&word| word == 0));
            }
        });
    }
}

#[test]
fn both_names_and_both_places() {
    let one = "$ENTRY Sort-It { = ; }\nF { e1 =\n  <Pritn e1> <Pritn>; }\nSORT_IT { = ; }\n";
    let two = "* Declared\n$EXTRN\n  Print, Sort;";
    with(one, two, |one, two| {
        let problems = link_problems(one, two);
        let [twice, missing] = &problems[..] else {
            panic!("{problems:?}")
        };
        let place = |named: &refal5::Named| {
            (
                named.file,
                named.name.clone(),
                named.place.line,
                named.place.column,
            )
        };
        assert_eq!(place(&twice.shown), (1, "SORT_IT".into(), 4, 1));
        assert_eq!(
            twice.other.as_ref().map(place),
            Some((1, "Sort-It".into(), 1, 8))
        );
        assert_eq!(twice.calls, 0);
        assert_eq!(place(&missing.shown), (1, "Pritn".into(), 3, 4));
        assert_eq!(
            missing.other.as_ref().map(place),
            Some((2, "Print".into(), 3, 3))
        );
        assert_eq!(missing.calls, 2);
        assert_eq!(
            missing.to_string(),
            "file 1, line 3, column 4: no rule and no declared function has the name `Pritn`; \
             the nearest name is `Print`, file 2, line 3, column 3"
        );
        assert_eq!(
            twice.to_string(),
            "file 1, line 4, column 1: the rule `SORT_IT` has the same name as the rule `Sort-It`; \
             the first, file 1, line 1, column 8"
        );
    });
}

#[test]
fn what_explains_an_unbound_variable() {
    for (source, message, other) in [
        ("F { e1 = s1; }", "was never matched", Some(("e1", true))),
        (
            "F { s.Word e1 = s.Wort; }",
            "was never matched",
            Some(("s.Word", true)),
        ),
        ("F { e1 = t.Other; }", "was never matched", None),
        (
            "F { e1, s2 : s2 = ; }",
            "is used before it is matched",
            Some(("s2", false)),
        ),
        (
            "F { e1, e1 : { s.2 e3 = ; } = s2; }",
            "is matched only in a block that ends before this use",
            Some(("s.2", false)),
        ),
        (
            "F { e1 = ; s2 = e1; }",
            "is matched only in another sentence",
            Some(("e1", false)),
        ),
    ] {
        with(source, "", |one, two| {
            let error = link(one, two).unwrap_err();
            assert_eq!(error.refusal.number, 62, "{source}");
            let text = format!("the variable `{}` {message}", error.shown.name);
            assert_eq!(error.message, text);
            let found = error.other.as_ref();
            let found = found.map(|other| (other.name.as_str(), error.is_nearest));
            assert_eq!(found, other, "{source}");
        });
    }
}

#[test]
fn so_many_problems_are_enough() {
    let calls: String = (0..300).map(|number| format!("<Lost{number}>")).collect();
    with(&format!("F{{={calls};}}"), "", |one, two| {
        assert_eq!(link_problems(one, two).len(), MOST_LINK_PROBLEMS);
    });
}
