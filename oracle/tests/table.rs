//! Document 01's worked table, with 02's changes, and further rows worked out by hand from their text.

use oracle::generate::tokens;
use oracle::reference::{self, parse, read, write};
use oracle::terms::{NO_PARENT, NodeRow, Refusal};

fn read_spans(src: &str) -> Vec<(u32, u32, u32)> {
    let tokens = read::tokens(src.as_bytes()).expect(src);
    tokens.iter().map(|row| (row[0], row[4], row[5])).collect()
}

fn read_refusal(src: &str) -> (u32, u64, u64) {
    let refusal = read::tokens(src.as_bytes()).expect_err(src);
    (refusal.number, refusal.start, refusal.end)
}

fn parse_refusal(src: &str) -> Refusal {
    let tokens = read::tokens(src.as_bytes()).expect(src);
    parse::tree(&tokens::flat(&tokens)).expect_err(src)
}

fn tree(src: &str) -> Vec<NodeRow> {
    let tokens = read::tokens(src.as_bytes()).expect(src);
    parse::tree(&tokens::flat(&tokens)).expect(src)
}

#[test]
fn reading() {
    assert_eq!(read_spans(""), [(17, 0, 0)]);
    assert_eq!(
        read_spans("s1s2s3"),
        [(4, 0, 2), (4, 2, 4), (4, 4, 6), (17, 6, 6)]
    );
    assert_eq!(read_refusal("''"), (21, 0, 2));
    assert_eq!(read_refusal("'''"), (23, 0, 3));
    assert_eq!(read::tokens(b"''''").expect("read")[0], [6, 39, 0, 0, 0, 4]);
    assert_eq!(
        read::tokens(b"0004294967295").expect("read")[0],
        [5, 0, 0, 13, 0, 13]
    );
    for src in ["1E-5", "1E+5", "-0.25E+03", "+1E-5"] {
        let end = src.len() as u32;
        assert_eq!(
            read::tokens(src.as_bytes()).expect(src)[0],
            [5, 0, 0, end, 0, end]
        );
    }
    for (src, refusal) in [
        ("4294967296", (19, 0, 10)),
        ("+1", (18, 0, 2)),
        ("+1.", (16, 0, 3)),
        ("1E5.2", (10, 3, 4)),
        ("-", (14, 0, 1)),
        (" *a", (10, 1, 2)),
        ("/*/", (24, 0, 3)),
        ("$", (11, 0, 1)),
        ("$EXTRNS A", (11, 0, 7)),
        ("s. A", (12, 0, 2)),
        ("e.abcdefghijklmnop;", (13, 0, 18)),
        ("abc-1 ", (14, 0, 5)),
        ("Abcdefghijklmnop ", (15, 0, 16)),
        ("A 1E ", (17, 2, 4)),
        ("1E", (17, 0, 2)),
        ("1E-", (17, 0, 3)),
        ("1E-x", (17, 0, 3)),
        ("1E--5", (17, 0, 3)),
        ("1E-5.2", (10, 4, 5)),
        ("1.-5", (16, 0, 2)),
        ("1-5", (18, 1, 3)),
        ("é", (10, 0, 2)),
        ("A 'b\nc'", (22, 2, 5)),
        ("A \"b'", (23, 2, 5)),
    ] {
        assert_eq!(read_refusal(src), refusal, "{src}");
    }
    assert_eq!(read_spans("\n *a"), [(17, 4, 4)]);
    assert_eq!(
        read::tokens(b"A\xff").expect_err("ill-formed"),
        Refusal::spanned(2, 1, 1)
    );
}

fn refusal(number: u32, expected: u32, found: u32, start: u64, end: u64) -> Refusal {
    Refusal {
        number,
        expected,
        found,
        start,
        end,
        need: 0,
    }
}

fn written(src: &str) -> String {
    let text = write::text(&tree(src).concat(), src.as_bytes()).expect(src);
    String::from_utf8(text).expect("UTF-8")
}

#[test]
fn parsing() {
    assert!(tree("").is_empty());
    assert_eq!(parse::tree(&[]), Err(Refusal::plain(30)));
    for (src, answer) in [
        ("{}", refusal(32, 3, 7, 1, 2)),
        ("$EXTRN ,", refusal(31, 3, 13, 8, 8)),
        ("$EXTRN", refusal(31, 3, 17, 6, 6)),
        ("F{<1>=;}", refusal(33, 3, 5, 4, 5)),
        ("F{A", refusal(35, 15, 17, 3, 3)),
        ("F(", refusal(35, 7, 9, 1, 2)),
        ("F{(A", refusal(35, 10, 17, 4, 4)),
        ("F{A,B:{=;}C=;}", refusal(35, 15, 3, 10, 11)),
        ("F{=,A:B", refusal(35, 7, 3, 6, 7)),
    ] {
        assert_eq!(parse_refusal(src), answer, "{src}");
    }
    let rows = tree("F{A,B:{=;}=;}");
    assert_eq!(rows.len(), 12);
    let spans: Vec<_> = rows
        .iter()
        .filter(|row| matches!(row[0], 4 | 5 | 8))
        .map(|row| (row[0], row[4], row[5]))
        .collect();
    assert_eq!(spans, [(4, 2, 12), (5, 4, 10), (8, 4, 10), (4, 7, 9)]);
}

#[test]
fn the_last_semicolon() {
    for (src, answer) in [
        ("F{A}", refusal(34, 0, 8, 4, 4)),
        ("F{=(A}", refusal(34, 0, 8, 6, 6)),
        ("F{=A;B}", refusal(34, 0, 8, 7, 7)),
        ("F{A,B:C}", refusal(34, 0, 8, 8, 8)),
        ("F{A=B C=D;}", refusal(34, 0, 15, 8, 9)),
        ("F{=A", refusal(35, 16, 17, 4, 4)),
        ("F{=,A:{}", refusal(35, 16, 17, 8, 8)),
        ("F{=,A:{}=;}", refusal(35, 16, 15, 8, 9)),
        ("F{A,B:{}}", refusal(35, 15, 8, 8, 9)),
        ("F{=A}}", refusal(32, 3, 8, 6, 6)),
    ] {
        assert_eq!(parse_refusal(src), answer, "{src}");
    }
    assert_eq!(
        tree("F{=A}"),
        [
            [3, 0, 0, 1, 0, 5, 5, NO_PARENT],
            [4, 1, 0, 0, 2, 4, 5, 0],
            [6, 0, 0, 0, 0, 0, 3, 1],
            [6, 0, 0, 0, 0, 0, 5, 1],
            [9, 0, 3, 1, 3, 4, 5, 3],
        ]
    );
    assert_eq!(written("F{=A}"), "F { = A } ");
    assert_eq!(tree("F{=}")[1], [4, 1, 0, 0, 2, 3, 4, 0]);
    assert_eq!(written("F{=}"), "F { = } ");
    let src = "F{=;A,B:{=}=,C:{=D}}";
    let sentences: Vec<_> = tree(src)
        .iter()
        .filter(|row| row[0] == 4)
        .map(|row| (row[1], row[4], row[5]))
        .collect();
    assert_eq!(sentences, [(0, 2, 4), (1, 4, 19), (1, 9, 10), (1, 16, 18)]);
    assert_eq!(written(src), "F { = ; A , B : { = } = , C : { = D } } ");
}

/// The sentences of `F{=;=;}`, with these details.
#[test]
fn where_a_semicolon_may_lack() {
    for (details, text) in [
        ([0, 0], Some("F { = ; = ; } ")),
        ([0, 1], Some("F { = ; = } ")),
        ([1, 0], None),
        ([1, 1], None),
        ([0, 2], None),
        ([2, 0], None),
    ] {
        let mut rows = tree("F{=;=;}");
        rows[1][1] = details[0];
        rows[4][1] = details[1];
        let answer = write::text(&rows.concat(), b"F");
        let expected = text.map(|text| text.as_bytes().to_vec());
        assert_eq!(answer, expected.ok_or(Refusal::plain(40)), "{details:?}");
    }
}

#[test]
fn depth() {
    for (open, close, found) in [("(", ")", 9), ("<G ", ">", 11)] {
        let nest = |n: usize| format!("F{{={}{};}}", open.repeat(n), close.repeat(n));
        assert_eq!(tree(&nest(64)).len(), 4 + 64);
        let refusal = parse_refusal(&nest(65));
        assert_eq!((refusal.number, refusal.found), (37, found));
        assert_eq!(refusal.start as usize, 3 + 64 * open.len());
    }
    let nest = |n: usize| format!("F{{{}{}}}", "=,:{".repeat(n), "};".repeat(n));
    assert_eq!(tree(&nest(64)).len(), 1 + 4 * 64);
    let refusal = parse_refusal(&nest(65));
    assert_eq!(
        (refusal.number, refusal.found, refusal.start),
        (37, 7, 2 + 4 * 64 + 3)
    );
    // 37 comes before a call's name is looked at.
    let src = format!("F{{={}<1", "(".repeat(64));
    assert_eq!(parse_refusal(&src).number, 37);
}

#[test]
fn the_program_of_01() {
    let src = "$ENTRY Go{=;}";
    assert_eq!(
        tree(src),
        [
            [3, 1, 7, 2, 0, 13, 4, NO_PARENT],
            [4, 0, 0, 0, 10, 12, 4, 0],
            [6, 0, 0, 0, 0, 0, 3, 1],
            [6, 0, 0, 0, 0, 0, 4, 1],
        ]
    );
    assert_eq!(written(src), "$ENTRY Go { = ; } ");
}

/// The parent's row, for each row: in row order a Condition's and its block's, an Ending block's, a bracket's and a call's.
#[test]
fn parents() {
    for (src, parents) in [
        ("$EXTRN A, B;", &[-1, 0, 0][..]),
        ("F{}G{=;}", &[-1, -1, 1, 2, 2]),
        ("F{=(A<G B>)C;}", &[-1, 0, 1, 1, 3, 4, 4, 6, 3]),
        ("F{A,B:C=D;}", &[-1, 0, 1, 2, 1, 4, 5, 4, 7, 1, 9]),
        ("F{,:{=;}=;}", &[-1, 0, 1, 1, 3, 3, 5, 6, 6, 1]),
        ("F{=,A:{=;=;};}", &[-1, 0, 1, 1, 3, 4, 3, 6, 6, 3, 9, 9]),
    ] {
        let found: Vec<i32> = tree(src).iter().map(|row| row[7] as i32).collect();
        assert_eq!(found, parents, "{src}");
    }
    // A wrong parent makes a tree unlawful, whichever row has it.
    let rows = tree("F{,:{=;}=;}");
    for at in 0..rows.len() {
        for wrong in [0, 1, 2, 3, 5, NO_PARENT] {
            let mut rows = rows.clone();
            let right = rows[at][7] == wrong;
            rows[at][7] = wrong;
            let answer = write::text(&rows.concat(), b"F");
            assert_eq!(answer.is_ok(), right, "{at} {wrong}");
        }
    }
}

#[test]
fn capacities() {
    let mut rows = [7; 13];
    assert_eq!(reference::read(b"A", &mut rows), [0, 2, 0, 0, 0, 0, 0]);
    assert_eq!(rows, [3, 0, 0, 1, 0, 1, 17, 0, 0, 0, 1, 1, 7]);
    let mut rows = [7; 11];
    assert_eq!(reference::read(b"A", &mut rows), [25, 0, 0, 0, 0, 0, 2]);
    assert_eq!(rows, [0; 11]);
    let mut rows = [7; 7];
    let empty = [17, 0, 0, 0, 0, 0];
    assert_eq!(reference::parse(&empty, &mut rows), [0; 7]);
    assert_eq!(rows, [7; 7]);
    let tokens = tokens::flat(&read::tokens(b"F{}").expect("read"));
    assert_eq!(reference::parse(&tokens, &mut rows), [38, 0, 0, 0, 0, 0, 1]);
    assert_eq!(rows, [0; 7]);
    let tree = [3, 0, 0, 1, 0, 3, 1, NO_PARENT];
    let mut out = [7; 7];
    assert_eq!(
        reference::write(&tree, b"F", &mut out),
        [0, 6, 0, 0, 0, 0, 0]
    );
    assert_eq!(&out, b"F { } \x07");
    let mut out = [7; 5];
    assert_eq!(
        reference::write(&tree, b"F", &mut out),
        [42, 0, 0, 0, 0, 0, 6]
    );
    assert_eq!(out, [0; 5]);
    let mut out = [7; 9];
    assert_eq!(
        reference::write(&tree, b"f", &mut out),
        [41, 0, 0, 0, 0, 0, 0]
    );
    assert_eq!(
        reference::write(&tree[..7], b"F", &mut out),
        [40, 0, 0, 0, 0, 0, 0]
    );
    let mut out = [7; 3];
    assert_eq!(
        reference::canonical_name(b"a_1", &mut out),
        [0, 3, 0, 0, 0, 0, 0]
    );
    assert_eq!(&out, b"A-1");
    assert_eq!(
        reference::canonical_index(b"a_1b", &mut out),
        [50, 0, 0, 0, 0, 0, 0]
    );
    assert_eq!(out, [0; 3]);
}
