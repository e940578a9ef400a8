//! Parsing: each refusal, left-off semicolons, nests at the limit, damaged lists, lists that 30
//! refuses, capacities.

use super::SEED;
use crate::cases::Case;
use crate::generate::nests::{self, Way};
use crate::generate::{Rng, sources, tokens};
use crate::reference::parse;
use crate::terms::{MAX_DEPTH, NODE_WIDTH, TokenRow, token};

pub fn cases() -> Vec<Case> {
    let mut rng = Rng::new(SEED + 1);
    let mut cases = Vec::new();
    for src in texts() {
        put_around(&mut cases, tokens::flat(&tokens::of_source(src.as_bytes())));
    }
    for words in every_kind_everywhere() {
        put(&mut cases, &mut rng, words);
    }
    for words in refused_by_30(&mut rng) {
        put(&mut cases, &mut rng, words);
    }
    for src in nests_at_the_limit(&mut rng) {
        put(
            &mut cases,
            &mut rng,
            tokens::flat(&tokens::of_source(src.as_bytes())),
        );
    }
    for _ in 0..400 {
        let words = tokens::any(&mut rng);
        if words.len() < 500 {
            put(&mut cases, &mut rng, words);
        }
    }
    cases
}

/// One number of lent words near the exact one.
fn put(cases: &mut Vec<Case>, rng: &mut Rng, tokens: Vec<u32>) {
    let exact = match parse::tree(&tokens) {
        Ok(rows) => rows.len() * NODE_WIDTH,
        Err(_) => rng.below(4) * NODE_WIDTH,
    };
    let some = [
        exact,
        exact,
        exact.saturating_sub(1),
        exact + 1,
        exact + NODE_WIDTH + 1,
        exact.saturating_sub(NODE_WIDTH),
        rng.below(2 * NODE_WIDTH),
    ];
    let lent = some[rng.below(some.len())];
    cases.push(Case::Parse { tokens, lent });
}

/// Every number of lent words that may matter.
fn put_around(cases: &mut Vec<Case>, tokens: Vec<u32>) {
    let exact = parse::tree(&tokens).map_or(NODE_WIDTH, |rows| rows.len() * NODE_WIDTH);
    let mut some = vec![
        exact.saturating_sub(1),
        exact,
        exact + 1,
        exact + NODE_WIDTH,
    ];
    if exact > NODE_WIDTH {
        some.push(0);
    }
    some.dedup();
    for lent in some {
        cases.push(Case::Parse {
            tokens: tokens.clone(),
            lent,
        });
    }
}

/// Sources for every rule of parsing.
pub fn texts() -> Vec<&'static str> {
    vec![
        "",
        ";",
        ";;;",
        "F{}",
        "$ENTRY F{}",
        "$EXTRN A;",
        "$EXTRN A,B,C;",
        "$EXTERN A;;$EXTERNAL B;;F{};",
        "$ENTRY Go{=;}",
        "{}",
        "F{A,B:{=;}=;}",
        "F{=,A:{=;};}",
        "F{=,:{};}",
        "F{,:=;}",
        "F{,:{}=;}",
        "F{A,B:C,D:E=F;}",
        "F{A,B:{C=D;E=F;},G:{}=,H I:{J=;};}",
        "F{e.1 s2 tX 'abc' 1.5=(A(B)(C))<G <H>()>;}",
        "F{('a'\"''\")=<Prout 'x'>;A=B;}G{}",
        // a last `;` left off, after terms and after blocks, in functions and blocks
        "F{=A}",
        "F{=}",
        "F{=(A)<G>}",
        "F{A=B;C=D}",
        "$ENTRY F{='ab'}G{=}",
        "F{=};$EXTRN A;",
        "F{=,A:{}}",
        "F{=,:{=;}}",
        "F{=,A:{=};}",
        "F{=,A:{=B}}",
        "F{=,:{=;=,:{=}}}",
        "F{A,B:{=}=;}",
        "F{A,B:{C=D;=E},:{=}=F}",
        "F{,:{=,:{=}}=}",
        // and where it may not be, or something else lacks
        "F{A}",
        "F{=A;B}",
        "F{=(A}",
        "F{=<G}",
        "F{A=B C=D;}",
        "F{A=B C=D}",
        "F{=A}}",
        "F{=A}=;}",
        "F{A,B:{=}}",
        "F{A,B:{=};}",
        "F{=,A:{=}",
        "F{=,A:{=}B}",
        "F{=,A:{=}=;}",
        // 31
        "$EXTRN;",
        "$EXTRN",
        "$EXTRN A,;",
        "$EXTRN A,",
        "$EXTRN 1;",
        "$EXTRN s1;",
        "$EXTRN 'a';",
        "$EXTRN $ENTRY;",
        "$EXTRN (",
        "$EXTRN $EXTRN A;",
        // 32
        "{",
        "1{}",
        "s1{}",
        "'ab'",
        "(F)",
        "<F>",
        ",",
        ":",
        "=",
        "}",
        "$ENTRY",
        "$ENTRY;",
        "$ENTRY $ENTRY F{}",
        "$ENTRY $EXTRN A;",
        "F{};}",
        "F{}}",
        // 33
        "F{<>=;}",
        "F{<1>=;}",
        "F{<s1>=;}",
        "F{<",
        "F{<(",
        "F{=<'a'>;}",
        "F{=<<F>>;}",
        "F{=<}",
        "F{=<;}",
        "F{=<=",
        // 34
        "F{:=;}",
        "F{;=;}",
        "F{}=;}",
        "F{)=;}",
        "F{>=;}",
        "F{{}=;}",
        "F{$ENTRY",
        "F{$EXTRN A;=;}",
        "F{=,}",
        "F{=A,B;}",
        "F{=:;}",
        "F{==;}",
        "F{(,)=;}",
        "F{(;)=;}",
        "F{(>)=;}",
        "F{(=)=;}",
        "F{<G)>=;}",
        "F{<G,>=;}",
        "F{A,=;}",
        "F{A,;}",
        "F{A,B:}",
        "F{A,B:C}",
        "F{A,B:C;}",
        "F{=)",
        "F{A,B:C:D=;}",
        // 35
        "F",
        "F;",
        "F(",
        "F=",
        "F F",
        "F 1",
        "$ENTRY F",
        "$EXTRN A",
        "$EXTRN A B",
        "$EXTRN A=",
        "F{",
        "F{A",
        "F{=",
        "F{=A",
        "F{(",
        "F{(A",
        "F{<G",
        "F{<G A",
        "F{A,",
        "F{A,B",
        "F{A,B:",
        "F{A,B:C",
        "F{A,B:{",
        "F{A,B:{}",
        "F{A,B:{}C=;}",
        "F{A,B:{};}",
        "F{A,B:{}}",
        "F{=,",
        "F{=,A",
        "F{=,A:",
        "F{=,A:B",
        "F{=,A:;}",
        "F{=,A:{",
        "F{=,A:{}",
        "F{=,A:{}=;}",
        "F{=,A:{},B:{};}",
        "F{=;",
        "F{=;=;",
        "F{A,B:{=;}:C=;}",
    ]
}

/// Lists in which each token in turn is of every kind: each place answers each kind. In the second
/// every `;` is left off.
fn every_kind_everywhere() -> Vec<Vec<u32>> {
    ["$EXTRN A;F{s1,(B):C=<D>;=,E:{=;};}", "F{,:{=}=,:{=A}}"]
        .into_iter()
        .flat_map(every_kind_in)
        .collect()
}

fn every_kind_in(src: &str) -> Vec<Vec<u32>> {
    let good = tokens::of_source(src.as_bytes());
    let mut all = Vec::new();
    for place in 0..good.len() - 1 {
        for kind in 1..=16 {
            let mut rows = good.clone();
            let [.., start, end] = rows[place];
            let text = match kind {
                token::IDENTIFIER | token::VARIABLE | token::NUMBER => (start, end - start),
                _ => (0, 0),
            };
            let detail = match kind {
                token::VARIABLE => b"stez"[place % 4].into(),
                token::CHAR => 97,
                _ => 0,
            };
            rows[place] = [kind, detail, text.0, text.1, start, end];
            all.push(tokens::flat(&rows));
        }
        let mut rows = good.clone();
        let eof = rows.pop().expect("Eof");
        rows.truncate(place);
        rows.push(eof);
        all.push(tokens::flat(&rows));
    }
    all
}

fn refused_by_30(rng: &mut Rng) -> Vec<Vec<u32>> {
    let good = tokens::of_source(b"F{s1 2 'a'=A;}");
    let words = tokens::flat(&good);
    let mut all = vec![vec![], vec![17], vec![17, 0, 0, 0, 0]];
    for at in 0..words.len() {
        for value in [0, 1, 17, 18, u32::MAX] {
            let mut words = words.clone();
            words[at] = value;
            if rng.once_in(2) {
                all.push(words);
            }
        }
    }
    for (place, row) in good.iter().enumerate() {
        for detail in [0x41, 0xd7ff, 0xd800, 0xdfff, 0xe000, 0x10_ffff, 0x11_0000] {
            if matches!(row[0], token::VARIABLE | token::CHAR) || rng.once_in(6) {
                let mut rows = good.clone();
                rows[place][1] = detail;
                all.push(tokens::flat(&rows));
            }
        }
    }
    for cut in 1..=12 {
        all.push(words[..words.len() - cut].to_vec());
        all.push([&words[..], &vec![17; cut][..]].concat());
    }
    let eof: TokenRow = good[good.len() - 1];
    for place in 0..good.len() {
        let mut rows = good.clone();
        rows.insert(place, eof);
        all.push(tokens::flat(&rows));
    }
    all
}

fn nests_at_the_limit(rng: &mut Rng) -> Vec<String> {
    let mut all = Vec::new();
    for depth in [MAX_DEPTH, MAX_DEPTH + 1] {
        for way in nests::WAYS {
            all.push(nests::nested(&vec![way; depth]).0);
        }
        for last in nests::WAYS {
            let mut ways = vec![Way::Ending; depth - 1];
            ways.push(last);
            all.push(nests::nested(&ways).0);
            let mut ways = vec![Way::Condition; depth - 1];
            ways.push(last);
            all.push(nests::nested(&ways).0);
        }
        for place in 0..10 {
            let mut ways = nests::ways(rng, depth);
            ways.sort_by_key(|way| matches!(way, Way::Bracket | Way::Call));
            let nest = nests::nested(&ways).0;
            all.push(if place < 5 {
                nest
            } else {
                nests::left_off(rng, &nest)
            });
        }
    }
    // An argument is not inside its block; what is refused comes in its order.
    let open = |count: usize| "(".repeat(count);
    let close = |count: usize| ")".repeat(count);
    let blocks = |count: usize| "=,:{".repeat(count);
    all.push(format!("F{{=,{}{}:{{}};}}", open(64), close(64)));
    all.push(format!("F{{A,{}{}:{{}}=;}}", open(64), close(64)));
    all.push(format!("F{{=,{}{}:{{}};}}", open(65), close(65)));
    all.push(format!("F{{{}=,{}{}:", blocks(63), open(1), close(1)));
    all.push(format!("F{{{}=,{}{}:{{}}", blocks(63), open(1), close(1)));
    all.push(format!("F{{{}=,{}{}:", blocks(63), open(2), close(2)));
    all.push(format!("F{{{}=,:{{", blocks(64)));
    all.push(format!("F{{{}=,:;", blocks(64)));
    all.push(format!("F{{{}A,:{{", blocks(64)));
    all.push(format!("F{{{}(", blocks(64)));
    all.push(format!("F{{{}<", blocks(64)));
    all.push(format!("F{{={}<1", open(64)));
    all.push(format!("F{{={}<1", open(63)));
    all.push(format!("F{{={};", open(64)));
    all.push(sources::program(rng, 1));
    all
}
