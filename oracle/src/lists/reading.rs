//! Reading: each refusal and each limit in several surroundings, then random sources.

use super::SEED;
use crate::cases::Case;
use crate::generate::{Rng, sources};
use crate::reference::{read, utf8};

pub fn cases() -> Vec<Case> {
    let mut rng = Rng::new(SEED);
    let mut cases = Vec::new();
    for src in edges() {
        put(&mut cases, &mut rng, src);
    }
    for _ in 0..700 {
        let src = sources::any(&mut rng);
        if src.len() < 200 {
            put(&mut cases, &mut rng, src);
        }
    }
    for src in comments() {
        put(&mut cases, &mut rng, src);
    }
    for src in exponents() {
        put(&mut cases, &mut rng, src.clone().into_bytes());
        put(&mut cases, &mut rng, format!("A {src};").into_bytes());
    }
    cases
}

/// What may stand after a number's `E`, and what may not.
pub fn exponents() -> Vec<String> {
    let mut all = Vec::new();
    for whole in ["1", "-0.25"] {
        for sign in ["", "+", "-", "--", "+-"] {
            for rest in [
                "", "5", "03", "x", "E5", " 5", ".5", "5.2", "5E-5", "5-5", "é",
            ] {
                all.push(format!("{whole}E{sign}{rest}"));
            }
        }
    }
    all
}

/// Lent words around those that the tokens take.
pub fn put(cases: &mut Vec<Case>, rng: &mut Rng, src: Vec<u8>) {
    let exact = match read::tokens(&src) {
        Ok(rows) => rows.len() * 6,
        Err(_) => rng.below(4) * 6,
    };
    let some = [
        exact,
        exact,
        exact.saturating_sub(1),
        exact + 1,
        exact + 7,
        exact.saturating_sub(6),
        rng.below(12),
    ];
    let lent = some[rng.below(some.len())];
    cases.push(Case::Read { src, lent });
}

/// Sources at the edges of every rule, each in surroundings that must not matter and that must.
fn edges() -> Vec<Vec<u8>> {
    let mut sources: Vec<Vec<u8>> = Vec::new();
    for core in texts() {
        for (before, after) in [
            ("", ""),
            ("A ", ""),
            ("", " B"),
            ("\n\t", ";"),
            ("(", "\n* c\n"),
        ] {
            sources.push(format!("{before}{core}{after}").into_bytes());
        }
    }
    for core in long_texts() {
        for (before, after) in [("", ""), ("A ", ";")] {
            sources.push(format!("{before}{core}{after}").into_bytes());
        }
    }
    for core in ill_formed() {
        for (before, after) in [("", ""), ("A ", " B"), ("'é", "'"), ("/* ", "")] {
            sources.push([before.as_bytes(), &core, after.as_bytes()].concat());
        }
    }
    for value in utf8::WHITE_SPACE {
        let space = char::from_u32(value).expect("a scalar value");
        for text in [
            format!("{space}"),
            format!("A{space}B"),
            format!("{space}*a"),
            format!("\n{space}*a"),
            format!("A\n{space}{space}*a\nB"),
            format!("'{space}'"),
        ] {
            sources.push(text.into_bytes());
        }
    }
    // Not white space, though near it or alike.
    for value in [
        0x00, 0x08, 0x0e, 0x1c, 0x1f, 0x7f, 0x84, 0x86, 0x9f, 0xa1, 0x167f, 0x1681, 0x180e, 0x1fff,
        0x200b, 0x2027, 0x202a, 0x202e, 0x2030, 0x205e, 0x2060, 0x2fff, 0x3001, 0xfeff,
    ] {
        let mark = char::from_u32(value).expect("a scalar value");
        sources.push(format!("A {mark}").into_bytes());
        sources.push(format!("\n{mark}*a").into_bytes());
    }
    for mark in 0..=0x7fu8 {
        sources.push(vec![mark]);
        sources.push(vec![b'A', b' ', mark, b'1']);
    }
    sources
}

fn texts() -> Vec<String> {
    let mut texts: Vec<String> = [
        // 10
        "%",
        "*",
        "/",
        "+",
        "+a",
        ".",
        "#",
        "é",
        "漢",
        "😀",
        "1E5.2",
        "1.5.2",
        "!",
        "A*",
        "A/B",
        // 11
        "$",
        "$E",
        "$ENTR",
        "$ENTRYS",
        "$entry",
        "$EXTER",
        "$EXTERNA",
        "$EXTERNALS",
        "$EXTRNS",
        "$Entry",
        "$ENTRY",
        "$EXTERN",
        "$EXTRN",
        "$EXTERNAL",
        "$ENTRY1",
        "$EXTRN_",
        "$$ENTRY",
        "$é",
        // 12, 13 and variables
        "s.",
        "t.",
        "e.",
        "s..",
        "e.é",
        "s.1",
        "t.a",
        "e.-",
        "e._",
        "s.A.B",
        "s1s2s3",
        "sA",
        "tZ",
        "e0",
        "e9",
        "sa",
        "s_",
        "s-",
        "e1A",
        "sAB",
        "s.s.s",
        "t",
        "e",
        "s",
        // 14
        "a",
        "abc",
        "_",
        "-",
        "_A",
        "-A",
        "-_",
        "x1",
        "s-1",
        "eab",
        "zZ",
        // 15 and names
        "A",
        "Z",
        "A-",
        "A_",
        "A9",
        "Az",
        "Aé",
        "A.b",
        "Abc-D_9",
        // 16, 17, 18
        "1.",
        "1.a",
        "1.E5",
        "+1.",
        "-1.",
        "0.",
        "1..2",
        "1E",
        "1Ea",
        "1.5E",
        "1E+",
        "1E-x",
        "+1E",
        "1e5",
        "+1",
        "-1",
        "+0",
        "-99999999999",
        "+1a",
        "-1A",
        "1.5",
        "1E5",
        "1.5E5",
        "+1.5",
        "-1E5",
        "1E5E5",
        "00.00E00",
        "+-1",
        "--1",
        "-+1",
        "1-1",
        "1+1",
        // 19
        "0",
        "00",
        "4294967295",
        "4294967296",
        "4294967294",
        "4294967300",
        "04294967295",
        "04294967296",
        "0000000000000000000004294967295",
        "0000000000000000000004294967296",
        "9999999999",
        "42949672950",
        "18446744073709551615",
        "18446744073709551616",
        "4294967296.0",
        "4294967296E0",
        "99999999999999999999E1",
        // 21, 22, 23
        "''",
        "\"\"",
        "'''",
        "\"\"\"",
        "''''",
        "\"\"\"\"",
        "'\"'",
        "\"'\"",
        "'a''b'",
        "'a'\"b\"",
        "'a",
        "\"a",
        "'",
        "\"",
        "'a\n'",
        "\"\n",
        "'\n",
        "'a''\n'",
        "'\r'",
        "'\u{2028}'",
        "'\u{85}'",
        "'é'",
        "'漢'",
        "'😀'",
        "'a'''",
        "'''a'",
        "' '",
        "'*'",
        "'/*'",
        "\"a\"\"\"",
        "'ab\"\"c'",
        // 24 and comments
        "/*",
        "/*/",
        "/**",
        "/* ",
        "/**/",
        "/***/",
        "/*/*/",
        "/* /* */",
        "/*\n*/",
        "/*é*/",
        "/* */*",
        "/*é",
        "/*\n",
        "/**/ */",
        "/*/ */A",
        "*/",
        "\n*a",
        "\n *a",
        "\n*",
        "\n**",
        "\r*a",
        "\n\r*a",
        "\n*a\n*b\n",
        "\n*'\n",
        "\n*/*\n",
        "\n /**/*a",
        "\n;*a",
        "\n*é\n",
    ]
    .map(String::from)
    .to_vec();
    for letters in ["{", "}", "(", ")", "<", ">", ",", ":", "=", ";"] {
        texts.push(letters.to_string());
    }
    for length in 14..=17 {
        texts.push(format!("A{}", "b-_9".repeat(4)[..length - 1].to_owned()));
        texts.push(format!("e.{}", "b-_9b".repeat(4)[..length].to_owned()));
        texts.push(format!("a{}", "b".repeat(length - 1)));
    }
    texts
}

/// Literals of 254 to 256 characters, closed and not.
fn long_texts() -> Vec<String> {
    let mut texts = Vec::new();
    for length in [255, 256] {
        let plain = "a".repeat(length);
        texts.push(format!("'{plain}'"));
        texts.push(format!("'{plain}\n'"));
        texts.push(format!("\"{plain}"));
    }
    texts.push(format!("'{}'", "''".repeat(255)));
    texts.push(format!("'{}'", "''".repeat(256)));
    texts.push(format!("'{}'", "é".repeat(256)));
    texts.push(format!("\"{}\"", "😀".repeat(256)));
    texts.push(format!("'{}''", "a".repeat(255)));
    texts.push(format!("'{}'", "ab".repeat(200)));
    texts
}

/// Block comments of every length up to 70, of bytes that are parts of a comment's end and of others, closed and not.
fn comments() -> Vec<Vec<u8>> {
    let mut sources = Vec::new();
    for length in 0..=70 {
        for fill in ["*", "/", "a", "* ", "/*"] {
            let body = &fill.repeat(length)[..length];
            sources.push(format!("/*{body}*/A").into_bytes());
        }
        sources.push(format!("/*{}*", "/".repeat(length)).into_bytes());
    }
    sources
}

/// Truncated, overlong, surrogate, too large, and bytes that start nothing.
fn ill_formed() -> Vec<Vec<u8>> {
    let rows: [&[u8]; 40] = [
        b"\x80",
        b"\xbf",
        b"\xc0",
        b"\xc1",
        b"\xc0\x80",
        b"\xc1\xbf",
        b"\xc2",
        b"\xdf",
        b"\xc2\x41",
        b"\xc2\xc2",
        b"\xe0",
        b"\xe0\xa0",
        b"\xe0\x80\x80",
        b"\xe0\x9f\xbf",
        b"\xe1\x80",
        b"\xe1\x80\x41",
        b"\xe1\x41\x80",
        b"\xed\xa0\x80",
        b"\xed\xbf\xbf",
        b"\xed\x9f",
        b"\xee\x80",
        b"\xef\xbf",
        b"\xef\xbf\xc0",
        b"\xf0",
        b"\xf0\x90",
        b"\xf0\x90\x80",
        b"\xf0\x80\x80\x80",
        b"\xf0\x8f\xbf\xbf",
        b"\xf1\x80\x80",
        b"\xf1\x80\x80\x41",
        b"\xf3\xbf\xbf",
        b"\xf4\x90\x80\x80",
        b"\xf4\x8f\xbf",
        b"\xf5",
        b"\xf5\x80\x80\x80",
        b"\xf8\x88\x80\x80\x80",
        b"\xfc",
        b"\xfe",
        b"\xff",
        b"\xed\xa0\x80\xed\xb0\x80",
    ];
    let mut all: Vec<Vec<u8>> = rows.iter().map(|bytes| bytes.to_vec()).collect();
    // The first and last of each row of table 3-7, which are well formed.
    for value in [
        0x80, 0x7ff, 0x800, 0xfff, 0x1000, 0xcfff, 0xd000, 0xd7ff, 0xe000, 0xffff, 0x1_0000,
        0x3_ffff, 0x4_0000, 0xf_ffff, 0x10_0000, 0x10_ffff,
    ] {
        all.push(utf8::encode(value));
    }
    all
}
