//! The original's messages as 01's refusal numbers, kinds expected and kinds found.

use crate::terms::token;

/// The number of a reading refusal (10 to 24), from the original's message.
pub fn reading(message: &str) -> Option<u32> {
    let between = |left: &str, right: &str| {
        message.len() >= left.len() + right.len()
            && message.starts_with(left)
            && message.ends_with(right)
    };
    Some(match message {
        "variable identifier index cannot exceed 15 characters" => 13,
        "Classic Refal-5 identifiers must start with an uppercase letter" => 14,
        "identifier cannot exceed 15 characters" => 15,
        "real number requires digits after decimal point" => 16,
        "real number requires digits after exponent marker" => 17,
        "a sign is only permitted on a real number; macrodigits are non-negative" => 18,
        "macrodigit exceeds the Classic Refal-5 maximum of 4294967295" => 19,
        "character string exceeds the Classic Refal-5 limit of 255 characters" => 20,
        "empty character literal" => 21,
        "character string cannot span a line break" => 22,
        "unterminated character literal" => 23,
        "unterminated block comment" => 24,
        _ if between("unexpected character `", "`") => 10,
        _ if between("unsupported directive `$", "`") => 11,
        _ if between("variable `", ".` is missing a name") => 12,
        _ => return None,
    })
}

/// Number, kind expected and kind found of a parsing refusal (31 to 36).
pub fn parsing(message: &str) -> Option<(u32, u32, u32)> {
    if message == "unknown variable kind" {
        return Some((36, 0, token::VARIABLE));
    }
    let (wanted, found) = message.strip_prefix("expected ")?.split_once(", found ")?;
    let found = kind(found)?;
    Some(match wanted {
        "function name in declaration" => (31, token::IDENTIFIER, found),
        "function name" => (32, token::IDENTIFIER, found),
        "function name after `<`" => (33, token::IDENTIFIER, found),
        "term" => (34, 0, found),
        _ => (35, kind(wanted)?, found),
    })
}

/// The kind of a token that the original prints with `{:?}`: its name stands first.
fn kind(printed: &str) -> Option<u32> {
    let name = printed
        .split(|c: char| !c.is_ascii_alphanumeric())
        .next()
        .unwrap_or("");
    Some(match name {
        "Entry" => token::ENTRY,
        "Extern" => token::EXTERN,
        "Identifier" => token::IDENTIFIER,
        "Variable" => token::VARIABLE,
        "Number" => token::NUMBER,
        "Char" => token::CHAR,
        "LBrace" => token::LBRACE,
        "RBrace" => token::RBRACE,
        "LParen" => token::LPAREN,
        "RParen" => token::RPAREN,
        "LAngle" => token::LANGLE,
        "RAngle" => token::RANGLE,
        "Comma" => token::COMMA,
        "Colon" => token::COLON,
        "Equals" => token::EQUALS,
        "Semicolon" => token::SEMICOLON,
        "Eof" => token::EOF,
        _ => return None,
    })
}

#[cfg(test)]
mod tests {
    use super::*;

    /// Each message as lexer.rs writes it, with the number that 01 gives to what it says.
    #[test]
    fn reading_messages() {
        let rows: &[(u32, &str)] = &[
            (10, "unexpected character `%`"),
            (10, "unexpected character ```"),
            (10, "unexpected character `*`"),
            (10, "unexpected character `é`"),
            (11, "unsupported directive `$`"),
            (11, "unsupported directive `$ENTRYX`"),
            (11, "unsupported directive `$entry`"),
            (12, "variable `s.` is missing a name"),
            (12, "variable `t.` is missing a name"),
            (12, "variable `e.` is missing a name"),
            (13, "variable identifier index cannot exceed 15 characters"),
            (
                14,
                "Classic Refal-5 identifiers must start with an uppercase letter",
            ),
            (15, "identifier cannot exceed 15 characters"),
            (16, "real number requires digits after decimal point"),
            (17, "real number requires digits after exponent marker"),
            (
                18,
                "a sign is only permitted on a real number; macrodigits are non-negative",
            ),
            (
                19,
                "macrodigit exceeds the Classic Refal-5 maximum of 4294967295",
            ),
            (
                20,
                "character string exceeds the Classic Refal-5 limit of 255 characters",
            ),
            (21, "empty character literal"),
            (22, "character string cannot span a line break"),
            (23, "unterminated character literal"),
            (24, "unterminated block comment"),
        ];
        for &(number, message) in rows {
            assert_eq!(reading(message), Some(number), "{message}");
        }
        assert_eq!(reading("anything else"), None);
        assert_eq!(reading(""), None);
    }

    /// Each message as parser.rs writes it. Expected is 3 for 31 to 33, the kind wanted for 35 and
    /// otherwise 0.
    #[test]
    fn parsing_messages() {
        let rows: &[(&str, (u32, u32, u32))] = &[
            (
                "expected function name in declaration, found Semicolon",
                (31, 3, 16),
            ),
            (
                "expected function name in declaration, found Eof",
                (31, 3, 17),
            ),
            ("expected function name, found LBrace", (32, 3, 7)),
            ("expected function name, found Number(\"1\")", (32, 3, 5)),
            ("expected function name, found Entry", (32, 3, 1)),
            (
                "expected function name after `<`, found RAngle",
                (33, 3, 12),
            ),
            (
                "expected function name after `<`, found Variable { kind: 's', name: \"1\" }",
                (33, 3, 4),
            ),
            (
                "expected function name after `<`, found Char(',')",
                (33, 3, 6),
            ),
            ("expected term, found RBrace", (34, 0, 8)),
            ("expected term, found Extern", (34, 0, 2)),
            ("expected term, found Comma", (34, 0, 13)),
            ("expected LBrace, found Identifier(\"A\")", (35, 7, 3)),
            ("expected LBrace, found LParen", (35, 7, 9)),
            ("expected RBrace, found Eof", (35, 8, 17)),
            ("expected RParen, found Eof", (35, 10, 17)),
            ("expected RAngle, found Eof", (35, 12, 17)),
            ("expected Colon, found Eof", (35, 14, 17)),
            ("expected Equals, found Colon", (35, 15, 14)),
            ("expected Semicolon, found Equals", (35, 16, 15)),
            ("expected Semicolon, found LAngle", (35, 16, 11)),
            ("expected Semicolon, found RParen", (35, 16, 10)),
            ("expected Semicolon, found Char(' ')", (35, 16, 6)),
            ("unknown variable kind", (36, 0, 4)),
        ];
        for &(message, fields) in rows {
            assert_eq!(parsing(message), Some(fields), "{message}");
        }
        assert_eq!(parsing("expected Nothing, found Eof"), None);
    }
}
