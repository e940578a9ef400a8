//! JSON, written and read.

mod parse;

pub use parse::{Value, parse};

use std::fmt::{Display, Write};

/// An object under way.
pub struct Object {
    text: String,
}

impl Object {
    pub fn new() -> Self {
        Self {
            text: String::from("{"),
        }
    }

    /// A field whose value is printed as it is: a number, true, false or another object.
    pub fn plain(mut self, key: &str, value: impl Display) -> Self {
        self.key(key);
        write!(self.text, "{value}").expect("a string takes all that is written");
        self
    }

    pub fn string(mut self, key: &str, value: &str) -> Self {
        self.key(key);
        quote(value, &mut self.text);
        self
    }

    pub fn end(mut self) -> String {
        self.text.push('}');
        self.text
    }

    fn key(&mut self, key: &str) {
        if self.text.len() > 1 {
            self.text.push(',');
        }
        quote(key, &mut self.text);
        self.text.push(':');
    }
}

/// An array of values that are printed as they are.
pub fn array(values: &[String]) -> String {
    format!("[{}]", values.join(","))
}

/// A string in quotes.
pub fn quoted(value: &str) -> String {
    let mut out = String::new();
    quote(value, &mut out);
    out
}

/// Puts a string in quotes.
pub fn quote(value: &str, out: &mut String) {
    out.push('"');
    for character in value.chars() {
        match character {
            '"' => out.push_str("\\\""),
            '\\' => out.push_str("\\\\"),
            '\n' => out.push_str("\\n"),
            '\r' => out.push_str("\\r"),
            '\t' => out.push_str("\\t"),
            '\u{0}'..='\u{1f}' | '\u{7f}'..='\u{9f}' => {
                write!(out, "\\u{:04x}", u32::from(character)).expect("a string takes all");
            }
            other => out.push(other),
        }
    }
    out.push('"');
}

#[cfg(test)]
mod tests {
    use super::*;

    #[test]
    fn objects() {
        let object = Object::new()
            .plain("n", 1)
            .string("s", "a\"b\\\n\u{1b}é")
            .end();
        assert_eq!(object, "{\"n\":1,\"s\":\"a\\\"b\\\\\\n\\u001bé\"}");
        assert_eq!(Object::new().end(), "{}");
    }
}
