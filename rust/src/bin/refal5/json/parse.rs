//! Reading JSON.

/// A JSON value.
#[derive(Debug, Clone, PartialEq)]
pub enum Value {
    Null,
    Bool(bool),
    Number(f64),
    String(String),
    Array(Vec<Value>),
    Object(Vec<(String, Value)>),
}

impl Value {
    /// A field of an object, Null where there is none.
    pub fn get(&self, key: &str) -> &Value {
        match self {
            Self::Object(fields) => fields
                .iter()
                .find(|(name, _)| name == key)
                .map_or(&Self::Null, |(_, value)| value),
            _ => &Self::Null,
        }
    }

    /// A field of a field.
    pub fn at(&self, path: &[&str]) -> &Value {
        path.iter().fold(self, |value, key| value.get(key))
    }

    pub fn as_str(&self) -> Option<&str> {
        match self {
            Self::String(text) => Some(text),
            _ => None,
        }
    }

    /// A whole number that is not negative.
    pub fn as_index(&self) -> Option<usize> {
        match self {
            Self::Number(number) if *number >= 0.0 && number.fract() == 0.0 => {
                Some(*number as usize)
            }
            _ => None,
        }
    }

    pub fn as_array(&self) -> &[Value] {
        match self {
            Self::Array(values) => values,
            _ => &[],
        }
    }
}

impl std::fmt::Display for Value {
    fn fmt(&self, out: &mut std::fmt::Formatter<'_>) -> std::fmt::Result {
        match self {
            Self::Null => out.write_str("null"),
            Self::Bool(value) => write!(out, "{value}"),
            Self::Number(number) => write!(out, "{number}"),
            Self::String(text) => out.write_str(&super::quoted(text)),
            Self::Array(values) => {
                let values: Vec<String> = values.iter().map(Value::to_string).collect();
                out.write_str(&super::array(&values))
            }
            Self::Object(fields) => {
                let mut object = super::Object::new();
                for (key, value) in fields {
                    object = object.plain(key, value);
                }
                out.write_str(&object.end())
            }
        }
    }
}

/// Values inside each other, at most.
const DEPTH: usize = 100;

/// The value that a whole text is, if it is one.
pub fn parse(text: &str) -> Option<Value> {
    let mut reader = Reader { rest: text };
    let value = reader.value(DEPTH)?;
    reader.skip();
    reader.rest.is_empty().then_some(value)
}

struct Reader<'a> {
    rest: &'a str,
}

impl Reader<'_> {
    fn skip(&mut self) {
        self.rest = self.rest.trim_start_matches([' ', '\t', '\n', '\r']);
    }

    /// Takes a sign, after white space.
    fn take(&mut self, sign: &str) -> bool {
        self.skip();
        match self.rest.strip_prefix(sign) {
            Some(rest) => {
                self.rest = rest;
                true
            }
            None => false,
        }
    }

    fn value(&mut self, depth: usize) -> Option<Value> {
        let depth = depth.checked_sub(1)?;
        self.skip();
        match self.rest.bytes().next()? {
            b'{' => self.object(depth),
            b'[' => self.array(depth),
            b'"' => self.string().map(Value::String),
            b't' => self.take("true").then_some(Value::Bool(true)),
            b'f' => self.take("false").then_some(Value::Bool(false)),
            b'n' => self.take("null").then_some(Value::Null),
            _ => self.number(),
        }
    }

    fn object(&mut self, depth: usize) -> Option<Value> {
        self.take("{");
        let mut fields = Vec::new();
        if self.take("}") {
            return Some(Value::Object(fields));
        }
        loop {
            self.skip();
            let key = self.string()?;
            if !self.take(":") {
                return None;
            }
            fields.push((key, self.value(depth)?));
            if self.take("}") {
                return Some(Value::Object(fields));
            }
            if !self.take(",") {
                return None;
            }
        }
    }

    fn array(&mut self, depth: usize) -> Option<Value> {
        self.take("[");
        let mut values = Vec::new();
        if self.take("]") {
            return Some(Value::Array(values));
        }
        loop {
            values.push(self.value(depth)?);
            if self.take("]") {
                return Some(Value::Array(values));
            }
            if !self.take(",") {
                return None;
            }
        }
    }

    fn number(&mut self) -> Option<Value> {
        let end = self
            .rest
            .find(|c: char| !matches!(c, '0'..='9' | '+' | '-' | '.' | 'e' | 'E'));
        let (digits, rest) = self.rest.split_at(end.unwrap_or(self.rest.len()));
        let number = digits.parse().ok()?;
        self.rest = rest;
        Some(Value::Number(number))
    }

    /// A string; halves of characters that stand alone become U+FFFD.
    fn string(&mut self) -> Option<String> {
        let mut chars = self.rest.strip_prefix('"')?.chars();
        let mut units: Vec<u16> = Vec::new();
        loop {
            match chars.next()? {
                '"' => {
                    self.rest = chars.as_str();
                    return Some(String::from_utf16_lossy(&units));
                }
                '\\' => units.push(match chars.next()? {
                    'n' => 10,
                    'r' => 13,
                    't' => 9,
                    'b' => 8,
                    'f' => 12,
                    'u' => {
                        let digits: String = chars.by_ref().take(4).collect();
                        u16::from_str_radix(&digits, 16).ok()?
                    }
                    other @ ('"' | '\\' | '/') => other as u16,
                    _ => return None,
                }),
                control if control < ' ' => return None,
                other => units.extend(other.encode_utf16(&mut [0; 2]).iter()),
            }
        }
    }
}

#[cfg(test)]
mod tests {
    use super::*;

    #[test]
    fn values() {
        let text =
            r#" {"a":[1,-2.5e1,true,null],"b":{"c":"x\n\"\u0416\ud83d\ude00/"},"d":[],"e":{}} "#;
        let value = parse(text).unwrap();
        assert_eq!(value.at(&["b", "c"]).as_str(), Some("x\n\"Ж😀/"));
        assert_eq!(value.get("a").as_array()[0].as_index(), Some(1));
        assert_eq!(value.get("a").as_array()[1].as_index(), None);
        assert_eq!(value.at(&["b", "none", "more"]), &Value::Null);
        assert_eq!(parse(&value.to_string()), Some(value));
    }

    #[test]
    fn what_is_no_value() {
        for text in [
            "",
            "{",
            "[1,]",
            "{\"a\" 1}",
            "\"\n\"",
            "tru",
            "1 2",
            "\"\\x\"",
        ] {
            assert_eq!(parse(text), None, "{text}");
        }
        assert_eq!(parse(&"[".repeat(100_000)), None);
    }
}
