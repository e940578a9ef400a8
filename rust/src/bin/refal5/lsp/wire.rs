//! Messages with their lengths before them.

use std::io::{self, BufRead, Read, Write};

use crate::json::{Value, parse};

/// The longest message that is taken, in bytes: a file's text may be written with escapes.
const MOST: u64 = 256 << 20;

/// The next message, none at the end. One that is no JSON is Null.
pub fn read(input: &mut impl BufRead) -> io::Result<Option<Value>> {
    let mut length = None;
    loop {
        let mut line = String::new();
        if input.read_line(&mut line)? == 0 {
            return Ok(None);
        }
        let line = line.trim();
        if line.is_empty() {
            break;
        }
        if let Some((name, value)) = line.split_once(':')
            && name.eq_ignore_ascii_case("Content-Length")
        {
            length = value.trim().parse::<u64>().ok();
        }
    }
    let Some(length) = length.filter(|&length| length <= MOST) else {
        return Err(io::Error::other("a message has no length"));
    };
    let mut bytes = Vec::new();
    input.take(length).read_to_end(&mut bytes)?;
    let text = String::from_utf8_lossy(&bytes);
    Ok(Some(parse(&text).unwrap_or(Value::Null)))
}

pub fn write(output: &mut impl Write, message: &str) -> io::Result<()> {
    write!(output, "Content-Length: {}\r\n\r\n{message}", message.len())?;
    output.flush()
}
