//! Reading: one pass of validation, one of scanning by a table of byte classes.

use super::refuse;
use oracle::terms::{Answer, MAX_SOURCE, done, token};

const OTHER: u8 = 0;
const SPACE: u8 = 1;
const NEWLINE: u8 = 2;
const CAPITAL: u8 = 3;
const TYPE: u8 = 4;
const SMALL: u8 = 5;
const DIGIT: u8 = 6;
const MINUS: u8 = 7;
const PLUS: u8 = 8;
const QUOTE: u8 = 9;
const DOLLAR: u8 = 10;
const STAR: u8 = 11;
const SLASH: u8 = 12;
const WIDE: u8 = 13;
/// A mark's class is this and its token kind.
const MARK: u8 = 32;

const CLASS: [u8; 256] = classes();
const GOES_ON: [bool; 256] = goes_on();

const fn classes() -> [u8; 256] {
    let mut table = [OTHER; 256];
    let mut byte = 0;
    while byte < 256 {
        table[byte] = match byte as u8 {
            b'\n' => NEWLINE,
            0x09..=0x0d | b' ' => SPACE,
            b'A'..=b'Z' => CAPITAL,
            b's' | b't' | b'e' => TYPE,
            b'a'..=b'z' | b'_' => SMALL,
            b'0'..=b'9' => DIGIT,
            b'-' => MINUS,
            b'+' => PLUS,
            b'\'' | b'"' => QUOTE,
            b'$' => DOLLAR,
            b'*' => STAR,
            b'/' => SLASH,
            b'{' => MARK + token::LBRACE as u8,
            b'}' => MARK + token::RBRACE as u8,
            b'(' => MARK + token::LPAREN as u8,
            b')' => MARK + token::RPAREN as u8,
            b'<' => MARK + token::LANGLE as u8,
            b'>' => MARK + token::RANGLE as u8,
            b',' => MARK + token::COMMA as u8,
            b':' => MARK + token::COLON as u8,
            b'=' => MARK + token::EQUALS as u8,
            b';' => MARK + token::SEMICOLON as u8,
            0x80.. => WIDE,
            _ => OTHER,
        };
        byte += 1;
    }
    table
}

const fn goes_on() -> [bool; 256] {
    let mut table = [false; 256];
    let mut byte = 0;
    while byte < 256 {
        table[byte] =
            (byte as u8).is_ascii_alphanumeric() || byte as u8 == b'_' || byte as u8 == b'-';
        byte += 1;
    }
    table
}

/// The refusal's number, span start and span end.
type Refused = (u64, usize, usize);

pub fn read(src: &[u8], rows: &mut [u32]) -> Answer {
    if src.len() > MAX_SOURCE {
        return refuse(rows, [1, 0, 0, 0, 0, 0, 0]);
    }
    if let Err(error) = std::str::from_utf8(src) {
        let at = error.valid_up_to() as u64;
        return refuse(rows, [2, 0, 0, 0, at, at, 0]);
    }
    let mut scanner = Scanner {
        src,
        out: Rows {
            room: rows.len() / 6,
            first: rows.as_mut_ptr(),
            count: 0,
        },
    };
    match scanner.run() {
        Err((number, start, end)) => refuse(rows, [number, 0, 0, 0, start as u64, end as u64, 0]),
        Ok(()) => {
            let count = scanner.out.count;
            if count > rows.len() / 6 {
                refuse(rows, [25, 0, 0, 0, 0, 0, count as u64])
            } else {
                done(count)
            }
        }
    }
}

/// Rows put down where they fit; `count` goes on past the room.
struct Rows {
    first: *mut u32,
    room: usize,
    count: usize,
}

impl Rows {
    #[inline(always)]
    fn put(&mut self, row: [u32; 6]) {
        if self.count < self.room {
            // Sound: row `count` lies whole within the lent words.
            unsafe { self.first.add(6 * self.count).cast::<[u32; 6]>().write(row) };
        }
        self.count += 1;
    }

    /// Sets the span's end in the rows from `from` on.
    #[inline(always)]
    fn end_at(&mut self, from: usize, end: u32) {
        for at in from..self.count.min(self.room) {
            // Sound: row `at` lies whole within the lent words.
            unsafe { self.first.add(6 * at + 5).write(end) };
        }
    }
}

struct Scanner<'a> {
    src: &'a [u8],
    out: Rows,
}

impl Scanner<'_> {
    /// The byte at `at`, or 0 past the end.
    #[inline(always)]
    fn byte(&self, at: usize) -> u8 {
        if at < self.src.len() {
            // Sound: tested just above.
            unsafe { *self.src.get_unchecked(at) }
        } else {
            0
        }
    }

    #[inline(always)]
    fn while_in(&self, mut at: usize, class: impl Fn(u8) -> bool) -> usize {
        let src = self.src;
        // Sound: tested just before.
        while at < src.len() && class(unsafe { *src.get_unchecked(at) }) {
            at += 1;
        }
        at
    }

    fn run(&mut self) -> Result<(), Refused> {
        let src = self.src;
        let mut at = 0;
        if self.byte(0) == b'*' {
            at = self.line_end(0);
        }
        // Whether only white space has passed since the last newline, of which there is one.
        let mut fresh = false;
        while at < src.len() {
            // Sound: tested just above.
            let byte = unsafe { *src.get_unchecked(at) };
            let class = CLASS[byte as usize];
            match class {
                SPACE | NEWLINE => {
                    (at, fresh) = self.blank(at, fresh);
                    continue;
                }
                STAR if fresh => {
                    at = self.line_end(at);
                    continue;
                }
                SLASH if self.byte(at + 1) == b'*' => {
                    fresh = false;
                    at = self.comment(at)?;
                    continue;
                }
                WIDE => {
                    at = self.wide(at)?;
                    continue;
                }
                CAPITAL => at = self.name(at)?,
                TYPE => at = self.variable(at)?,
                DIGIT => at = self.number(at)?,
                QUOTE => at = self.literal(at, byte)?,
                MINUS | PLUS if self.byte(at + 1).is_ascii_digit() => at = self.number(at)?,
                SMALL | MINUS => return Err(self.bad_name(at)),
                DOLLAR => at = self.directive(at)?,
                MARK.. => {
                    let kind = u32::from(class - MARK);
                    self.out.put([kind, 0, 0, 0, at as u32, at as u32 + 1]);
                    at += 1;
                }
                _ => return Err((10, at, at + 1)),
            }
            fresh = false;
            // Most tokens have one space after them.
            at += usize::from(self.byte(at) == b' ');
        }
        self.out.put([token::EOF, 0, 0, 0, at as u32, at as u32]);
        Ok(())
    }

    /// Passes over ASCII white space.
    #[inline(always)]
    fn blank(&self, mut at: usize, mut fresh: bool) -> (usize, bool) {
        loop {
            at = self.while_in(at, |byte| byte == b' ');
            match self.byte(at) {
                b'\n' => fresh = true,
                0x09..=0x0d => (),
                _ => return (at, fresh),
            }
            at += 1;
        }
    }

    #[inline(always)]
    fn line_end(&self, at: usize) -> usize {
        let rest = &self.src[at..];
        at + find(rest, b'\n').unwrap_or(rest.len())
    }

    /// White space that is not ASCII, or 10.
    fn wide(&self, at: usize) -> Result<usize, Refused> {
        let length = self.byte(at).leading_ones() as usize;
        let space = match (self.byte(at), self.byte(at + 1), self.byte(at + 2)) {
            (0xc2, second, _) => matches!(second, 0x85 | 0xa0),
            (0xe2, 0x80, third) => matches!(third, 0x80..=0x8a | 0xa8 | 0xa9 | 0xaf),
            (0xe2, 0x81, third) => third == 0x9f,
            (0xe1, 0x9a, third) | (0xe3, 0x80, third) => third == 0x80,
            _ => false,
        };
        if space {
            Ok(at + length)
        } else {
            Err((10, at, at + length))
        }
    }

    #[inline(always)]
    fn comment(&self, start: usize) -> Result<usize, Refused> {
        let mut at = start + 2;
        loop {
            match find(&self.src[at.min(self.src.len())..], b'*') {
                None => return Err((24, start, self.src.len())),
                Some(star) => at = self.while_in(at + star, |byte| byte == b'*'),
            }
            if self.byte(at) == b'/' {
                return Ok(at + 1);
            }
        }
    }

    #[inline(always)]
    fn name(&mut self, start: usize) -> Result<usize, Refused> {
        let end = self.while_in(start + 1, |byte| GOES_ON[byte as usize]);
        if end - start > 15 {
            return Err((15, start, end));
        }
        self.put_text(token::IDENTIFIER, 0, start, start, end);
        Ok(end)
    }

    #[inline(always)]
    fn put_text(&mut self, kind: u32, detail: u32, start: usize, text: usize, end: usize) {
        self.out.put([
            kind,
            detail,
            text as u32,
            (end - text) as u32,
            start as u32,
            end as u32,
        ]);
    }

    #[cold]
    fn bad_name(&self, start: usize) -> Refused {
        let end = self.while_in(start + 1, |byte| GOES_ON[byte as usize]);
        (14, start, end)
    }

    #[inline(always)]
    fn variable(&mut self, start: usize) -> Result<usize, Refused> {
        let letter = u32::from(self.byte(start));
        let next = self.byte(start + 1);
        if next == b'.' {
            let index = start + 2;
            let end = self.while_in(index, |byte| GOES_ON[byte as usize]);
            if end == index {
                return Err((12, start, end));
            }
            if end - index > 15 {
                return Err((13, start, end));
            }
            self.put_text(token::VARIABLE, letter, start, index, end);
            return Ok(end);
        }
        if next.is_ascii_uppercase() || next.is_ascii_digit() {
            self.put_text(token::VARIABLE, letter, start, start + 1, start + 2);
            return Ok(start + 2);
        }
        Err(self.bad_name(start))
    }

    #[inline(always)]
    fn number(&mut self, start: usize) -> Result<usize, Refused> {
        let signed = !self.byte(start).is_ascii_digit();
        let digits = start + usize::from(signed);
        let mut value: u64 = 0;
        let mut end = digits;
        while self.byte(end).is_ascii_digit() {
            let digit = u64::from(self.byte(end) - b'0');
            value = (value * 10 + digit).min(u64::from(u32::MAX) + 1);
            end += 1;
        }
        let mut real = false;
        for (mark, refusal) in [(b'.', 16), (b'E', 17)] {
            if self.byte(end) == mark {
                real = true;
                let mut first = end + 1;
                if mark == b'E' && matches!(self.byte(first), b'+' | b'-') {
                    first += 1;
                }
                end = self.while_in(first, |byte| byte.is_ascii_digit());
                if end == first {
                    return Err((refusal, start, end));
                }
            }
        }
        if !real {
            if signed {
                return Err((18, start, end));
            }
            if value > u64::from(u32::MAX) {
                return Err((19, start, end));
            }
        }
        self.put_text(token::NUMBER, 0, start, start, end);
        Ok(end)
    }

    fn directive(&mut self, start: usize) -> Result<usize, Refused> {
        let end = self.while_in(start + 1, |byte| byte.is_ascii_alphabetic());
        let kind = match &self.src[start + 1..end] {
            b"ENTRY" => token::ENTRY,
            b"EXTERN" | b"EXTRN" | b"EXTERNAL" => token::EXTERN,
            _ => return Err((11, start, end)),
        };
        self.out.put([kind, 0, 0, 0, start as u32, end as u32]);
        Ok(end)
    }

    #[inline(always)]
    fn literal(&mut self, start: usize, quote: u8) -> Result<usize, Refused> {
        let first = self.out.count;
        let mut at = start + 1;
        while at < self.src.len() {
            let byte = self.byte(at);
            at += 1;
            let mut value = u32::from(byte);
            if byte == quote {
                if self.byte(at) != quote {
                    return self.close(first, start, at);
                }
                at += 1;
            } else if byte == b'\n' {
                return Err((22, start, at));
            } else if byte >= 0x80 {
                let more = (byte.leading_ones() - 1) as usize;
                value &= 0x3f >> more;
                for _ in 0..more {
                    value = value << 6 | u32::from(self.byte(at) & 0x3f);
                    at += 1;
                }
            }
            self.out.put([token::CHAR, value, 0, 0, start as u32, 0]);
        }
        Err((23, start, self.src.len()))
    }

    #[inline(always)]
    fn close(&mut self, first: usize, start: usize, end: usize) -> Result<usize, Refused> {
        let count = self.out.count - first;
        if count > 255 {
            return Err((20, start, end));
        }
        if count == 0 {
            return Err((21, start, end));
        }
        self.out.end_at(first, end as u32);
        Ok(end)
    }
}

/// The first place of a byte, eight bytes at a time.
#[inline(always)]
fn find(bytes: &[u8], wanted: u8) -> Option<usize> {
    const ONES: u64 = 0x0101_0101_0101_0101;
    let pattern = ONES * u64::from(wanted);
    let mut at = 0;
    while at + 8 <= bytes.len() {
        let word: [u8; 8] = bytes[at..at + 8].try_into().expect("eight bytes");
        let word = u64::from_le_bytes(word) ^ pattern;
        let zeros = word.wrapping_sub(ONES) & !word & (ONES << 7);
        if zeros != 0 {
            return Some(at + zeros.trailing_zeros() as usize / 8);
        }
        at += 8;
    }
    bytes[at..]
        .iter()
        .position(|&byte| byte == wanted)
        .map(|place| at + place)
}
