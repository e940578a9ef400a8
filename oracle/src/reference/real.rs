//! 02, card 8: reals as exact decimals, by whole numbers of any size.

use super::big::Big;
use super::read;
use crate::terms::{Answer, Refusal, done, token};

/// A real's value: the number times ten to the power, with its sign.
#[derive(Debug, Clone, PartialEq, Eq)]
struct Value {
    minus: bool,
    number: Big,
    power: i64,
}

/// Sign, digits without leading or trailing zeros, and power of ten.
#[derive(Debug, Clone, PartialEq, Eq)]
pub struct Form {
    pub minus: bool,
    pub digits: Vec<u8>,
    pub power: i64,
}

/// A real that reading gives: by itself it is one Number, all of it, and it has a point or an E.
fn is_real(text: &[u8]) -> bool {
    let marked = text.iter().any(|&byte| byte == b'.' || byte == b'E');
    let Ok(rows) = read::tokens(text) else {
        return false;
    };
    let length = text.len() as u32;
    marked && rows.len() == 2 && rows[0][..4] == [token::NUMBER, 0, 0, length]
}

/// What stands before the mark, and behind it, if it is there.
fn cut(text: &[u8], mark: u8) -> (&[u8], &[u8]) {
    match text.iter().position(|&byte| byte == mark) {
        Some(at) => (&text[..at], &text[at + 1..]),
        None => (text, &[]),
    }
}

/// Whether a minus stands in front, and what stands behind a sign.
fn sign(text: &[u8]) -> (bool, &[u8]) {
    match text {
        [b'-', rest @ ..] => (true, rest),
        [b'+', rest @ ..] => (false, rest),
        _ => (false, text),
    }
}

/// The value from the text's parts: 64 where it is no real, 65 where its exponent is over nine
/// digits long, leading zeros aside.
fn value(text: &[u8]) -> Result<Value, Refusal> {
    if !is_real(text) {
        return Err(Refusal::plain(64));
    }
    let (mantissa, exponent) = cut(text, b'E');
    let (minus, mantissa) = sign(mantissa);
    let (whole, fraction) = cut(mantissa, b'.');
    let (down, exponent) = sign(exponent);
    let exponent = Big::of_digits(exponent).digits();
    if exponent.len() > 9 {
        return Err(Refusal::plain(65));
    }
    let by = exponent
        .iter()
        .fold(0, |n, byte| 10 * n + i64::from(byte - b'0'));
    Ok(Value {
        minus,
        number: Big::of_digits(&[whole, fraction].concat()),
        power: if down { -by } else { by } - fraction.len() as i64,
    })
}

pub fn form(text: &[u8]) -> Result<Form, Refusal> {
    let value = value(text)?;
    let (number, tens) = value.number.without_tens();
    let zero = number.is_zero();
    Ok(Form {
        minus: value.minus && !zero,
        digits: number.digits(),
        power: if zero { 0 } else { value.power + tens as i64 },
    })
}

/// Whether two reals have the same value: as whole numbers, both multiplied by the power of ten
/// that makes them so.
pub fn same_value(a: &[u8], b: &[u8]) -> bool {
    let (Ok(a), Ok(b)) = (value(a), value(b)) else {
        return false;
    };
    if a.number.is_zero() || b.number.is_zero() {
        return a.number.is_zero() && b.number.is_zero();
    }
    // Of two numbers of other lengths none is large enough to be multiplied.
    let length = |value: &Value| value.number.digits().len() as i64 + value.power;
    let low = a.power.min(b.power);
    let whole = |value: &Value| value.number.times_ten_to((value.power - low) as usize);
    a.minus == b.minus && length(&a) == length(&b) && whole(&a) == whole(&b)
}

/// The normal form: 64 before 65 before 66, with the number of digits as its need.
pub fn real(text: &[u8], digits: &mut [u8], words: &mut [u64; 3]) -> Answer {
    let found = form(text).and_then(|form| {
        if form.digits.len() > digits.len() {
            Err(Refusal::needing(66, form.digits.len()))
        } else {
            Ok(form)
        }
    });
    match found {
        Ok(form) => {
            digits[..form.digits.len()].copy_from_slice(&form.digits);
            *words = [
                u64::from(form.minus),
                u64::from(form.power < 0),
                form.power.unsigned_abs(),
            ];
            done(form.digits.len())
        }
        Err(refusal) => {
            digits.fill(0);
            *words = [0; 3];
            refusal.answer()
        }
    }
}

#[cfg(test)]
mod tests {
    use super::{Form, form, same_value};

    fn has(text: &str, minus: bool, digits: &str, power: i64) {
        let digits = digits.as_bytes().to_vec();
        let want = Form {
            minus,
            digits,
            power,
        };
        assert_eq!(form(text.as_bytes()), Ok(want), "{text}");
    }

    fn refused(text: &str, number: u32) {
        let refusal = form(text.as_bytes()).expect_err(text);
        assert_eq!((refusal.number, refusal.need), (number, 0), "{text}");
    }

    /// Written by hand from 02, card 8.
    #[test]
    fn forms() {
        has("150.0", false, "15", 1);
        has("1.50E2", false, "15", 1);
        has("-0.0E7", false, "", 0);
        has("10E999999999", false, "1", 1_000_000_000);
        has("-12.340E+0", true, "1234", -2);
        has("0.01E-999999999", false, "1", -1_000_000_001);
        refused("15", 64);
        refused("+1", 64);
        refused(" 1.5", 64);
        refused("1.5 ", 64);
        refused("1.5 2.5", 64);
        refused("1.5E", 64);
        refused("", 64);
        refused("0E1000000000", 65);
        refused("1E-0001000000000", 65);
    }

    #[test]
    fn values() {
        assert!(same_value(b"150.0", b"1.50E2"));
        assert!(same_value(b"-0.0", b"0E5"));
        assert!(same_value(b"1E999999999", b"10E999999998"));
        assert!(!same_value(b"1E999999999", b"1E-999999999"));
        assert!(!same_value(b"1.0", b"-1.0"));
        assert!(!same_value(b"1.0", b"1"));
    }
}
