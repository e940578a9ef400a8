//! Reals as exact decimals.

use std::fmt;
use std::str::FromStr;

use crate::{Refusal, raw};

/// The number that a text with a point or an `E` stands for, exactly. Two are equal exactly when their values are.
///
/// It is printed as sign, digits, `E` and power of ten: read again, that is the same number as long as the power has at
/// most nine digits.
///
/// ```
/// let rate = refal5::real("-0.150")?;
/// assert_eq!(rate, refal5::real("-15E-2")?);
/// assert_eq!(rate.to_string(), "-15E-2");
/// assert_eq!(refal5::real("-0.0E7")?.to_string(), "0E0");
/// # Ok::<(), refal5::Refusal>(())
/// ```
#[derive(Debug, Clone, PartialEq, Eq, Hash)]
pub struct Real {
    negative: bool,
    digits: String,
    power: i64,
}

/// The real that a text is: exactly one number as reading takes it, with a point or an `E`. Refusals 64 and 65.
///
/// ```
/// assert_eq!(refal5::real("15").unwrap_err().number, 64);
/// assert_eq!(refal5::real("1E1000000000").unwrap_err().number, 65);
/// ```
pub fn real(text: impl AsRef<[u8]>) -> Result<Real, Refusal> {
    let text = text.as_ref();
    // A text has more bytes than digits; of a longer one than reading takes no digit is put down.
    let mut digits = vec![0; text.len().min(raw::MAX_BYTES)];
    let mut form = [0; 3];
    let count = raw::real(text, &mut digits, &mut form)?;
    digits.truncate(count);
    let [sign, down, magnitude] = form;
    let power = i64::try_from(magnitude).expect("a power has at most ten digits");
    Ok(Real {
        negative: sign == 1,
        digits: String::from_utf8(digits).expect("digits are ASCII"),
        power: if down == 1 { -power } else { power },
    })
}

impl Real {
    /// Whether it is below zero.
    pub fn is_negative(&self) -> bool {
        self.negative
    }

    pub fn is_zero(&self) -> bool {
        self.digits.is_empty()
    }

    /// Its digits, neither the first nor the last of which is 0: as a whole number, times ten to the power, they are its
    /// magnitude. Zero has none.
    pub fn digits(&self) -> &str {
        &self.digits
    }

    /// The power of ten; 0 for zero.
    pub fn power(&self) -> i64 {
        self.power
    }
}

impl FromStr for Real {
    type Err = Refusal;

    fn from_str(text: &str) -> Result<Self, Refusal> {
        real(text)
    }
}

impl fmt::Display for Real {
    fn fmt(&self, out: &mut fmt::Formatter<'_>) -> fmt::Result {
        let sign = if self.negative { "-" } else { "" };
        let digits = if self.is_zero() { "0" } else { &self.digits };
        write!(out, "{sign}{digits}E{}", self.power)
    }
}
