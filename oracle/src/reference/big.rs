//! Whole numbers of any size.

const BASE: u64 = 1_000_000_000;
/// Decimal digits of a limb.
const WIDTH: usize = 9;

/// Limbs of nine decimal digits, the lowest first; the highest is not 0, and 0 has none.
#[derive(Debug, Clone, PartialEq, Eq)]
pub struct Big(Vec<u32>);

impl Big {
    /// The number that decimal digits make.
    pub fn of_digits(digits: &[u8]) -> Self {
        let limb = |part: &[u8]| part.iter().fold(0, |n, b| 10 * n + u32::from(b - b'0'));
        Self::of_limbs(digits.rchunks(WIDTH).map(limb).collect())
    }

    fn of_limbs(mut limbs: Vec<u32>) -> Self {
        while limbs.last() == Some(&0) {
            limbs.pop();
        }
        Self(limbs)
    }

    pub fn is_zero(&self) -> bool {
        self.0.is_empty()
    }

    /// Its decimal digits, none for 0.
    pub fn digits(&self) -> Vec<u8> {
        let limbs = self.0.iter().rev().enumerate();
        let text: String = limbs
            .map(|(place, limb)| match place {
                0 => format!("{limb}"),
                _ => format!("{limb:09}"),
            })
            .collect();
        text.into_bytes()
    }

    /// The product with ten to the power.
    pub fn times_ten_to(&self, power: usize) -> Self {
        let factor = 10u64.pow((power % WIDTH) as u32);
        let mut limbs = vec![0; power / WIDTH];
        let mut carry = 0;
        for limb in &self.0 {
            let product = u64::from(*limb) * factor + carry;
            limbs.push((product % BASE) as u32);
            carry = product / BASE;
        }
        limbs.push(carry as u32);
        Self::of_limbs(limbs)
    }

    /// The number divided by ten as often as that leaves no rest, and how often that was.
    pub fn without_tens(&self) -> (Self, usize) {
        let Some(whole) = self.0.iter().position(|&limb| limb != 0) else {
            return (self.clone(), 0);
        };
        let (mut divisor, mut power) = (1, whole * WIDTH);
        while u64::from(self.0[whole]).is_multiple_of(10 * divisor) {
            divisor *= 10;
            power += 1;
        }
        let mut limbs = self.0[whole..].to_vec();
        let mut rest = 0;
        for limb in limbs.iter_mut().rev() {
            let part = rest * BASE + u64::from(*limb);
            *limb = (part / divisor) as u32;
            rest = part % divisor;
        }
        assert_eq!(rest, 0, "the rest of a division by a factor");
        (Self::of_limbs(limbs), power)
    }
}

#[cfg(test)]
mod tests {
    use super::Big;

    #[test]
    fn digits_go_in_and_out() {
        for text in [
            "",
            "7",
            "10",
            "999999999",
            "1000000000",
            "120000000034500000000067",
        ] {
            let padded = format!("0000000000000{text}");
            assert_eq!(Big::of_digits(padded.as_bytes()).digits(), text.as_bytes());
        }
    }

    #[test]
    fn tens_go_in_and_out() {
        for text in [
            "7",
            "23",
            "999999999",
            "1000000001",
            "12000000003450000000006701",
        ] {
            let number = Big::of_digits(text.as_bytes());
            for power in 0..40 {
                let more = number.times_ten_to(power);
                let zeros = "0".repeat(power);
                assert_eq!(more.digits(), format!("{text}{zeros}").into_bytes());
                assert_eq!(more.without_tens(), (number.clone(), power));
            }
        }
        let zero = Big::of_digits(b"000");
        assert!(zero.is_zero() && zero.times_ten_to(20).is_zero());
        assert_eq!(zero.without_tens(), (zero, 0));
    }
}
