//! Exact fractions from 0 up. They are not reduced; all comparing is by cross-multiplying.

use crate::big::Big;
use std::cmp::Ordering;

/// The finest f64 taken is a multiple of 2^-128, so that what it is compared with fits.
const FINEST: u32 = 128;

#[derive(Clone, Copy, Debug)]
pub struct Fraction {
    num: Big,
    /// Not 0.
    den: Big,
}

impl Fraction {
    pub fn new(num: u64, den: u64) -> Self {
        assert_ne!(den, 0);
        Fraction {
            num: num.into(),
            den: den.into(),
        }
    }

    /// The value of an f64, read from its bits. None if it is below 0, not finite or too fine.
    pub fn exactly(value: f64) -> Option<Self> {
        if value == 0.0 {
            return Some(Fraction::new(0, 1));
        }
        let (sign, exponent) = (value.to_bits() >> 63, (value.to_bits() >> 52) & 0x7ff);
        let digits = value.to_bits() & ((1 << 52) - 1) | 1 << 52;
        if sign == 1 || exponent == 0x7ff || exponent == 0 {
            return None;
        }
        let (digits, zeros) = (digits >> digits.trailing_zeros(), digits.trailing_zeros());
        // The value is digits × 2^raised.
        let raised = exponent as i32 - 1023 - 52 + zeros as i32;
        let power = (raised.unsigned_abs() <= FINEST).then(|| Big::power(2, raised.unsigned_abs()));
        let (digits, one) = (Big::from(digits), Big::from(1));
        power.map(|power| match raised {
            0.. => Fraction {
                num: digits.times(&power),
                den: one,
            },
            _ => Fraction {
                num: digits,
                den: power,
            },
        })
    }

    pub fn plus(&self, other: &Fraction) -> Self {
        let (one, two) = self.over_common(other);
        Fraction {
            num: one.plus(&two),
            den: self.den.times(&other.den),
        }
    }

    /// How far the two lie apart.
    pub fn distance(&self, other: &Fraction) -> Self {
        let (one, two) = self.over_common(other);
        Fraction {
            num: one.max(two).minus(&one.min(two)),
            den: self.den.times(&other.den),
        }
    }

    /// For printing only.
    pub fn approximate(&self) -> f64 {
        self.num.approximate() / self.den.approximate()
    }

    /// What stands above the product of both denominators.
    fn over_common(&self, other: &Fraction) -> (Big, Big) {
        (self.num.times(&other.den), other.num.times(&self.den))
    }
}

impl Ord for Fraction {
    fn cmp(&self, other: &Self) -> Ordering {
        let (one, two) = self.over_common(other);
        one.cmp(&two)
    }
}

impl PartialOrd for Fraction {
    fn partial_cmp(&self, other: &Self) -> Option<Ordering> {
        Some(self.cmp(other))
    }
}

/// By value: 1/2 is 2/4.
impl PartialEq for Fraction {
    fn eq(&self, other: &Self) -> bool {
        self.cmp(other) == Ordering::Equal
    }
}

impl Eq for Fraction {}
