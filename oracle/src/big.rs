//! Whole numbers below 2^512, for exact workings. A result that does not fit stops the run.

use std::cmp::Ordering;

const DIGITS: usize = 8;

/// Digits of 64 bits, the low ones first.
#[derive(Clone, Copy, Debug, PartialEq, Eq)]
pub struct Big([u64; DIGITS]);

impl From<u64> for Big {
    fn from(value: u64) -> Self {
        let mut digits = [0; DIGITS];
        digits[0] = value;
        Big(digits)
    }
}

impl Big {
    pub fn power(base: u64, exponent: u32) -> Self {
        let base = Big::from(base);
        (0..exponent).fold(Big::from(1), |product, _| product.times(&base))
    }

    pub fn plus(mut self, other: &Big) -> Self {
        let mut carry = false;
        for (digit, &added) in self.0.iter_mut().zip(&other.0) {
            let (sum, over) = digit.overflowing_add(added);
            let (sum, over_again) = sum.overflowing_add(carry.into());
            *digit = sum;
            carry = over || over_again;
        }
        assert!(!carry, "the sum has too many digits");
        self
    }

    pub fn minus(mut self, other: &Big) -> Self {
        let mut borrow = false;
        for (digit, &taken) in self.0.iter_mut().zip(&other.0) {
            let (rest, under) = digit.overflowing_sub(taken);
            let (rest, under_again) = rest.overflowing_sub(borrow.into());
            *digit = rest;
            borrow = under || under_again;
        }
        assert!(!borrow, "the difference is below 0");
        self
    }

    pub fn times(&self, other: &Big) -> Self {
        let mut product = [0; DIGITS];
        for (place, &digit) in self.used().iter().enumerate() {
            add_row(&mut product[place..], digit, other.used());
        }
        Big(product)
    }

    /// The digits without zeros at the high end.
    fn used(&self) -> &[u64] {
        let last = self.0.iter().rposition(|&digit| digit != 0);
        &self.0[..last.map_or(0, |last| last + 1)]
    }

    /// For printing only.
    pub fn approximate(&self) -> f64 {
        let base = 2f64.powi(64);
        let digits = self.0.iter().rev();
        digits.fold(0.0, |value, &digit| value * base + digit as f64)
    }
}

/// Adds `digit` × `others`. The rows before have not reached the place behind this one.
fn add_row(sum: &mut [u64], digit: u64, others: &[u64]) {
    assert!(others.len() <= sum.len(), "the product has too many digits");
    let (low, high) = sum.split_at_mut(others.len());
    let mut carry = 0;
    for (place, &other) in low.iter_mut().zip(others) {
        let total = u128::from(digit) * u128::from(other) + u128::from(*place) + carry;
        *place = total as u64;
        carry = total >> 64;
    }
    match high.first_mut() {
        Some(place) => *place = carry as u64,
        None => assert_eq!(carry, 0, "the product has too many digits"),
    }
}

impl Ord for Big {
    fn cmp(&self, other: &Self) -> Ordering {
        self.0.iter().rev().cmp(other.0.iter().rev())
    }
}

impl PartialOrd for Big {
    fn partial_cmp(&self, other: &Self) -> Option<Ordering> {
        Some(self.cmp(other))
    }
}
