//! Big whole numbers and fractions are exact, and what does not fit stops the run.

use palette_oracle::big::Big;
use palette_oracle::fraction::Fraction;

fn big(high: u64, low: u64) -> Big {
    Big::from(high)
        .times(&Big::power(2, 64))
        .plus(&Big::from(low))
}

#[test]
fn sums_carry_and_differences_borrow() {
    let (most, one) = (big(u64::MAX, u64::MAX), Big::from(1));
    assert_eq!(most.plus(&one), Big::power(2, 128));
    assert_eq!(Big::power(2, 128).minus(&one), most);
    assert_eq!(most.minus(&most), Big::from(0));
}

#[test]
fn products_are_those_of_u128() {
    let (one, two) = (0xfedc_ba98_7654_3210_u64, 0xffff_ffff_ffff_fffb_u64);
    let product = u128::from(one) * u128::from(two);
    let due = big((product >> 64) as u64, product as u64);
    assert_eq!(Big::from(one).times(&Big::from(two)), due);
    // (2^128 - 1)² = 2^256 - 2^129 + 1.
    let most = big(u64::MAX, u64::MAX);
    let square = Big::power(2, 256).minus(&Big::power(2, 129));
    assert_eq!(most.times(&most), square.plus(&Big::from(1)));
}

#[test]
fn the_high_digits_decide() {
    assert!(big(1, 0) > big(0, u64::MAX));
    assert!(big(1, 2) < big(2, 1));
    assert_eq!(Big::power(2, 511).approximate(), 2f64.powi(511));
}

#[test]
#[should_panic(expected = "too many digits")]
fn a_product_that_does_not_fit_stops_the_run() {
    Big::power(2, 256).times(&Big::power(2, 256));
}

#[test]
#[should_panic(expected = "too many digits")]
fn a_product_that_ends_in_a_carry_does_too() {
    Big::power(2, 511).times(&Big::from(2));
}

#[test]
#[should_panic(expected = "too many digits")]
fn a_sum_that_does_not_fit_does_too() {
    Big::power(2, 511).plus(&Big::power(2, 511));
}

#[test]
#[should_panic(expected = "below 0")]
fn a_difference_below_0_does_too() {
    Big::from(1).minus(&Big::from(2));
}

#[test]
fn fractions_are_compared_by_value() {
    let (half, third) = (Fraction::new(1, 2), Fraction::new(1, 3));
    assert_eq!(half, Fraction::new(2, 4));
    assert!(third < half);
    assert_eq!(half.plus(&third), Fraction::new(5, 6));
    assert_eq!(half.distance(&third), Fraction::new(1, 6));
    assert_eq!(third.distance(&half), Fraction::new(1, 6));
    assert_eq!(Fraction::new(3, 8).approximate(), 0.375);
}

#[test]
fn an_f64_is_taken_exactly() {
    let exactly = |value: f64| Fraction::exactly(value).unwrap();
    assert_eq!(exactly(0.0), Fraction::new(0, 1));
    assert_eq!(exactly(-0.0), Fraction::new(0, 1));
    assert_eq!(exactly(1.0), Fraction::new(1, 1));
    assert_eq!(exactly(0.75), Fraction::new(3, 4));
    assert_eq!(exactly(68_685_926_400.5), Fraction::new(137_371_852_801, 2));
    // The f64 next to a tenth.
    let tenth = Fraction::new(3_602_879_701_896_397, 1 << 55);
    assert_eq!(exactly(0.1), tenth);
    assert_ne!(exactly(0.1), Fraction::new(1, 10));
    let step = exactly(1f64.next_up()).distance(&exactly(1.0));
    assert_eq!(step, Fraction::new(1, 1 << 52));
    assert_eq!(exactly(2f64.powi(62)), Fraction::new(1 << 62, 1));
    assert_eq!(exactly(2f64.powi(-63)), Fraction::new(1, 1 << 63));
}

#[test]
fn what_is_no_number_from_0_up_is_not_taken() {
    let others = [-1.0, -1e-9, f64::NAN, f64::INFINITY, f64::NEG_INFINITY];
    for value in others.into_iter().chain([f64::from_bits(1), 1e-300]) {
        assert!(Fraction::exactly(value).is_none(), "{value}");
    }
}
