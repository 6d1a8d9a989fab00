//! Lambda, from 0 to 2^20.

use super::random::Random;

kinds! {
    Lambda {
        Zero = "zero",
        MinusZero = "minus-zero",
        Subnormal = "subnormal",
        Tiny = "tiny",
        Small = "small",
        Dyadic = "dyadic",
        Ordinary = "ordinary",
        Large = "large",
        Top = "top",
        UnderTop = "under-top",
    }
}

pub fn lambda(random: &mut Random, kind: Lambda) -> f32 {
    let top = (1u32 << 20) as f32;
    match kind {
        Lambda::Zero => 0.0,
        Lambda::MinusZero => -0.0,
        Lambda::Subnormal => f32::from_bits(random.between(1, 0x007f_ffff) as u32),
        Lambda::Tiny => random.pick(&[f32::from_bits(1), f32::MIN_POSITIVE, 1e-30, 1e-12]),
        Lambda::Small => power(random, -14.0, -3.0),
        // Few bits, so that sums are exact and ties are frequent.
        Lambda::Dyadic => random.between(1, 64) as f32 / random.pick(&[1.0, 2.0, 8.0]),
        Lambda::Ordinary => power(random, -3.0, 9.0),
        Lambda::Large => power(random, 9.0, 19.9),
        Lambda::Top => top,
        Lambda::UnderTop => top.next_down(),
    }
}

/// 2 to a power between the two.
fn power(random: &mut Random, low: f64, high: f64) -> f32 {
    (low + (high - low) * random.unit()).exp2() as f32
}
