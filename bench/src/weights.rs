//! The weighted distance in whole numbers: floats are taken apart and put together by their bits.

use leskwyn::raw::{WEIGHT_FULL, WEIGHT_NONE, WEIGHT_PART};
use leskwyn::Weight;

use crate::random::Random;

/// The bits of a float below its exponent, and the place of the exponent.
const PART: u64 = (1 << 52) - 1;
const EXPONENT: u32 = 52;
/// The exponent bits of 1.
const ONE: u64 = 1023;

/// A weight as the exported function takes it.
#[derive(Clone, Copy, Debug)]
pub struct Weighing {
    pub kind: u16,
    pub fraction: f64,
}

impl Weighing {
    /// 256 p, or `None` for a weight that is refused.
    pub fn numerator(self) -> Option<u64> {
        match self.kind {
            WEIGHT_NONE => Some(0),
            WEIGHT_FULL => Some(256),
            WEIGHT_PART => numerator(self.fraction),
            _ => None,
        }
    }

    /// The weight of the bindings, where there is one of that kind.
    pub fn weight(self) -> Option<Weight> {
        match self.kind {
            WEIGHT_NONE => Some(Weight::None),
            WEIGHT_FULL => Some(Weight::Full),
            WEIGHT_PART => Some(Weight::Part(self.fraction)),
            _ => None,
        }
    }

    /// Some weight: most are parts, and about half are accepted.
    pub fn any(random: &mut Random) -> Weighing {
        let kind = *random.pick(&[0, 1, 2, 2, 2, 2, 2, 3, 65535]);
        let fraction = match random.below(4) {
            0 | 1 => over_256(random.between(0, 256) as u64),
            2 => *random.pick(&wrong_fractions()),
            _ => f64::from_bits(random.draw()),
        };
        Weighing { kind, fraction }
    }
}

/// The k of 0 to 256 for which the fraction is k/256; minus zero is zero.
pub fn numerator(fraction: f64) -> Option<u64> {
    let bits = fraction.to_bits();
    if bits << 1 == 0 {
        return Some(0);
    }
    // The sign is among these bits; 1/256 to below 2 have the exponents from 8 before that of 1.
    let exponent = bits >> EXPONENT;
    if !(ONE - 8..=ONE).contains(&exponent) {
        return None;
    }
    let significand = 1 << EXPONENT | bits & PART;
    let shift = ONE + 44 - exponent;
    let k = significand >> shift;
    (k << shift == significand && k <= 256).then_some(k)
}

/// The float n/256, which is exact for n below 2^53.
pub fn over_256(n: u64) -> f64 {
    if n == 0 {
        return 0.0;
    }
    let top = n.ilog2();
    assert!(top <= EXPONENT, "{n} has more bits than a float");
    f64::from_bits((ONE - 8 + u64::from(top)) << EXPONENT | n << (EXPONENT - top) & PART)
}

/// The weighted distance of the five cases: the float (256 B + k (C + D)) / 256.
pub fn weighted([_, b, c, d, _]: [u64; 5], k: u64) -> f64 {
    over_256(256 * b + k * (c + d))
}

/// The fractions that are accepted: k/256 for each k, and minus zero.
pub fn right_fractions() -> Vec<f64> {
    (0..=256).map(over_256).chain([-0.0]).collect()
}

/// Fractions that are refused: NaNs and infinities, what is below 0 or above 1, halves between two k/256, and the
/// nearest floats to each k/256.
pub fn wrong_fractions() -> Vec<f64> {
    const NAN_PAYLOADS: [u64; 8] = [
        0x7ff8_0000_0000_0000,
        0x7ff8_0000_0000_0001,
        0x7ff0_0000_0000_0001,
        0x7ff4_0000_0000_0000,
        0x7fff_ffff_ffff_ffff,
        0xfff8_0000_0000_0000,
        0xfff0_0000_0000_0001,
        0xffff_ffff_ffff_ffff,
    ];
    // The least and the greatest subnormal, and one between.
    const SUBNORMALS: [u64; 3] = [1, 1 << 51, PART];
    let halves = (0..256).map(|k| over_256(2 * k + 1) / 2.0);
    let negative = (1..=256).map(|k| -over_256(k));
    let near = (1..=256).flat_map(|k| [over_256(k).to_bits() - 1, over_256(k).to_bits() + 1].map(f64::from_bits));
    let subnormals = SUBNORMALS.map(f64::from_bits);
    NAN_PAYLOADS
        .map(f64::from_bits)
        .into_iter()
        .chain(subnormals)
        .chain(subnormals.map(|x| -x))
        .chain([f64::INFINITY, f64::NEG_INFINITY, f64::MAX, f64::MIN, f64::MIN_POSITIVE, -f64::MIN_POSITIVE])
        .chain([1.0 + f64::EPSILON, 1.0 - f64::EPSILON / 2.0, over_256(257), 1.5, 2.0, 128.0, 256.0, 0.1, 0.3])
        .chain(halves)
        .chain(negative)
        .chain(near)
        .collect()
}

/// Kinds that are there and kinds that are not, each with each of the fractions.
pub fn every_kind(fractions: &[f64]) -> Vec<Weighing> {
    let kinds = [0, 1, 2, 3, 4, 256, 258, 65535];
    kinds.iter().flat_map(|&kind| fractions.iter().map(move |&fraction| Weighing { kind, fraction })).collect()
}
