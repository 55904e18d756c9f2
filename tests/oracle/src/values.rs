//! Loads, resistances and bases over the whole of their ranges.

use crate::random::Random;

/// How the floats of one feeder are drawn.
#[derive(Clone, Copy, PartialEq)]
pub enum Values {
    /// Multiples of a quarter: losses are exact and often equal.
    Quarters,
    /// Ordinary loads with full mantissas: every other order of operations shows.
    Plain,
    /// Loads of both signs.
    Signed,
    /// Exponents over the whole range, subnormals included.
    Spread,
    /// Zeros of both signs, ends of the ranges and their neighbours.
    Awkward,
    /// One load and one resistance for all.
    Equal,
    /// Losses about 1e-9.
    Small,
}

const ALL: [Values; 7] =
    [Values::Quarters, Values::Plain, Values::Signed, Values::Spread, Values::Awkward, Values::Equal, Values::Small];

const LEAST_SUBNORMAL: f64 = f64::from_bits(1);
const LEAST_NORMAL: f64 = f64::MIN_POSITIVE;
#[rustfmt::skip]
const AWKWARD_LOADS: [f64; 16] = [
    0.0, -0.0, LEAST_SUBNORMAL, -LEAST_SUBNORMAL, LEAST_NORMAL, -LEAST_NORMAL, 1_000_000.0, -1_000_000.0,
    999_999.999_999_999_9, 1e-300, -1e-300, 0.1, 1.0, 3.0, -3.0, 1e-160,
];
#[rustfmt::skip]
const AWKWARD_RESISTANCES: [f64; 14] = [
    0.0, -0.0, LEAST_SUBNORMAL, LEAST_NORMAL, 1_000.0, 999.999_999_999_999_9, 1e-300, 3e-8, 3.2e-8, 1e-160, 0.1, 0.5,
    1.0, 1e-9,
];
#[rustfmt::skip]
const AWKWARD_BASES: [f64; 8] = [
    0.001, 1_000_000.0, 0.1, 1.0, 3.0, 0.001_000_000_000_000_000_2, 999_999.999_999_999_9, 7.0,
];

impl Values {
    pub fn any(random: &mut Random) -> Self {
        random.pick(&ALL)
    }

    pub fn load(self, random: &mut Random) -> f64 {
        match self {
            Values::Quarters => (random.below(20) as f64 - 4.0) * 0.25,
            Values::Plain => random.unit() * 10.0,
            Values::Signed => random.unit() * 20.0 - 10.0,
            Values::Spread => spread(random, 1_000_000.0) * random.pick(&[1.0, -1.0]),
            Values::Awkward => random.pick(&AWKWARD_LOADS),
            Values::Equal => 0.7,
            Values::Small => random.unit() * 5e-5,
        }
    }

    pub fn resistance(self, random: &mut Random) -> f64 {
        match self {
            Values::Quarters => random.below(17) as f64 / 16.0,
            Values::Plain | Values::Signed | Values::Small => random.unit(),
            Values::Spread => spread(random, 1_000.0),
            Values::Awkward => random.pick(&AWKWARD_RESISTANCES),
            Values::Equal => 0.3,
        }
    }

    pub fn base(self, random: &mut Random) -> f64 {
        match self {
            Values::Quarters | Values::Small => 1.0,
            Values::Plain | Values::Signed | Values::Equal => random.pick(&[1.0, 10.0, 100.0, 0.3]),
            Values::Spread => 10f64.powf(random.unit() * 9.0 - 3.0).clamp(0.001, 1_000_000.0),
            Values::Awkward => random.pick(&AWKWARD_BASES),
        }
    }
}

/// Any exponent, small ones half of the time, any mantissa, not above `most`.
fn spread(random: &mut Random, most: f64) -> f64 {
    let highest = (most.to_bits() >> 52) as usize;
    let exponent = if random.percent(50) { random.between(0, highest) } else { random.between(highest - 40, highest) };
    f64::from_bits((exponent as u64) << 52 | random.next() >> 12).min(most)
}
