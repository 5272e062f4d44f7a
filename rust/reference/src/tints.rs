//! Tints (rule 11). A double is taken apart into whole numbers, and its products and sums are rounded here: there is no
//! floating point in this file but in its tests.

use crate::samples::{from_srgb, greatest, offset, scale};
use crate::{light, Refusal};

/// A tint, in doubles by their bits.
#[derive(Clone, Copy, Debug, PartialEq, Eq)]
pub enum Tint {
    Code([u8; 3]),
    Nonlinear([u64; 3]),
    Light([u64; 3]),
}

const DEPTH: u32 = 12;

/// The digits of a double.
const DIGITS: u32 = 53;

/// A double in size: digits × 2^exponent. It may be greater than the greatest double: only its sign counts then, since
/// an infinity and what is so large clip alike.
#[derive(Clone, Copy, Debug, PartialEq, Eq)]
struct Double {
    negative: bool,
    digits: u128,
    exponent: i32,
}

/// The double of these bits, unless it is infinite or not a number.
fn finite(bits: u64) -> Option<Double> {
    let fraction = u128::from(bits & ((1 << 52) - 1));
    let (digits, exponent) = match (bits >> 52) as i32 & 0x7ff {
        0x7ff => return None,
        0 => (fraction, -1074),
        biased => (fraction | 1 << 52, biased - 1075),
    };
    Some(Double {
        negative: bits >> 63 == 1,
        digits,
        exponent,
    })
}

impl Double {
    /// The number k with 2^(k − 1) ≤ size < 2^k.
    fn magnitude(self) -> i32 {
        (u128::BITS - self.digits.leading_zeros()) as i32 + self.exponent
    }

    /// To the nearest double, ties to the even one. Nothing here has an exponent below a double's least.
    fn rounded(self) -> Double {
        let excess = (u128::BITS - self.digits.leading_zeros()).saturating_sub(DIGITS);
        if excess == 0 {
            return self;
        }
        let whole = self.digits >> excess;
        let left = self.digits - (whole << excess);
        let half = 1 << (excess - 1);
        let up = left > half || (left == half && whole % 2 == 1);
        Double {
            digits: whole + u128::from(up),
            exponent: self.exponent + excess as i32,
            ..self
        }
    }

    fn times(self, factor: u32) -> Double {
        Double {
            digits: self.digits * u128::from(factor),
            ..self
        }
        .rounded()
    }

    /// Plus a number from 1,024 to 2,047, whose neighbours among the doubles are 2^−42 away.
    fn plus(self, number: u32) -> Double {
        if self.magnitude() > 20 {
            // Far beyond every code with or without the sum.
            return self;
        }
        if self.exponent < -110 {
            // Less than 2^−57: the sum is nearer to the number than to its neighbours.
            return Double {
                negative: false,
                digits: u128::from(number),
                exponent: 0,
            };
        }
        let exponent = self.exponent.min(0);
        let size = (self.digits << (self.exponent - exponent)) as i128;
        let own = if self.negative { -size } else { size };
        let sum = own + (i128::from(number) << -exponent);
        Double {
            negative: sum < 0,
            digits: sum.unsigned_abs(),
            exponent,
        }
        .rounded()
    }

    /// The nearest whole number, ties upward, clipped.
    fn nearest_within(self, low: i64, high: i64) -> i64 {
        if self.magnitude() < 0 {
            // Nearer to 0 than a half.
            return 0;
        }
        if self.magnitude() > 62 {
            return if self.negative { low } else { high };
        }
        let size = self.digits as i128;
        let own = if self.negative { -size } else { size };
        let nearest = if self.exponent < 0 {
            let unit = 1 << -self.exponent;
            (2 * own + unit).div_euclid(2 * unit)
        } else {
            own << self.exponent
        };
        nearest.clamp(low.into(), high.into()) as i64
    }
}

fn nonlinear_code(x: Double) -> i64 {
    x.times(scale(DEPTH) as u32)
        .plus(offset(DEPTH) as u32)
        .nearest_within(0, greatest(DEPTH))
}

fn light_number(x: Double) -> i32 {
    x.times(1_000_000).nearest_within(-2_000_000, 2_000_000) as i32
}

/// Three channels, or the refusal of the first that is infinite or not a number.
fn channels(bits: [u64; 3]) -> Result<[Double; 3], Refusal> {
    let mut all = [finite(0).expect("0 is finite"); 3];
    for (channel, bits) in bits.into_iter().enumerate() {
        all[channel] = finite(bits).ok_or(Refusal::at(17, channel))?;
    }
    Ok(all)
}

/// The pixel of a tint, with a caller's own way from light to code, which can be quicker than [`light::to_code`].
pub fn to_pixel_by(code_of: impl Fn(i32) -> i64, tint: Tint) -> Result<[i64; 3], Refusal> {
    Ok(match tint {
        Tint::Code(values) => values.map(|value| from_srgb(DEPTH, value.into())),
        Tint::Nonlinear(bits) => channels(bits)?.map(nonlinear_code),
        Tint::Light(bits) => channels(bits)?.map(|x| code_of(light_number(x))),
    })
}

/// The pixel of a tint.
pub fn to_pixel(tint: Tint) -> Result<[i64; 3], Refusal> {
    to_pixel_by(|light| light::to_code(DEPTH, light), tint)
}

#[cfg(test)]
mod tests {
    use super::*;

    fn bits(numbers: [f64; 3]) -> [u64; 3] {
        numbers.map(f64::to_bits)
    }

    /// Rule 10.8.
    #[test]
    fn examples() {
        let nonlinear = |numbers| to_pixel(Tint::Nonlinear(bits(numbers)));
        let of_light = |numbers| to_pixel(Tint::Light(bits(numbers)));
        assert_eq!(to_pixel(Tint::Code([0, 128, 255])), Ok([1536, 2560, 3576]));
        assert_eq!(nonlinear([0.0, 1.0, 1.25]), Ok([1536, 3576, 4086]));
        assert_eq!(
            nonlinear([-3059.0 / 4080.0, 1.0 / 4080.0, -0.0]),
            Ok([7, 1537, 1536])
        );
        let huge = 2f64.powi(1023);
        assert_eq!(
            nonlinear([huge, -huge, f64::from_bits(1)]),
            Ok([4095, 0, 1536])
        );
        assert_eq!(of_light([0.00313, 0.003131, 0.0]), Ok([1618, 1619, 1536]));
        let (inf, nan) = (f64::INFINITY, f64::NAN);
        assert_eq!(nonlinear([1.0, -inf, nan]), Err(Refusal::at(17, 1)));
        assert_eq!(of_light([nan, 1.0, inf]), Err(Refusal::at(17, 0)));
    }

    /// The roundings of this file are the machine's: products and sums of doubles from 2^−80 to 2^9, taken apart again.
    #[test]
    fn rounds_as_the_machine_does() {
        let same = |found: Double, expected: f64| {
            let expected = finite(expected.to_bits()).expect("a finite result");
            let least = found.exponent.min(expected.exponent);
            let digits = |x: Double| x.digits << (x.exponent - least);
            assert_eq!(
                (found.negative, digits(found)),
                (expected.negative, digits(expected))
            );
        };
        let mut state = 1u64;
        for _ in 0..200_000 {
            state = state.wrapping_mul(0x5851_f42d_4c95_7f2d).wrapping_add(1);
            let exponent = 1023 - 80 + (state >> 32) % 89;
            let x = f64::from_bits(state << 63 | exponent << 52 | state >> 12);
            let own = finite(x.to_bits()).expect("a finite double");
            same(own.times(2040), x * 2040.0);
            same(own.times(1_000_000), x * 1_000_000.0);
            same(own.times(2040).plus(1536), x * 2040.0 + 1536.0);
        }
    }
}
