//! Unsigned whole numbers of up to 512 bits, which is more than any comparison of powers by rule 6.5
//! needs. A product that does not fit is a fault of the caller and stops the program.

use std::cmp::Ordering;

const LIMBS: usize = 8;

/// Limbs of 64 bits, the lowest first.
#[derive(Clone, Copy, PartialEq, Eq)]
pub struct Big([u64; LIMBS]);

impl Big {
    pub fn new(value: u64) -> Self {
        let mut limbs = [0; LIMBS];
        limbs[0] = value;
        Big(limbs)
    }

    pub fn times(self, other: Big) -> Big {
        let mut product = [0u64; LIMBS];
        for (i, &a) in self.0.iter().enumerate() {
            if a == 0 {
                continue;
            }
            let mut carry = 0u128;
            for (j, &b) in other.0.iter().enumerate() {
                if i + j >= LIMBS {
                    assert!(b == 0 && carry == 0, "a product of more than 512 bits");
                    continue;
                }
                let sum = u128::from(a) * u128::from(b) + u128::from(product[i + j]) + carry;
                product[i + j] = sum as u64;
                carry = sum >> 64;
            }
            assert!(carry == 0, "a product of more than 512 bits");
        }
        Big(product)
    }

    /// By squaring: of the bits of the exponent, the highest comes first.
    pub fn power(self, exponent: u32) -> Big {
        (0..u32::BITS - exponent.leading_zeros())
            .rev()
            .fold(Big::new(1), |power, bit| {
                let square = power.times(power);
                if exponent >> bit & 1 == 1 {
                    square.times(self)
                } else {
                    square
                }
            })
    }
}

impl PartialOrd for Big {
    fn partial_cmp(&self, other: &Self) -> Option<Ordering> {
        Some(self.cmp(other))
    }
}

impl Ord for Big {
    fn cmp(&self, other: &Self) -> Ordering {
        self.0.iter().rev().cmp(other.0.iter().rev())
    }
}

#[cfg(test)]
mod tests {
    use super::Big;

    #[test]
    fn powers_and_order() {
        assert!(Big::new(10).power(19) == Big::new(10_000_000_000_000_000_000));
        let two_to_64 = Big::new(2).power(64);
        assert!(two_to_64 > Big::new(u64::MAX));
        assert!(two_to_64.times(two_to_64) == Big::new(2).power(128));
        assert!(Big::new(3).power(300) < Big::new(2).power(480));
        assert!(Big::new(3).power(303) > Big::new(2).power(480));
    }

    #[test]
    #[should_panic(expected = "more than 512 bits")]
    fn overflow_stops() {
        Big::new(2).power(512);
    }
}
