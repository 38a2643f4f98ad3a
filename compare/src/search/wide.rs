//! Natural numbers of up to 448 bits: exact products and comparisons of numbers too large for a machine word.

use std::cmp::Ordering;

const LIMBS: usize = 7;

/// The lowest 64 bits first.
#[derive(Clone, Copy, Debug, PartialEq, Eq)]
pub struct Wide([u64; LIMBS]);

impl From<u128> for Wide {
    fn from(n: u128) -> Wide {
        let mut limbs = [0; LIMBS];
        limbs[0] = n as u64;
        limbs[1] = (n >> 64) as u64;
        Wide(limbs)
    }
}

impl Wide {
    pub fn times(self, other: Wide) -> Wide {
        let mut sum = [0; LIMBS];
        for (i, &a) in self.0.iter().enumerate().filter(|(_, &a)| a != 0) {
            let mut carry: u128 = 0;
            for (j, &b) in other.0.iter().enumerate() {
                if i + j >= LIMBS {
                    assert!(b == 0 && carry == 0, "a product beyond 448 bits");
                    continue;
                }
                carry += u128::from(a) * u128::from(b) + u128::from(sum[i + j]);
                sum[i + j] = carry as u64;
                carry >>= 64;
            }
            assert!(carry == 0, "a product beyond 448 bits");
        }
        Wide(sum)
    }

    pub fn plus(self, other: Wide) -> Wide {
        let mut sum = [0; LIMBS];
        let mut carry: u128 = 0;
        for (i, place) in sum.iter_mut().enumerate() {
            carry += u128::from(self.0[i]) + u128::from(other.0[i]);
            *place = carry as u64;
            carry >>= 64;
        }
        assert!(carry == 0, "a sum beyond 448 bits");
        Wide(sum)
    }

    /// The distance of the two.
    pub fn gap(self, other: Wide) -> Wide {
        let (more, less) = if self < other {
            (other, self)
        } else {
            (self, other)
        };
        let mut rest = [0; LIMBS];
        let mut borrow = false;
        for (i, place) in rest.iter_mut().enumerate() {
            let (once, a) = more.0[i].overflowing_sub(less.0[i]);
            let (twice, b) = once.overflowing_sub(u64::from(borrow));
            *place = twice;
            borrow = a || b;
        }
        Wide(rest)
    }

    /// This times 2 to the `bits`.
    pub fn raised(self, bits: u32) -> Wide {
        let (whole, part) = ((bits / 64) as usize, bits % 64);
        let mut sum = [0; LIMBS];
        for (i, &limb) in self.0.iter().enumerate().filter(|(_, &limb)| limb != 0) {
            let moved = u128::from(limb) << part;
            sum[i + whole] |= moved as u64;
            if moved >> 64 != 0 {
                sum[i + whole + 1] |= (moved >> 64) as u64;
            }
        }
        Wide(sum)
    }

    /// The whole part of this over `other`, if it is below 2^63.
    pub fn over(self, other: Wide) -> u64 {
        let mut quotient = 0;
        for bit in (0..63).rev() {
            let tried = quotient | (1 << bit);
            if other.times(Wide::from(u128::from(tried))) <= self {
                quotient = tried;
            }
        }
        quotient
    }
}

impl Ord for Wide {
    fn cmp(&self, other: &Wide) -> Ordering {
        self.0.iter().rev().cmp(other.0.iter().rev())
    }
}

impl PartialOrd for Wide {
    fn partial_cmp(&self, other: &Wide) -> Option<Ordering> {
        Some(self.cmp(other))
    }
}

#[cfg(test)]
mod tests {
    use super::*;

    fn wide(n: u128) -> Wide {
        Wide::from(n)
    }

    #[test]
    fn products_and_shifts_agree() {
        let a = wide(u128::MAX);
        assert_eq!(a.times(wide(1 << 100)), a.raised(100));
        assert_eq!(a.times(a), a.raised(128).gap(a));
        assert_eq!(a.plus(a), a.raised(1));
    }

    #[test]
    fn order_goes_by_the_highest_bits() {
        assert!(wide(1).raised(200) > wide(u128::MAX));
        assert!(wide(5) < wide(6));
    }

    #[test]
    fn quotients() {
        assert_eq!(wide(7).raised(200).over(wide(2).raised(200)), 3);
        assert_eq!(wide(1 << 70).over(wide(1 << 10)), 1 << 60);
    }
}
