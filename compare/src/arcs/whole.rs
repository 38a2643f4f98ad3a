//! Whole numbers of either sign, of up to 512 bits: exact sums and products of what no machine word holds. More bits are a panic.

use std::cmp::Ordering;

const LIMBS: usize = 8;

/// The lowest 64 bits first; `used` is how many limbs there are below the leading zeros.
#[derive(Clone, Copy, Debug)]
pub struct Whole {
    negative: bool,
    used: usize,
    limbs: [u64; LIMBS],
}

impl From<i128> for Whole {
    fn from(n: i128) -> Whole {
        let size = n.unsigned_abs();
        let mut limbs = [0; LIMBS];
        limbs[0] = size as u64;
        limbs[1] = (size >> 64) as u64;
        Whole::of(n < 0, limbs, 2)
    }
}

impl Whole {
    fn of(negative: bool, limbs: [u64; LIMBS], most: usize) -> Whole {
        let mut used = most;
        while used > 0 && limbs[used - 1] == 0 {
            used -= 1;
        }
        Whole {
            negative: negative && used > 0,
            used,
            limbs,
        }
    }

    /// -1, 0 or 1.
    pub fn sign(&self) -> i32 {
        match (self.used, self.negative) {
            (0, _) => 0,
            (_, true) => -1,
            (_, false) => 1,
        }
    }

    pub fn negated(self) -> Whole {
        Whole {
            negative: !self.negative && self.used > 0,
            ..self
        }
    }

    pub fn times(&self, other: &Whole) -> Whole {
        let most = self.used + other.used;
        assert!(most <= LIMBS, "a product beyond 512 bits");
        let mut product = [0; LIMBS];
        for i in 0..self.used {
            let mut carry: u128 = 0;
            for j in 0..other.used {
                carry += u128::from(self.limbs[i]) * u128::from(other.limbs[j])
                    + u128::from(product[i + j]);
                product[i + j] = carry as u64;
                carry >>= 64;
            }
            product[i + other.used] = carry as u64;
        }
        Whole::of(self.negative != other.negative, product, most)
    }

    pub fn plus(&self, other: &Whole) -> Whole {
        if self.negative == other.negative {
            return self.grown(other);
        }
        match self.order(other) {
            Ordering::Less => other.lessened(self),
            _ => self.lessened(other),
        }
    }

    pub fn less(&self, other: &Whole) -> Whole {
        self.plus(&other.negated())
    }

    /// The magnitudes' sum, with this one's sign.
    fn grown(&self, other: &Whole) -> Whole {
        let most = self.used.max(other.used);
        let mut sum = [0; LIMBS];
        let mut carry: u128 = 0;
        for (i, place) in sum.iter_mut().enumerate().take(most) {
            carry += u128::from(self.limbs[i]) + u128::from(other.limbs[i]);
            *place = carry as u64;
            carry >>= 64;
        }
        if carry == 0 {
            return Whole::of(self.negative, sum, most);
        }
        assert!(most < LIMBS, "a sum beyond 512 bits");
        sum[most] = carry as u64;
        Whole::of(self.negative, sum, most + 1)
    }

    /// The magnitudes' difference, with this one's sign: the other is not the larger.
    fn lessened(&self, other: &Whole) -> Whole {
        let mut rest = [0; LIMBS];
        let mut borrow = false;
        for (i, place) in rest.iter_mut().enumerate().take(self.used) {
            let (once, a) = self.limbs[i].overflowing_sub(other.limbs[i]);
            let (twice, b) = once.overflowing_sub(u64::from(borrow));
            *place = twice;
            borrow = a || b;
        }
        Whole::of(self.negative, rest, self.used)
    }

    /// The magnitudes in order.
    pub fn order(&self, other: &Whole) -> Ordering {
        let ours = self.limbs[..self.used].iter().rev();
        let theirs = other.limbs[..other.used].iter().rev();
        self.used.cmp(&other.used).then_with(|| ours.cmp(theirs))
    }

    /// This times 2 to the `bits`.
    pub fn raised(&self, bits: u32) -> Whole {
        let (whole, part) = ((bits / 64) as usize, bits % 64);
        let mut moved = [0; LIMBS];
        for i in 0..self.used {
            let limb = u128::from(self.limbs[i]) << part;
            moved[i + whole] |= limb as u64;
            if limb >> 64 != 0 {
                moved[i + whole + 1] |= (limb >> 64) as u64;
            }
        }
        Whole::of(self.negative, moved, LIMBS)
    }

    fn bits(&self) -> u32 {
        match self.used {
            0 => 0,
            n => 64 * n as u32 - self.limbs[n - 1].leading_zeros(),
        }
    }

    /// The whole part of the root of a number that is not negative.
    pub fn root(&self) -> Whole {
        let mut root = Whole::from(0);
        for bit in (0..self.bits().div_ceil(2)).rev() {
            let tried = root.plus(&Whole::from(1).raised(bit));
            if tried.times(&tried).order(self) != Ordering::Greater {
                root = tried;
            }
        }
        root
    }

    /// To some 50 bits.
    pub fn float(&self) -> f64 {
        let size = self.limbs[..self.used]
            .iter()
            .rev()
            .fold(0.0, |sum, &limb| {
                sum * 18_446_744_073_709_551_616.0 + limb as f64
            });
        if self.negative {
            -size
        } else {
            size
        }
    }
}

#[cfg(test)]
mod tests {
    use super::*;

    fn whole(n: i128) -> Whole {
        Whole::from(n)
    }

    fn same(a: Whole, b: Whole) -> bool {
        a.less(&b).sign() == 0 && a.sign() == b.sign()
    }

    #[test]
    fn small_numbers_as_the_machine_has_them() {
        let few = [0, 1, -1, 7, -12, i64::MAX as i128, -(1 << 62), 3 << 61];
        for a in few {
            for b in few {
                let (x, y) = (whole(a), whole(b));
                assert!(same(x.times(&y), whole(a * b)), "{a} * {b}");
                assert!(same(x.plus(&y), whole(a + b)), "{a} + {b}");
                assert!(same(x.less(&y), whole(a - b)), "{a} - {b}");
                assert_eq!(x.sign(), a.signum() as i32);
                assert_eq!(x.order(&y), a.unsigned_abs().cmp(&b.unsigned_abs()));
            }
        }
    }

    #[test]
    fn products_and_shifts_agree() {
        let a = whole(i128::MAX);
        assert!(same(a.times(&whole(1 << 100)), a.raised(100)));
        assert!(same(a.plus(&a), a.raised(1)));
        // (2^127 - 1)^2 = 2^254 - 2^128 + 1
        let square = whole(1).raised(254).less(&whole(1).raised(128));
        assert!(same(a.times(&a), square.plus(&whole(1))));
        assert!(same(a.raised(300).less(&a.raised(300)), whole(0)));
        // a borrow that goes on through limbs of zeros, and a carry through limbs of ones
        let ones = whole(1).raised(200).less(&whole(1));
        assert!(same(
            ones.less(&a.raised(73)),
            whole(1).raised(73).less(&whole(1))
        ));
        assert!(same(ones.plus(&whole(1)), whole(1).raised(200)));
    }

    #[test]
    fn roots_are_the_largest_whose_square_fits() {
        for n in [0, 1, 2, 3, 4, 80, 81, 82, (1 << 100) - 1] {
            let (n, root) = (whole(n), whole(n).root());
            let next = root.plus(&whole(1));
            assert!(root.times(&root).order(&n) != Ordering::Greater);
            assert_eq!(next.times(&next).order(&n), Ordering::Greater);
        }
        let wide = whole(12_345).raised(200);
        assert!(same(wide.times(&wide).root(), wide));
        assert_eq!(whole(-3).raised(70).float(), -3.0 * (1u128 << 70) as f64);
    }

    #[test]
    #[should_panic(expected = "beyond 512 bits")]
    fn too_many_bits_are_told() {
        let wide = whole(1).raised(300);
        wide.times(&wide);
    }
}
