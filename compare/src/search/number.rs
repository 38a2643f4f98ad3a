//! A float as a whole number over a power of two.

use super::wide::Wide;

/// `size / 2^down`, with a minus if `negative`.
#[derive(Clone, Copy, Debug, PartialEq, Eq)]
pub struct Number {
    pub negative: bool,
    pub size: u128,
    pub down: u32,
}

impl Number {
    /// None for a NaN or an infinity, and for a number that is no answer on the grid: above 2^64, or with digits below 2^-160.
    pub fn of(x: f64) -> Option<Number> {
        let bits = x.to_bits();
        let (field, digits) = (
            (bits >> 52) as u32 & 0x7ff,
            u128::from(bits & ((1 << 52) - 1)),
        );
        let (size, power) = match field {
            0 => (digits, -1074),
            0x7ff => return None,
            _ => (digits | 1 << 52, field as i32 - 1075),
        };
        let (size, down) = if size == 0 {
            (0, 0)
        } else {
            let even = (size.trailing_zeros() as i32).min((-power).max(0));
            (size >> even, -(power + even))
        };
        let (size, down) = match down {
            -12..=0 => (size << -down, 0),
            1..=160 => (size, down as u32),
            _ => return None,
        };
        Some(Number {
            negative: bits >> 63 == 1,
            size,
            down,
        })
    }

    /// How far it lies from the fraction `top / bottom`, in parts of `2^down * bottom`.
    pub fn off(self, top: i128, bottom: u128) -> Wide {
        let ours = Wide::from(self.size).times(Wide::from(bottom));
        let theirs = Wide::from(top.unsigned_abs()).raised(self.down);
        if self.negative == (top < 0) {
            ours.gap(theirs)
        } else {
            ours.plus(theirs)
        }
    }
}

#[cfg(test)]
mod tests {
    use super::*;

    #[test]
    fn floats_are_taken_apart() {
        let number = |negative, size, down| {
            Some(Number {
                negative,
                size,
                down,
            })
        };
        assert_eq!(Number::of(6.0), number(false, 6, 0));
        assert_eq!(Number::of(-0.375), number(true, 3, 3));
        assert_eq!(Number::of(0.0), number(false, 0, 0));
        assert_eq!(Number::of(-1_048_576.0), number(true, 1 << 20, 0));
        assert_eq!(Number::of(f64::NAN), None);
        assert_eq!(Number::of(f64::INFINITY), None);
        assert_eq!(Number::of(1e-300), None);
    }

    #[test]
    fn distances_from_fractions() {
        let half = Number::of(0.5).unwrap();
        assert_eq!(half.off(1, 2), Wide::from(0));
        assert_eq!(half.off(1, 3), Wide::from(1));
        assert_eq!(half.off(-1, 2), Wide::from(4));
    }
}
