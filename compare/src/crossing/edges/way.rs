//! A way over an edge: an input of which one number moves, and the inputs around the place where a comparison changes.

use crate::numbers::{Numbers, MOST};
use crate::rng::Rng;

pub struct Way {
    numbers: Numbers,
    /// Which number moves, and by how much to either side.
    place: usize,
    by: f64,
}

impl Way {
    pub fn new(numbers: Numbers, place: usize, by: f64) -> Way {
        Way { numbers, place, by }
    }

    /// A number moves by a part of itself.
    pub fn in_parts(numbers: Numbers, place: usize, part: f64) -> Way {
        let by = numbers[place].abs() * part;
        Way { numbers, place, by }
    }

    /// Twenty-four inputs around the place where a comparison changes; none if it does not.
    pub fn over(&self, holds: impl Fn(&[f64]) -> bool, rng: &mut Rng) -> Vec<Numbers> {
        let at = |rank: i64| self.numbers.with(self.place, of_rank(rank));
        let middle = self.numbers[self.place];
        // most are drawn near that place already
        let found = [self.by / (1 << 24) as f64, self.by]
            .into_iter()
            .find_map(|by| {
                let (from, to) = (rank(middle - by), rank(middle + by));
                let side = holds(&at(from));
                (holds(&at(to)) != side).then_some((from, to, side))
            });
        let Some((mut near, mut far, side)) = found else {
            return Vec::new();
        };
        let mut moving = self.numbers;
        while far.abs_diff(near) > 1 {
            let middle = (near & far) + ((near ^ far) >> 1); // the mean of the two, rounded down
            moving.put(self.place, of_rank(middle));
            if holds(&moving) == side {
                near = middle;
            } else {
                far = middle;
            }
        }
        let away = far - near; // a step to the other side
        let mut steps = [0; 7];
        for (few, steps) in steps.iter_mut().enumerate().skip(1) {
            *steps = if few < 4 {
                1 + rng.below(4) as i64
            } else {
                1 << rng.below(20)
            };
        }
        let straight = |steps: i64| [at(near - away * steps), at(far + away * steps)];
        let mut inputs: Vec<Numbers> = steps.into_iter().flat_map(straight).collect();
        for _ in 0..5 {
            inputs.extend([shaken(at(near), rng), shaken(at(far), rng)]);
        }
        inputs
    }
}

/// The same numbers except for some last bits. Zeros stay, and so do bulges that make a line or nearly do.
fn shaken(numbers: Numbers, rng: &mut Rng) -> Numbers {
    const STEPS: [i64; 8] = [-2, -1, -1, 0, 0, 1, 1, 2];
    let is_bulge = |place: usize| numbers.len() == MOST && place % 3 == 2;
    let mut bits = rng.bits();
    let mut shaken = numbers;
    for (place, number) in numbers.iter().enumerate() {
        let least = if is_bulge(place) { 2e-8 } else { 0.0 };
        if number.abs() > least {
            let steps = STEPS[(bits % 8) as usize];
            shaken.put(place, of_rank(rank(*number) + steps));
        }
        bits /= 8;
    }
    shaken
}

/// The floats in their order, numbered; zeros of either sign are one.
fn rank(x: f64) -> i64 {
    let magnitude = x.abs().to_bits() as i64;
    if x < 0.0 {
        -magnitude
    } else {
        magnitude
    }
}

fn of_rank(rank: i64) -> f64 {
    let magnitude = f64::from_bits(rank.unsigned_abs());
    if rank < 0 {
        -magnitude
    } else {
        magnitude
    }
}

#[cfg(test)]
mod tests {
    use super::*;

    #[test]
    fn floats_are_numbered_in_order() {
        assert_eq!(rank(0.0), rank(-0.0));
        for x in [-1.5, -f64::MIN_POSITIVE, 0.0, 1e-300, 1.0] {
            assert_eq!(of_rank(rank(x)), x);
            assert!(of_rank(rank(x) + 1) > x);
            assert!(of_rank(rank(x) - 1) < x);
        }
    }

    /// The first two inputs are neighbours on either side of the place, whether it is near or far.
    #[test]
    fn the_turn_is_found() {
        let edge = 0.1;
        for middle in [0.1, -0.3, 0.7] {
            let way = Way::new([middle].into(), 0, 2.0);
            let found = way.over(|n| n[0] < edge, &mut Rng::new(1));
            let [first, second] = [0, 1].map(|i: usize| rank(found[i][0]));
            assert_eq!([first, second], [rank(edge) - 1, rank(edge)]);
        }
    }

    #[test]
    fn a_way_on_one_side_gives_nothing() {
        let way = Way::in_parts([1.0].into(), 0, 0.5);
        assert!(way.over(|n| n[0] < 2.0, &mut Rng::new(1)).is_empty());
    }
}
