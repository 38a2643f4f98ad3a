//! Inputs at the limits and beyond them: each number of a call by itself, two at once, and chords.

use super::calls::Call;
use super::faults::{two_to, Item};
use super::sorts;
use crate::inputs::{Kind, Pair, Point};
use crate::numbers::Numbers;
use crate::rng::Rng;

/// Each limit with either sign and the floats next to it, and NaNs and infinities.
pub fn specials() -> Vec<f64> {
    let limits = [
        1_048_576.0,
        1.0,
        1e-8,
        0.5,
        two_to(-40),
        two_to(-42),
        two_to(47),
        two_to(48),
        f64::MAX,
        f64::MIN_POSITIVE,
    ];
    let beside = |x: f64| [x.to_bits() - 1, x.to_bits(), x.to_bits() + 1].map(f64::from_bits);
    let mut all: Vec<f64> = limits.into_iter().flat_map(beside).collect();
    // NaNs: quiet and signalling, smallest and largest
    let patterns = [
        0,
        1,
        0x7ff0_0000_0000_0001,
        0x7ff8_0000_0000_0000,
        u64::MAX >> 1,
    ];
    all.extend(patterns.map(f64::from_bits));
    all.extend(all.clone().into_iter().map(|x| -x));
    all
}

/// The numbers of an accepted call, with each special one in each place.
pub fn one_at_a_time(numbers: &Numbers, specials: &[f64], mut then: impl FnMut(&Numbers)) {
    for place in 0..numbers.len() {
        for special in specials {
            then(&numbers.with(place, *special));
        }
    }
}

/// Every two places with a special number each: the first fault must be the answer.
pub fn two_at_once(
    numbers: &Numbers,
    specials: &[f64],
    rng: &mut Rng,
    mut then: impl FnMut(&Numbers),
) {
    for first in 0..numbers.len() {
        for second in 0..first {
            let [a, b] = [0; 2].map(|_| rng.pick(specials));
            then(&numbers.with(first, a).with(second, b));
        }
    }
}

/// Every two faults of two places at once, each with every refusal that its place has, in either order. The first in the order of
/// the checks must be the answer.
pub fn two_faults(call: &Call, numbers: &Numbers, rng: &mut Rng, mut then: impl FnMut(&Numbers)) {
    let all = changes(call, rng);
    for (i, one) in all.iter().enumerate() {
        for other in &all[..i] {
            let changed = other.iter().chain(one);
            then(&changed.fold(*numbers, |numbers, (at, x)| numbers.with(*at, *x)));
        }
    }
}

/// Numbers to put in, by their places.
type Change = Vec<(usize, f64)>;

/// What to change for each fault that a call can have. A chord's come first, so that a number of its segment can still be at
/// fault.
fn changes(call: &Call, rng: &mut Rng) -> Vec<Change> {
    let of_chord = |at: &usize| -> Change { (*at..).zip([0.0, 0.0, 0.5, 0.0, 0.0]).collect() };
    let mut all: Vec<Change> = call.chords.iter().map(of_chord).collect();
    let [nans, infinities, finite] = sorts::by_refusal();
    for (at, place) in call.order {
        let every = [rng.pick(&nans), rng.pick(&infinities), rng.pick(&finite)];
        let of_epsilon = [rng.pick(&every)];
        let numbers = if place.item == Item::Epsilon {
            &of_epsilon[..]
        } else {
            &every[..]
        };
        all.extend(numbers.iter().map(|x| vec![(*at, *x)]));
    }
    all
}

/// A pair with one or two chords as short as an arc's may be, or the next float, and a bulge that just makes an arc.
pub fn short_chords(rng: &mut Rng) -> Pair {
    let mut pair = Pair::draw(Kind::Accepted, rng);
    for segment in [&mut pair.v, &mut pair.u] {
        if rng.one_in(4) {
            continue;
        }
        let [short, bulge] = [two_to(-40), 1e-8].map(|x: f64| x.to_bits() - 1);
        let short = rng.sign() * f64::from_bits(short + rng.below(3));
        let (x, y) = if rng.one_in(2) {
            (short, 0.0)
        } else {
            (0.0, short)
        };
        segment.from.at = Point::default();
        segment.to.at = Point { x, y };
        if rng.one_in(2) {
            segment.from.bulge = rng.sign() * f64::from_bits(bulge + rng.below(3));
        }
    }
    pair
}

/// Numbers on which the call is accepted.
pub fn accepted(call: &Call, rng: &mut Rng) -> Numbers {
    loop {
        let numbers = (call.operands)(&Pair::draw(Kind::Accepted, rng), rng);
        if call.fault(&numbers).is_none() {
            return numbers;
        }
    }
}
