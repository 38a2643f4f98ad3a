//! Pairs of grid lines to try; each kind would show a certain slip.

use super::judge::Epsilon;
use super::plane::{Segment, Spot};
use crate::rng::Rng;

/// The grid's limit.
const FAR: i64 = 1 << 20;

/// Two lines and an epsilon, once as for a call and once as for the judge.
#[derive(Clone, Copy, Debug)]
pub struct Pair {
    pub v: Segment,
    pub u: Segment,
    pub epsilon: f64,
    pub exact: Epsilon,
}

type Draw = fn(&mut Rng, Epsilon) -> (Segment, Segment);

/// The kinds of pairs, each with its name.
pub const KINDS: [(&str, Draw); 9] = [
    ("random", random),
    ("small grid", small),
    ("nearly parallel", nearly_parallel),
    ("parallel", parallel),
    ("collinear", collinear),
    ("touching ends", touching),
    ("zero length", zero_length),
    ("beyond an end", beyond),
    ("at the limit", at_limit),
];

/// A pair of the kind, its segments and their ends in any order.
pub fn pair(kind: usize, rng: &mut Rng) -> Pair {
    let (epsilon, exact) = epsilon(rng);
    let (mut v, mut u) = KINDS[kind].1(rng, exact);
    if rng.one_in(2) {
        (v, u) = (u, v);
    }
    for s in [&mut v, &mut u] {
        if rng.one_in(2) {
            s.reverse();
        }
    }
    if rng.one_in(2) {
        for s in [&mut v, &mut u] {
            *s = s.map(|p| Spot { x: p.y, y: p.x });
        }
    }
    Pair {
        v,
        u,
        epsilon,
        exact,
    }
}

/// From 1/1024 to 1/2: an end, one float beside it, a power of two, or any float between.
pub fn epsilon(rng: &mut Rng) -> (f64, Epsilon) {
    const LEAST: u64 = 0x3f50_0000_0000_0000;
    const MOST: u64 = 0x3fe0_0000_0000_0000;
    let bits = match rng.below(8) {
        0 | 1 => LEAST,
        2 | 3 => MOST,
        4 => LEAST + 1,
        5 => MOST - 1,
        6 => LEAST + (rng.below(10) << 52),
        _ => LEAST + rng.below(MOST - LEAST + 1),
    };
    let (field, digits) = (bits >> 52, bits & ((1 << 52) - 1));
    let num = u128::from(digits | 1 << 52);
    (
        f64::from_bits(bits),
        Epsilon {
            num,
            down: 1075 - field as u32,
        },
    )
}

/// A whole number from `-most` to `most`.
fn signed(rng: &mut Rng, most: i64) -> i64 {
    rng.below(2 * most as u64 + 1) as i64 - most
}

/// From `-most` to `most`; every count of digits is equally likely.
fn spread(rng: &mut Rng, most: i64) -> i64 {
    let bits = 1 + rng.below(21) as u32;
    signed(rng, most.min((1 << bits) - 1))
}

fn spot(rng: &mut Rng, most: i64) -> Spot {
    Spot {
        x: signed(rng, most),
        y: signed(rng, most),
    }
}

fn clamp(n: i64) -> i64 {
    n.clamp(-FAR, FAR)
}

fn moved(p: Spot, dx: i64, dy: i64) -> Spot {
    Spot {
        x: clamp(p.x + dx),
        y: clamp(p.y + dy),
    }
}

fn on_grid(p: Spot) -> bool {
    p.x.abs() <= FAR && p.y.abs() <= FAR
}

fn segment(rng: &mut Rng, most: i64) -> Segment {
    [spot(rng, most), spot(rng, most)]
}

fn random(rng: &mut Rng, _: Epsilon) -> (Segment, Segment) {
    (segment(rng, FAR), segment(rng, FAR))
}

fn small(rng: &mut Rng, _: Epsilon) -> (Segment, Segment) {
    let most = 1 + rng.below(12) as i64;
    (segment(rng, most), segment(rng, most))
}

/// Each end of u is a few steps beside an end of v, or beside a point of v's line.
fn nearly_parallel(rng: &mut Rng, _: Epsilon) -> (Segment, Segment) {
    let v = segment(rng, FAR);
    let [a, b] = v;
    let (p, q) = if rng.one_in(2) {
        (a, b)
    } else {
        let part = |rng: &mut Rng| {
            let (s, t) = (rng.below(4097) as i64, 4096);
            Spot {
                x: a.x + (b.x - a.x) * s / t,
                y: a.y + (b.y - a.y) * s / t,
            }
        };
        (part(rng), part(rng))
    };
    let beside = |p: Spot, rng: &mut Rng| moved(p, signed(rng, 2), signed(rng, 2));
    (v, [beside(p, rng), beside(q, rng)])
}

/// A way that is a multiple of no other, so that a line along it meets the grid only at whole multiples.
fn way(rng: &mut Rng, most: i64) -> (i64, i64) {
    loop {
        let (x, y) = (spread(rng, most), spread(rng, most));
        if gcd(x, y) == 1 {
            return (x, y);
        }
    }
}

fn gcd(a: i64, b: i64) -> i64 {
    if b == 0 {
        a.abs()
    } else {
        gcd(b, a % b)
    }
}

/// x and y with `a * y - b * x = 1`, where a and b have no common factor.
fn beside_by_one(a: i64, b: i64) -> (i64, i64) {
    if b == 0 {
        return (0, a);
    }
    // b * y - (a % b) * x = 1, and a % b is a - a / b * b
    let (x, y) = beside_by_one(b, a % b);
    (-(y + a / b * x), -x)
}

/// Ends at whole steps of one way.
fn collinear(rng: &mut Rng, _: Epsilon) -> (Segment, Segment) {
    loop {
        let (dx, dy) = way(rng, FAR);
        let longest = (2 * FAR / dx.abs().max(dy.abs())).min(1 + spread(rng, FAR).abs());
        let start = spot(rng, FAR);
        let at = |rng: &mut Rng| {
            let steps = rng.below(longest as u64 + 1) as i64;
            Spot {
                x: start.x + dx * steps,
                y: start.y + dy * steps,
            }
        };
        let ends = [at(rng), at(rng), at(rng), at(rng)];
        if ends.iter().all(|&p| on_grid(p)) {
            let [a, b, c, d] = ends;
            return ([a, b], [c, if rng.one_in(8) { a } else { d }]);
        }
    }
}

/// As collinear, but u lies on the next grid line beside v's, or on a later one.
fn parallel(rng: &mut Rng, epsilon: Epsilon) -> (Segment, Segment) {
    let (v, u) = collinear(rng, epsilon);
    let (dx, dy) = (v[1].x - v[0].x, v[1].y - v[0].y);
    let one = gcd(dx, dy).max(1);
    let (x, y) = match (dx / one, dy / one) {
        (0, 0) => (1, 0),
        (a, b) => beside_by_one(a, b),
    };
    let times = 1 + rng.below(3) as i64;
    let beside = u.map(|p| Spot {
        x: p.x + times * x,
        y: p.y + times * y,
    });
    if beside.iter().all(|&p| on_grid(p)) {
        (v, beside)
    } else {
        (v, u.map(|p| moved(p, signed(rng, 1), signed(rng, 1))))
    }
}

/// An end of u is an end of v, or a grid point of v.
fn touching(rng: &mut Rng, _: Epsilon) -> (Segment, Segment) {
    let most = 1 + spread(rng, FAR - 1).abs();
    let v = segment(rng, most);
    let [a, b] = v;
    let steps = gcd(b.x - a.x, b.y - a.y);
    let at = match rng.below(4) {
        0 => a,
        1 => b,
        _ if steps == 0 => a,
        _ => {
            let step = rng.below(steps as u64 + 1) as i64;
            Spot {
                x: a.x + (b.x - a.x) / steps * step,
                y: a.y + (b.y - a.y) / steps * step,
            }
        }
    };
    (v, [at, spot(rng, most)])
}

/// v is a point: anywhere, on u, or a step beside it.
fn zero_length(rng: &mut Rng, epsilon: Epsilon) -> (Segment, Segment) {
    let (u, [at, _]) = touching(rng, epsilon);
    let p = match rng.below(4) {
        0 => spot(rng, FAR),
        1 | 2 => at,
        _ => moved(at, signed(rng, 1), signed(rng, 1)),
    };
    ([p, p], if rng.one_in(8) { [at, at] } else { u })
}

/// v ends beside u, less than a few epsilons from it: it stops short of u, or goes a little through it.
fn beyond(rng: &mut Rng, epsilon: Epsilon) -> (Segment, Segment) {
    let (dx, dy) = match way(rng, FAR) {
        (x, y) if x.abs() >= y.abs() => (x.abs(), y),
        (x, y) => (x, y.abs()),
    };
    let (x, y) = beside_by_one(dx, dy);
    // a step to the side is 1 / length of the way, so this many make up to three epsilons
    let longest = dx.abs().max(dy.abs());
    let most = (3 * epsilon.num * longest as u128) >> epsilon.down;
    let steps = signed(rng, most as i64 + 1);
    // moved along the way by whole ways, until it lies beside u
    let ways = if dx.abs() >= dy.abs() {
        (steps * x).div_euclid(dx)
    } else {
        (steps * y).div_euclid(dy)
    };
    let (x, y) = (steps * x - ways * dx, steps * y - ways * dy);
    for _ in 0..64 {
        let start = spot(rng, FAR);
        let u = [
            start,
            Spot {
                x: start.x + dx,
                y: start.y + dy,
            },
        ];
        let end = Spot {
            x: start.x + x,
            y: start.y + y,
        };
        let other = match rng.below(3) {
            0 => spot(rng, FAR),
            _ => moved(end, spread(rng, FAR), spread(rng, FAR)),
        };
        if on_grid(end) && u.iter().all(|&p| on_grid(p)) {
            return ([other, end], u);
        }
    }
    small(rng, epsilon)
}

/// Coordinates at the limit or one below it, at 0 or 1, now and then any.
fn at_limit(rng: &mut Rng, _: Epsilon) -> (Segment, Segment) {
    let one = |rng: &mut Rng| {
        let size = match rng.below(8) {
            0..=2 => FAR,
            3 | 4 => FAR - 1,
            5 => 0,
            6 => 1,
            _ => rng.below(FAR as u64 + 1) as i64,
        };
        if rng.one_in(2) {
            size
        } else {
            -size
        }
    };
    let mut spot = || Spot {
        x: one(rng),
        y: one(rng),
    };
    ([spot(), spot()], [spot(), spot()])
}

#[cfg(test)]
mod tests {
    use super::*;
    use crate::search::plane::{crossing, reaches, share, share_more};

    #[test]
    fn a_step_beside() {
        for (a, b) in [
            (1, 0),
            (-1, 0),
            (0, 1),
            (0, -1),
            (3, 5),
            (-7, 4),
            (8, -13),
            (1 << 20, 1),
        ] {
            let (x, y) = beside_by_one(a, b);
            assert_eq!(a * y - b * x, 1, "{a} {b}");
        }
    }

    #[test]
    fn every_kind_is_on_the_grid() {
        let mut rng = Rng::new(5);
        for kind in 0..KINDS.len() {
            for _ in 0..2000 {
                let p = pair(kind, &mut rng);
                assert!(p.v.iter().chain(&p.u).all(|&p| on_grid(p)), "{p:?}");
                assert!((1.0 / 1024.0..=0.5).contains(&p.epsilon));
                let exact = (0..p.exact.down).fold(p.exact.num as f64, |x, _| x / 2.0);
                assert_eq!(exact, p.epsilon);
            }
        }
    }

    /// Each kind often meets the case for which it is there.
    #[test]
    fn kinds_do_what_they_say() {
        let mut rng = Rng::new(6);
        let mut often = |name: &str, holds: fn(&Pair) -> bool| {
            let kind = KINDS.iter().position(|k| k.0 == name).expect("a kind");
            (0..1000).filter(|_| holds(&pair(kind, &mut rng))).count()
        };
        assert!(often("collinear", |p| share_more(p.v, p.u)) > 200);
        assert!(often("touching ends", |p| share(p.v, p.u)) > 990);
        assert!(often("zero length", |p| share(p.v, p.u)) > 300);
        assert!(
            often("parallel", |p| crossing(p.v, p.u).is_none()
                && !share(p.v, p.u))
                > 400
        );
        assert!(often("nearly parallel", |p| crossing(p.v, p.u).is_some()) > 900);
        let misses =
            |p: &Pair| crossing(p.v, p.u).is_some_and(|c| reaches(p.v, c) != reaches(p.u, c));
        assert!(often("beyond an end", misses) > 300);
    }
}
