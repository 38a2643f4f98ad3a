//! Layouts to move: numbers at and beside every length of a packed number, few vertices mostly, and many now and then.

use super::model::Role;
use crate::form::{Place, Sheet, MOST_VERTICES};
use crate::rng::Rng;

/// Numbers at which a packed number gets a byte longer, and the limits, for a role.
pub const EDGES: usize = 15;

pub fn edges(role: Role) -> [i64; EDGES] {
    let limit = role.limit();
    [
        0,
        1,
        -1,
        63,
        64,
        -64,
        -65,
        8191,
        8192,
        -8192,
        -8193,
        limit - 1,
        1 - limit,
        limit,
        -limit,
    ]
}

pub const OF_A_PLACE: [Role; 3] = [Role::X, Role::Y, Role::Bulge];

fn number(role: Role, rng: &mut Rng) -> i64 {
    match rng.below(8) {
        0..=2 => rng.pick(&edges(role)),
        3 => 0,
        4 => rng.below(256) as i64 - 128,
        5 => {
            // as many bits as are drawn
            let most = (1 << rng.below(22)).min(role.limit());
            let n = rng.below(most as u64 + 1) as i64;
            if rng.one_in(2) {
                n
            } else {
                -n
            }
        }
        _ => rng.below(2 * role.limit() as u64 + 1) as i64 - role.limit(),
    }
}

pub fn place(rng: &mut Rng) -> Place {
    OF_A_PLACE.map(|role| number(role, rng))
}

fn path(vertices: u64, rng: &mut Rng) -> Vec<Place> {
    (0..vertices).map(|_| place(rng)).collect()
}

/// A few vertices, so that much can be tried.
pub fn small(rng: &mut Rng) -> Sheet {
    let [n, m] = [rng.below(5), rng.below(5)];
    Sheet::new(path(n, rng), path(m, rng))
}

/// Mostly small; else any counts, counts of two bytes, or the most there are.
pub fn any(rng: &mut Rng) -> Sheet {
    let most = MOST_VERTICES as u64;
    let mut count = || match rng.below(64) {
        0 => rng.pick(&[most - 1, most, 127, 128]),
        1 => rng.below(most + 1),
        2..=5 => rng.below(24),
        _ => rng.below(5),
    };
    let [n, m] = [count(), count()];
    Sheet::new(path(n, rng), path(m, rng))
}

/// The most vertices, each the same.
pub fn full(place: Place) -> Sheet {
    let path = vec![place; MOST_VERTICES as usize];
    Sheet::new(path.clone(), path)
}

/// No packed file is longer: each number has as many bytes as can be.
pub fn longest() -> Sheet {
    full(OF_A_PLACE.map(Role::limit))
}

/// No text is longer: each number has as many characters as can be.
pub fn longest_text() -> Sheet {
    full(OF_A_PLACE.map(|role| -role.limit()))
}
