//! Packed files that are damaged in one way each. Some are still files of another layout: the model says which.

use std::ops::Range;

use super::draw::OF_A_PLACE;
use super::model::{groups, number, Role, LONGEST, MOST_BYTES};
use crate::form::damage::{lengthened, replaced};
use crate::form::Sheet;
use crate::rng::Rng;

/// A packed file in parts: each number's role and bytes.
pub struct Parts(Vec<(Role, Vec<u8>)>);

impl Parts {
    pub fn of(sheet: &Sheet) -> Parts {
        let counts = sheet.paths.iter().map(|path| path.len() as i64);
        let counts = counts.map(|n| (Role::Count, n));
        let places = sheet.paths.iter().flatten();
        let numbers = places.flat_map(|place| OF_A_PLACE.into_iter().zip(*place));
        let all = counts.chain(numbers);
        Parts(all.map(|(role, n)| (role, number(role, n))).collect())
    }

    pub fn bytes(&self) -> Vec<u8> {
        self.0.iter().flat_map(|(_, bytes)| bytes.clone()).collect()
    }

    pub fn count(&self) -> usize {
        self.0.len()
    }

    pub fn role(&self, at: usize) -> Role {
        self.0[at].0
    }

    pub fn number(&self, at: usize) -> &[u8] {
        &self.0[at].1
    }

    /// The file with other bytes in the place of a number.
    pub fn with(&self, at: usize, bytes: &[u8]) -> Vec<u8> {
        let mut all = Vec::new();
        for (place, (_, number)) in self.0.iter().enumerate() {
            all.extend_from_slice(if place == at { bytes } else { number });
        }
        all
    }

    /// The file with some numbers left out, or none.
    fn without(&self, numbers: Range<usize>) -> Vec<u8> {
        let mut all = Vec::new();
        for (place, (_, number)) in self.0.iter().enumerate() {
            if !numbers.contains(&place) {
                all.extend_from_slice(number);
            }
        }
        all
    }
}

/// The same number with so many groups more than it needs.
pub fn padded(number: &[u8], by: usize) -> Vec<u8> {
    let mut padded = number.to_vec();
    let last = padded.len() - 1;
    padded[last] |= 128;
    padded.resize(number.len() + by - 1, 128);
    padded.push(0);
    padded
}

pub struct Damage {
    pub name: &'static str,
    pub make: fn(&Parts, &mut Rng) -> Vec<u8>,
}

const fn damage(name: &'static str, make: fn(&Parts, &mut Rng) -> Vec<u8>) -> Damage {
    Damage { name, make }
}

pub const DAMAGES: [Damage; 26] = [
    damage("a byte changed", |parts, rng| {
        at_byte(parts, rng, |_, rng| vec![any_byte(rng)])
    }),
    damage("a byte removed", |parts, rng| {
        at_byte(parts, rng, |_, _| vec![])
    }),
    damage("a byte put in", |parts, rng| {
        at_byte(parts, rng, |byte, rng| vec![any_byte(rng), byte])
    }),
    damage("a byte doubled", |parts, rng| {
        at_byte(parts, rng, |byte, _| vec![byte, byte])
    }),
    damage("two bytes swapped", |parts, rng| {
        let mut bytes = parts.bytes();
        let at = place(bytes.len() - 1, rng);
        bytes.swap(at, at + 1);
        bytes
    }),
    damage("a top bit turned", |parts, rng| {
        at_byte(parts, rng, |byte, _| vec![byte ^ 128])
    }),
    damage("a top bit moved", |parts, rng| {
        let mut bytes = parts.bytes();
        let at = place(bytes.len() - 1, rng);
        let (one, other) = (bytes[at] & 128, bytes[at + 1] & 128);
        bytes[at] = bytes[at] & 127 | other;
        bytes[at + 1] = bytes[at + 1] & 127 | one;
        bytes
    }),
    damage("a bit turned", |parts, rng| {
        at_byte(parts, rng, |byte, rng| vec![byte ^ 1 << rng.below(8)])
    }),
    damage("a number padded", |parts, rng| {
        at_number(parts, rng, |_, number, rng| {
            let by = rng.pick(&[1, 1, 1, 2, 3, 4, 5, 8, 9, 10, 18, 100]);
            padded(number, by)
        })
    }),
    damage("cut", |parts, rng| {
        let bytes = parts.bytes();
        bytes[..place(bytes.len(), rng)].to_vec()
    }),
    damage("cut in a number", |parts, rng| {
        let at = place(parts.count(), rng);
        let mut bytes = parts.without(at..parts.count());
        bytes.extend(parts.number(at));
        let last = bytes.len() - 1;
        bytes[last] |= 128;
        bytes
    }),
    damage("cut between numbers", |parts, rng| {
        parts.without(place(parts.count(), rng)..parts.count())
    }),
    damage("bytes behind", |parts, rng| {
        let mut bytes = parts.bytes();
        let more = rng.pick(&[1, 1, 1, 2, 3, 11, 100]);
        bytes.extend((0..more).map(|_| any_byte(rng)));
        bytes
    }),
    damage("the file twice", |parts, _| parts.bytes().repeat(2)),
    damage("very long", |parts, rng| {
        let bytes = parts.bytes();
        let long = rng.pick(&[LONGEST, LONGEST + 1, MOST_BYTES, MOST_BYTES + 1, 9000]);
        lengthened(&bytes, long, &[any_byte(rng)])
    }),
    damage("one beyond a limit", |parts, rng| {
        at_number(parts, rng, |role, _, rng| beyond(role, 1, rng))
    }),
    damage("more beyond a limit", |parts, rng| {
        at_number(parts, rng, |role, _, rng| {
            let most = 1 << (1 + rng.below(40));
            let by = 2 + rng.below(most) as i64;
            beyond(role, by, rng)
        })
    }),
    damage("a number that wraps round", |parts, rng| {
        at_number(parts, rng, |_, number, rng| {
            let n = value(number);
            let round = rng.pick(&[16, 21, 22, 28, 31, 32, 32, 35, 53, 63, 64, 64, 64, 70]);
            let times = 1 + u128::from(rng.below(4));
            groups(n + (times << round))
        })
    }),
    damage("a run of one byte", |parts, rng| {
        at_number(parts, rng, |_, number, rng| {
            let long = rng.pick(&[1, 2, 3, 4, 5, 9, 10, 11, 20, 64, 300]);
            let mut run = vec![rng.pick(&[0x80, 0xff]); long];
            // ended, or up to the file's end
            if rng.one_in(2) {
                run.extend(number);
            } else {
                run.push(rng.pick(&[0, 1, 127]));
            }
            run
        })
    }),
    damage("a run up to the end", |parts, rng| {
        let at = place(parts.count() + 1, rng);
        let mut bytes = parts.without(at..parts.count());
        let long = rng.pick(&[1, 2, 3, 4, 5, 10, 300]);
        bytes.extend(vec![rng.pick(&[0x80, 0xff]); long]);
        bytes
    }),
    damage("the highest group first", |parts, rng| {
        at_number(parts, rng, |_, number, _| {
            let mut turned: Vec<u8> = number.iter().rev().map(|byte| byte | 128).collect();
            let last = turned.len() - 1;
            turned[last] &= 127;
            turned
        })
    }),
    damage("another count", |parts, rng| {
        let at = place(2, rng);
        let n = value(parts.number(at)) as i64;
        let other = rng.pick(&[n + 1, n + 1, n - 1, n - 1, 0, 256, 255, 257, 128]);
        parts.with(at, &number(Role::Count, other.max(0)))
    }),
    damage("a count as a coordinate", |parts, rng| {
        let at = place(2, rng);
        let n = value(parts.number(at)) as i64;
        parts.with(at, &number(Role::X, n))
    }),
    damage("a number missing", |parts, rng| {
        let at = place(parts.count(), rng);
        parts.without(at..at + 1)
    }),
    damage("a number twice", |parts, rng| {
        at_number(parts, rng, |_, number, _| number.repeat(2))
    }),
    damage("any bytes", |_, rng| {
        let size = rng.pick(&[1, 2, 3, 4, 5, 6, 8, 20, 60, 700]);
        let small = rng.one_in(2);
        let mut next = || match rng.below(4) {
            0 if small => rng.below(4) as u8,
            _ => any_byte(rng),
        };
        (0..size).map(|_| next()).collect()
    }),
];

fn place(end: usize, rng: &mut Rng) -> usize {
    rng.below(end as u64) as usize
}

fn any_byte(rng: &mut Rng) -> u8 {
    match rng.below(3) {
        0 => rng.pick(&[0, 1, 2, 63, 64, 127, 128, 129, 130, 192, 254, 255]),
        _ => rng.below(256) as u8,
    }
}

fn value(number: &[u8]) -> u128 {
    let worth = |sum: u128, byte: &u8| 128 * sum + u128::from(byte % 128);
    number.iter().rev().fold(0, worth)
}

/// So far beyond a limit, on either side if there are two.
pub fn beyond(role: Role, by: i64, rng: &mut Rng) -> Vec<u8> {
    let n = role.limit() + by;
    let negative = role != Role::Count && rng.one_in(2);
    number(role, if negative { -n } else { n })
}

fn at_byte(parts: &Parts, rng: &mut Rng, by: fn(u8, &mut Rng) -> Vec<u8>) -> Vec<u8> {
    let bytes = parts.bytes();
    let at = place(bytes.len(), rng);
    let other = by(bytes[at], rng);
    replaced(&bytes, at..at + 1, &other)
}

fn at_number(parts: &Parts, rng: &mut Rng, by: fn(Role, &[u8], &mut Rng) -> Vec<u8>) -> Vec<u8> {
    let at = place(parts.count(), rng);
    let other = by(parts.role(at), parts.number(at), rng);
    parts.with(at, &other)
}
