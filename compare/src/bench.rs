//! Nanoseconds of processor time for each call: ours and the machine's own or the Rust's, through one driver and on the same
//! inputs. The two take turns, and the least time of each over some rounds counts.

use std::hint::black_box;
use std::time::Duration;

use crate::capi::{vj_abs, vj_max, vj_min, vj_sqrt};
use crate::classes::{magnitude, Class};
use crate::clock;
use crate::rng::Rng;

const PAIRS: usize = 4096;
/// Rounds are short, so that both sides find the machine in the same state. There are at least this many, and more while there is
/// time.
const ROUNDS: usize = 5;
const SPENT: Duration = Duration::from_millis(250);

pub fn run() {
    let mut rng = Rng::new(0xbe7c);
    let mut normal = || f64::from_bits(magnitude(Class::Normal, &mut rng));
    let pairs: Vec<(f64, f64)> = (0..PAIRS).map(|_| (normal(), normal())).collect();
    let timed = |name: &str, ours: &dyn Fn(), other: &dyn Fn()| {
        Row::new(name).of(PAIRS as u64).timed(1 << 15, ours, other);
    };

    head("float functions on random normals, beside the machine's");
    timed(
        "sqrt, none waits for another",
        &|| throughput(&pairs, |x, _| vj_sqrt(x)),
        &|| throughput(&pairs, |x, _| machine_sqrt(x)),
    );
    timed(
        "sqrt, each waits for the last",
        &|| latency(&pairs, |x, _| vj_sqrt(x)),
        &|| latency(&pairs, |x, _| machine_sqrt(x)),
    );
    timed("abs", &|| throughput(&pairs, |x, _| vj_abs(x)), &|| {
        throughput(&pairs, |x, _| machine_abs(x))
    });
    timed("min", &|| throughput(&pairs, |x, y| vj_min(x, y)), &|| {
        throughput(&pairs, machine_min)
    });
    timed("max", &|| throughput(&pairs, |x, y| vj_max(x, y)), &|| {
        throughput(&pairs, machine_max)
    });
}

/// The head of a part of the table.
pub fn head(part: &str) {
    println!(
        "{part:62} {:>8} {:>9} {:>8} {:>8} {:>8} {:>6}",
        "epsilon", "on", "meet", "ours", "other", "ratio"
    );
}

/// A line of the table.
pub struct Row<'a> {
    name: &'a str,
    epsilon: String,
    on: u64,
    meet: String,
}

impl Row<'_> {
    pub fn new(name: &str) -> Row<'_> {
        Row {
            name,
            epsilon: String::new(),
            on: 0,
            meet: String::new(),
        }
    }

    /// On how many calls or pairs.
    pub fn of(self, on: u64) -> Self {
        Row { on, ..self }
    }

    /// How many of them meet.
    #[cfg(feature = "rust-text")]
    pub fn meeting(self, count: usize) -> Self {
        let meet = count.to_string();
        Row { meet, ..self }
    }

    #[cfg(feature = "rust-text")]
    pub fn epsilon(self, epsilon: f64) -> Self {
        let exact = epsilon == 1.0 / 1024.0;
        let epsilon = if exact {
            "1/1024".to_string()
        } else {
            format!("{epsilon:e}")
        };
        Row { epsilon, ..self }
    }

    /// Times both in turns, and prints the line. Each is repeated so often that a round has at least this many calls or pairs.
    pub fn timed(self, a_round: u64, mut ours: impl FnMut(), mut other: impl FnMut()) {
        let times = (a_round / self.on).max(1);
        let [ours, other] =
            by_turns(times, &mut ours, &mut other).map(|time| time / self.on as f64);
        println!(
            "{:62} {:>8} {:9} {:>8} {ours:8.2} {other:8.2} {:6.2}",
            self.name,
            self.epsilon,
            self.on,
            self.meet,
            ours / other
        );
    }
}

/// Nanoseconds of each, the least of some rounds by turns. In a round each is repeated so many times.
pub fn by_turns(times: u64, ours: &mut dyn FnMut(), other: &mut dyn FnMut()) -> [f64; 2] {
    let one = |pass: &mut dyn FnMut()| {
        let start = clock::now();
        for _ in 0..times {
            pass();
        }
        (clock::now() - start).as_nanos() as f64 / times as f64
    };
    let mut least = [f64::INFINITY; 2];
    let start = clock::now();
    let mut rounds = 0;
    while rounds < ROUNDS || clock::now() - start < SPENT {
        rounds += 1;
        least[0] = least[0].min(one(ours));
        least[1] = least[1].min(one(other));
    }
    least
}

/// Calls that do not wait for each other.
fn throughput(pairs: &[(f64, f64)], call: impl Fn(f64, f64) -> f64) {
    black_box(
        pairs
            .iter()
            .fold(0, |all, &(x, y)| all ^ call(x, y).to_bits()),
    );
}

/// Each call waits for the one before: the last bit of its answer goes into the operand.
fn latency(pairs: &[(f64, f64)], call: impl Fn(f64, f64) -> f64) {
    black_box(pairs.iter().fold(0, |last, &(x, y)| {
        call(f64::from_bits(x.to_bits() ^ (last & 1)), y).to_bits()
    }));
}

// The machine's own, called and not inlined, as ours are.

#[inline(never)]
fn machine_sqrt(x: f64) -> f64 {
    x.sqrt()
}

#[inline(never)]
fn machine_abs(x: f64) -> f64 {
    x.abs()
}

#[inline(never)]
fn machine_min(x: f64, y: f64) -> f64 {
    x.min(y)
}

#[inline(never)]
fn machine_max(x: f64, y: f64) -> f64 {
    x.max(y)
}
