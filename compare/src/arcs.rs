//! Searches how often touching segments with arcs are missed, and how far from each other reported ones are. An exact judge in
//! whole numbers judges the proved library and, where it is compiled in, the Rust text. Whether the two answer the same is
//! counted too.

mod aim;
mod climb;
mod cures;
mod depth;
mod distance;
mod draw;
mod judge;
mod piece;
mod report;
mod rules;
#[cfg(test)]
mod stored;
mod whole;

use crate::capi;
use crate::rng::Rng;
use cures::Floats;
use draw::{Pair, KINDS};
use report::Report;

type Caller = (&'static str, fn(&Pair) -> u64);

/// Judges the answers to `count` pairs, as many of each kind. Answers how many broke the rules of the search: a miss that may not
/// be, a report at too large a distance, a refusal, or two different answers.
pub fn run(count: u64, seed: u64) -> u64 {
    judge_all(&callers(), count, seed)
}

/// Searches the least radii that are missed, with this many turns for each.
pub fn climb(turns: u64, seed: u64) {
    climb::climb(ours, turns, seed);
}

/// Asks again, in other ways, about the missed ones of `count` pairs; and measures up to which distance short parallel lines
/// are reported.
pub fn cures(count: u64, seed: u64) {
    cures::run(count, seed);
    cures::short_lines();
}

fn judge_all(callers: &[Caller], count: u64, seed: u64) -> u64 {
    let mut rng = Rng::new(seed);
    let mut reports: Vec<Report> = callers.iter().map(|(name, _)| Report::new(name)).collect();
    let mut differ = 0;
    for turn in 0..count {
        let kind = turn as usize % KINDS.len();
        let pair = draw::pair(kind, &mut rng);
        let way = judge::share(pair.v, pair.u);
        let mut first = None;
        for ((_, call), report) in callers.iter().zip(&mut reports) {
            let class = call(&pair);
            differ += u64::from(*first.get_or_insert(class) != class);
            report.take(kind, &pair, way, class);
        }
    }
    if differ > 0 {
        println!("{differ} pairs are answered by two classes");
    }
    // if all answers are the same, so are the tables
    reports[0].print_tables();
    reports.iter().map(Report::print).sum::<u64>() + differ
}

fn callers() -> Vec<Caller> {
    vec![
        ("our library", ours),
        #[cfg(feature = "rust-text")]
        ("the Rust text", text),
    ]
}

/// The class, or a refusal's word, which is beyond every class.
fn ours(pair: &Pair) -> u64 {
    capi::vj_pair(numbers(pair), &mut [0.0; 4])
}

#[cfg(feature = "rust-text")]
fn text(pair: &Pair) -> u64 {
    (crate::crossing::CALLS[3].text)(&numbers(pair)).0
}

fn numbers(pair: &Pair) -> [f64; 13] {
    segments(cures::floats(pair.v), cures::floats(pair.u), pair.epsilon)
}

/// What our library answers to two segments in floats; `before` says that the first comes first.
fn answered(one: Floats, other: Floats, before: bool, epsilon: f64) -> u64 {
    let (v, u) = if before { (one, other) } else { (other, one) };
    capi::vj_pair(segments(v, u, epsilon), &mut [0.0; 4])
}

fn segments(v: Floats, u: Floats, epsilon: f64) -> [f64; 13] {
    let [a, b, c, d, v] = v;
    let [e, f, g, h, u] = u;
    [a, b, v, c, d, 0.0, e, f, u, g, h, 0.0, epsilon]
}

#[cfg(test)]
mod tests {
    use super::*;

    fn broken(call: fn(&Pair) -> u64) -> u64 {
        judge_all(&[("a library", call)], 22_000, 3)
    }

    #[test]
    fn the_library_is_allowed() {
        assert_eq!(broken(ours), 0);
    }

    #[test]
    fn a_fixed_answer_is_found_out() {
        assert!(broken(|_| 0) > 1000);
        assert!(broken(|_| 2) > 1000);
        assert_eq!(broken(|_| 261), 22_000);
    }

    /// Each way of missing: all of one kind of pair, and a smaller epsilon, at which more is missed.
    #[test]
    fn missing_some_is_found_out() {
        fn arcs(pair: &Pair) -> u64 {
            u64::from(!pair.v.is_line()) + u64::from(!pair.u.is_line())
        }
        assert!(broken(|pair| if arcs(pair) == 2 { 0 } else { ours(pair) }) > 1000);
        assert!(broken(|pair| if arcs(pair) == 1 { 0 } else { ours(pair) }) > 1000);
        let finer = |pair: &Pair| {
            ours(&Pair {
                epsilon: 1e-9,
                ..*pair
            })
        };
        assert!(broken(finer) > 100);
    }

    #[test]
    fn a_larger_epsilon_is_found_out() {
        assert!(
            broken(|pair| ours(&Pair {
                epsilon: 0.5,
                ..*pair
            })) > 100
        );
    }

    #[test]
    fn a_second_answer_is_found_out() {
        let second: fn(&Pair) -> u64 = |pair| (ours(pair) + 1) % 6;
        assert!(judge_all(&[("one", ours), ("another", second)], 2200, 3) >= 2200);
    }
}
