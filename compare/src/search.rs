//! Tries to break the promise on grid lines: the judge in whole numbers judges the proved library and, where it is compiled in,
//! the Rust text.

pub mod draw;
mod judge;
mod number;
pub mod plane;
mod report;
mod wide;

use crate::capi;
use crate::rng::Rng;
use draw::{Pair, KINDS};
use judge::Answer;
use report::Report;

/// Judges the answers to `count` pairs, as many of each kind. Answers how many broke a sentence of the promise.
pub fn run(count: u64, seed: u64) -> u64 {
    judge_all(&callers(), count, seed)
}

fn judge_all(callers: &[Caller], count: u64, seed: u64) -> u64 {
    let mut rng = Rng::new(seed);
    let mut reports: Vec<Report> = callers.iter().map(|(name, _)| Report::new(name)).collect();
    for turn in 0..count {
        let kind = turn as usize % KINDS.len();
        let pair = draw::pair(kind, &mut rng);
        let numbers = numbers(&pair, &mut rng);
        for ((_, call), report) in callers.iter().zip(&mut reports) {
            report.judge(kind, &pair, call(numbers));
        }
    }
    reports.iter().map(Report::print).sum()
}

type Caller = (&'static str, fn([f64; 13]) -> Answer);

fn callers() -> Vec<Caller> {
    vec![
        ("our library", ours),
        #[cfg(feature = "rust-text")]
        ("the Rust text", text),
    ]
}

fn ours(numbers: [f64; 13]) -> Answer {
    let mut values = [0.0; 4];
    let class = capi::vj_pair(numbers, &mut values);
    Answer { class, values }
}

#[cfg(feature = "rust-text")]
fn text(numbers: [f64; 13]) -> Answer {
    let (class, found) = (crate::crossing::CALLS[3].text)(&numbers);
    let mut values = [0.0; 4];
    values[..found.len()].copy_from_slice(&found);
    Answer { class, values }
}

/// The numbers of a call: a zero has either sign, and each bulge is a line's; the bulges of the second ends have no effect.
fn numbers(pair: &Pair, rng: &mut Rng) -> [f64; 13] {
    const LINES: [f64; 4] = [0.0, -0.0, 9.9e-9, -9.9e-9];
    let mut coordinate = |n: i64| match n {
        0 if rng.one_in(2) => -0.0,
        _ => n as f64,
    };
    let [a, b, c, d] =
        [pair.v[0], pair.v[1], pair.u[0], pair.u[1]].map(|p| (coordinate(p.x), coordinate(p.y)));
    let mut line = || LINES[rng.below(4) as usize];
    let (v, u) = (line(), line());
    let unread = if rng.one_in(2) { 0.0 } else { f64::NAN };
    let e = pair.epsilon;
    [
        a.0, a.1, v, b.0, b.1, unread, c.0, c.1, u, d.0, d.1, unread, e,
    ]
}

#[cfg(test)]
mod tests {
    use super::judge::{LINES, NONE, ONE};
    use super::*;

    fn broken(call: fn([f64; 13]) -> Answer) -> u64 {
        judge_all(&[("a wrong library", call)], 9000, 3)
    }

    fn changed(numbers: [f64; 13], change: impl Fn(&mut Answer)) -> Answer {
        let mut answer = ours(numbers);
        change(&mut answer);
        answer
    }

    #[test]
    fn the_library_keeps_it() {
        assert_eq!(broken(ours), 0);
    }

    #[test]
    fn a_fixed_answer_is_found_out() {
        for class in [NONE, ONE, LINES, 258] {
            let answer: fn([f64; 13]) -> Answer = match class {
                NONE => |n| changed(n, |answer| answer.class = NONE),
                ONE => |n| changed(n, |answer| answer.class = ONE),
                LINES => |n| changed(n, |answer| answer.class = LINES),
                _ => |n| changed(n, |answer| answer.class = 258),
            };
            assert!(broken(answer) > 1000, "{class}");
        }
    }

    #[test]
    fn a_moved_point_is_found_out() {
        assert!(broken(|n| changed(n, |answer| answer.values[0] += 1e-8)) > 1000);
        assert!(broken(|n| changed(n, |answer| answer.values.swap(0, 1))) > 1000);
    }

    #[test]
    fn a_larger_epsilon_is_found_out() {
        assert!(broken(|n| ours([&n[..12], &[0.5]].concat().try_into().unwrap())) > 10);
    }
}
