//! Nanoseconds for each call of the kernels and of the pair call: ours with its checks, the Rust's without, on the same inputs.

use std::hint::black_box;

use super::{kind, Call, CALLS, KINDS, PAIRS};
use crate::bench::{head, Row};
use crate::inputs::{Kind, Pair, Segment};
use crate::listings::sheets::{Sheet, EPSILONS, SHEETS};
use crate::numbers::Numbers;
use crate::rng::Rng;

const INPUTS: usize = 4096;
const A_ROUND: u64 = 1 << 14;

pub fn run() {
    let mut rng = Rng::new(0xbe7c);
    head("checked pair call, on pairs of a layout, near and any");
    for sheet in &SHEETS {
        for epsilon in EPSILONS {
            let inputs = of_sheet(sheet, epsilon, &mut rng);
            let name = format!("a pair, {}", sheet.name);
            let row = Row::new(&name).epsilon(epsilon);
            timed(row, &CALLS[PAIRS], &inputs);
        }
    }
    head("checked calls, on inputs of the comparison, many on edges");
    for call in &CALLS[..PAIRS] {
        let inputs = accepted(call, &mut rng, |_| true);
        timed(Row::new(call.name), call, &inputs);
    }
    for (number, name) in KINDS.iter().enumerate() {
        let call = &CALLS[PAIRS];
        let inputs = accepted(call, &mut rng, |n| kind(n[2], n[8]) == number);
        timed(Row::new(&format!("a pair{name}")), call, &inputs);
    }
}

fn timed(row: Row, call: &Call, inputs: &[Numbers]) {
    let mut out = [0.0; 4];
    let meet = inputs.iter().filter(|n| (call.text)(n).0 != 0).count();
    row.of(inputs.len() as u64).meeting(meet).timed(
        A_ROUND,
        || {
            for numbers in inputs {
                black_box((call.ours)(numbers, &mut out));
            }
        },
        || {
            for numbers in inputs {
                (call.bare)(numbers);
            }
        },
    );
}

/// Half of the pairs are random. In the other half, the second segment is the one of the other path that is nearest to the first.
pub fn of_sheet(sheet: &Sheet, epsilon: f64, rng: &mut Rng) -> Vec<Numbers> {
    let [first, second] = sheet.segments(1024, rng);
    let mut inputs = Vec::new();
    while inputs.len() < INPUTS {
        let v = rng.pick(&first);
        let u = if rng.one_in(2) {
            rng.pick(&second)
        } else {
            let far = |u: &Segment| v.from.at.to(u.from.at).length();
            let nearer = second.iter().min_by(|a, b| far(a).total_cmp(&far(b)));
            *nearer.expect("a path has segments")
        };
        let pair = Pair { v, u, epsilon };
        inputs.push((CALLS[PAIRS].operands)(&pair, rng));
    }
    inputs
}

fn accepted(call: &Call, rng: &mut Rng, wanted: impl Fn(&[f64]) -> bool) -> Vec<Numbers> {
    let mut inputs = Vec::new();
    while inputs.len() < INPUTS {
        let pair = Pair::draw(Kind::Accepted, rng);
        let numbers = (call.operands)(&pair, rng);
        if call.fault(&numbers).is_none() && wanted(&numbers) {
            inputs.push(numbers);
        }
    }
    inputs
}
