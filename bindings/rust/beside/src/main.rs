//! A caller of cavalier_contours changes one `use` and adds a `?`: here is such a caller, compiled
//! both ways, and asked the same questions. Ends with status 1 if an answer differs.
//!
//!     cargo run [INPUTS]

mod caller;
mod draw;

use std::env;
use std::process::ExitCode;

use caller::{Answer, Numbers};
use draw::Draw;

mod old {
    crate::caller::caller!(cavalier_contours);
}

mod new {
    crate::caller::caller!(vonjekona?);
}

type Ask = fn(&Numbers) -> Result<Answer, vonjekona::Refusal>;

const CALLS: [(&str, Ask, Ask); 4] = [
    ("pline_seg_intr", old::pair, new::pair),
    ("line_line_intr", old::lines, new::lines),
    ("line_circle_intr", old::line_and_circle, new::line_and_circle),
    ("circle_circle_intr", old::circles, new::circles),
];

fn main() -> ExitCode {
    let inputs: u64 = match env::args().nth(1).map(|n| n.parse()) {
        None => 500_000,
        Some(Ok(n)) => n,
        Some(Err(e)) => {
            eprintln!("how many inputs: {e}");
            return ExitCode::from(2);
        }
    };
    let mut different = 0;
    println!("{:20}{:>10}{:>10}{:>10}   by case", "call", "equal", "different", "refused");
    for (name, old, new) in CALLS {
        let mut draw = Draw::new();
        let (mut equal, mut refused, mut differ, mut cases) = (0, 0, 0, [0; 6]);
        for k in 0..inputs {
            let numbers = draw.numbers(k);
            let Ok(answer) = new(&numbers) else {
                refused += 1;
                continue;
            };
            cases[usize::from(answer.case)] += 1;
            if old(&numbers) == Ok(answer) {
                equal += 1;
            } else {
                differ += 1;
            }
        }
        println!("{name:20}{equal:>10}{differ:>10}{refused:>10}   {cases:?}");
        different += differ;
        // a case that never came, or refusals alone, would show nothing
        if inputs >= 100_000 && (cases[..3].contains(&0) || refused > inputs / 10) {
            eprintln!("{name}: too few cases were drawn");
            return ExitCode::FAILURE;
        }
    }
    ExitCode::from(u8::from(different > 0))
}
