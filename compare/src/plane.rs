//! The functions of `plane` compared with the Rust's: the text's own, and the stand-ins' where the text lacks them.

mod calls;

pub use calls::{Call, STAND_INS, TEXT};

use calls::Ours;

use crate::inputs::{Kind, Pair};
use crate::lent::Lent;
use crate::numbers::{hex, same};
use crate::rng::Rng;
use crate::tally::Tally;

/// Compares every function on pairs of every kind, and answers how many differences there were.
pub fn check(count: u64, seed: u64) -> u64 {
    let calls: Vec<&Call> = TEXT.iter().chain(&STAND_INS).collect();
    let mut tallies: Vec<Tally> = calls.iter().map(|call| Tally::new(call.name)).collect();
    let mut rng = Rng::new(seed);
    for kind in [Kind::Accepted, Kind::Beside, Kind::Patterns] {
        let inputs = share(kind, count);
        println!("plane on {inputs} inputs: {}", kind.name());
        for turn in 0..inputs {
            let pair = Pair::draw(kind, &mut rng);
            for (call, tally) in calls.iter().zip(&mut tallies) {
                compare(call, &pair, turn, tally);
            }
        }
    }
    tallies.iter().map(Tally::report).sum()
}

/// How many of `count` inputs are of this kind.
fn share(kind: Kind, count: u64) -> u64 {
    match kind {
        Kind::Accepted => count / 4,
        Kind::Beside => count / 32,
        Kind::Patterns => count / 8,
    }
}

fn compare(call: &Call, pair: &Pair, turn: u64, tally: &mut Tally) {
    let operands = (call.operands)(pair);
    let text = (call.text)(&operands);
    let shown =
        |ours: &[f64]| format!("{}: {}, expected {}", hex(&operands), hex(ours), hex(&text));
    match call.ours {
        Ours::Test(test) => {
            let ours = [f64::from(u8::from(test(&operands)))];
            tally.add(same(&ours, &text), || shown(&ours));
        }
        Ours::Number(number) => {
            let ours = [number(&operands)];
            tally.add(same(&ours, &text), || shown(&ours));
        }
        Ours::Lent(write) => {
            let room = room(text.len(), turn);
            let mut lent = Lent::new(room);
            let count = write(&operands, lent.slice());
            let expected = if room < text.len() { &[] } else { &text[..] };
            let right = lent.written(count).is_some_and(|ours| same(ours, expected));
            tally.add(right, || {
                let slice = shown(lent.slice());
                format!("{slice}; {count} written, room for {room}")
            });
        }
    }
}

/// How long the lent slice is for an answer of this many numbers: too short in one of eight turns.
fn room(numbers: usize, turn: u64) -> usize {
    let turn = turn as usize;
    if turn % 8 == 0 {
        turn / 8 % numbers
    } else {
        numbers + turn % 4
    }
}
