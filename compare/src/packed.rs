//! The packed form of layouts, compared with a model that is written here from the request's words: text to packed, packed to
//! text, and packed to numbers; refusals with their offsets, and every place of the lent slices. It needs no Rust text.

mod ask;
mod bench;
pub mod damage;
pub mod draw;
mod examples;
mod kinds;
pub mod lent;
pub mod model;
mod movers;
mod plain;
mod run;
#[cfg(test)]
mod stand_in;
mod stored;
#[cfg(test)]
mod tests;

pub use bench::run as bench;
pub use movers::check as check_programs;
pub use stored::{write, Written};

use run::Run;

use crate::probe;

/// After so many differences a run ends.
const ENOUGH: u64 = 1000;

/// Our calls. What they write goes into the slices, and what they tell into the last one.
#[derive(Clone, Copy)]
pub struct Ours {
    pack: fn(&[u8], &mut [u8], &mut [u64]) -> u64,
    unpack: fn(&[u8], &mut [u8], &mut [u64]) -> u64,
    read: fn(&[u8], &mut [f64], &mut [f64], &mut [u64]) -> u64,
}

const OURS: Ours = Ours {
    pack: probe::vjp_pack_layout,
    unpack: probe::vjp_unpack_layout,
    read: probe::vjp_read_packed,
};

/// Compares the moves with examples worked out by hand; on all files of up to two bytes, on every damage of a byte of a small
/// file, on every length about the limits; and on `count / 10` drawn layouts both ways and as many damaged files. Answers how
/// many differences there were, plus the kinds of input that never occurred.
pub fn check(count: u64, seed: u64) -> u64 {
    let mut run = Run::new(OURS, seed, ENOUGH);
    run.all(count);
    run.report()
}
