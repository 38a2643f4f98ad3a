//! Import and export of a drawing's polyline, in both modes, compared with a model that is written here from the requests' words:
//! what is returned, what is told, the path or the text, and every place of the lent slices. It needs no Rust text.

mod arcs;
mod bench;
mod damage;
mod draw;
mod examples;
mod kinds;
mod lent;
pub mod model;
mod run;
#[cfg(test)]
mod stand_in;
mod stored;
#[cfg(test)]
mod tests;

pub use bench::run as bench;
pub use stored::{export_to, write};

use model::Mode;
use run::Run;

use crate::capi::{vj_dxf_export, vj_dxf_export_large, vj_dxf_import, vj_dxf_import_large};

/// After so many differences a run ends.
const ENOUGH: u64 = 1000;

/// Our calls in one mode. What they write goes into the first slice, and what they tell into the last one.
#[derive(Clone, Copy)]
pub struct Ours {
    mode: Mode,
    import: fn(&[u8], &mut [f64], &mut [u64]) -> u64,
    export: fn((&[f64], bool), &mut [u8], &mut [u64]) -> u64,
}

const OURS: Ours = Ours {
    mode: Mode::Half,
    import: vj_dxf_import,
    export: vj_dxf_export,
};

const LARGE: Ours = Ours {
    mode: Mode::Large,
    import: vj_dxf_import_large,
    export: vj_dxf_export_large,
};

/// Compares both calls of each mode with examples worked out by hand; on the stored bodies with every byte changed, removed and
/// doubled; at every limit; and on `count / 16` drawn bodies, on as many damaged ones and on as many paths. Answers how many
/// differences there were, plus the kinds of input that never occurred.
pub fn check(count: u64, seed: u64) -> u64 {
    let stored = match stored::read() {
        Ok(stored) => stored,
        Err(why) => {
            println!("dxf: {why}");
            return 1;
        }
    };
    let of = |ours: Ours| {
        let mut run = Run::new(ours, seed, ENOUGH);
        run.all(&stored, count);
        run.report()
    };
    of(OURS) + of(LARGE)
}
