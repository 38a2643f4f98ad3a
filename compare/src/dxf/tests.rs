//! The model by hand; a right stand-in for the library, which must pass; and wrong ones, which the comparison must notice.

use super::model::Mode;
use super::run::Run;
use super::stand_in::{self, HALF, LARGE};
use super::{draw, examples, model, stored, Ours};
use crate::rng::Rng;

const SEED: u64 = 1;
const MODES: [Mode; 2] = [Mode::Half, Mode::Large];

#[test]
fn by_hand() {
    for mode in MODES {
        for (text, numbers, closed) in examples::bodies(mode) {
            let body = model::import(text.as_bytes(), mode).expect(text);
            let read = (body.path(), body.closed);
            assert_eq!((read.0.as_slice(), read.1), (*numbers, *closed), "{text:?}");
        }
        for (text, word) in examples::refused(mode) {
            let fault = model::import(text.as_bytes(), mode).expect_err(text);
            assert_eq!(fault.word(), *word, "{text:?}: {fault:?}");
        }
        for (path, closed, text) in examples::paths(mode) {
            let written = model::export(path, *closed, mode);
            assert_eq!(written.as_deref(), Ok(text.as_bytes()));
        }
        for (path, closed, word) in examples::not_exported(mode) {
            let fault = model::export(path, *closed, mode).expect_err("a fault");
            assert_eq!(fault.word(), *word, "{path:?}: {fault:?}");
        }
    }
}

/// The same numbers, by the request's own words: whole millionths, divided once.
#[test]
fn millionths_divided_once() {
    let mut rng = Rng::new(SEED);
    for _ in 0..1_000_000 {
        let m = draw::coordinate(&mut rng);
        let x = m as f64 / 1e6;
        let spelt = draw::number(m, &mut rng);
        let read = model::number(spelt.as_bytes()).expect("a number");
        assert_eq!(read.to_bits(), x.to_bits(), "{spelt}");
        assert_eq!(model::spelt(x), Some(draw::plain(m)));
    }
}

/// Which numbers can be exported: of 65,536ths those that are multiples of 1/64. A quarter circle's bulge cannot.
#[test]
fn which_bulges() {
    for n in 0..=65_536 {
        let can = model::spelt(f64::from(n) / 65_536.0).is_some();
        assert_eq!(can, n % 1024 == 0, "{n}/65,536");
    }
    let quarter = (std::f64::consts::PI / 8.0).tan();
    for bulge in [
        quarter,
        quarter.next_up(),
        quarter.next_down(),
        2.0_f64.sqrt() - 1.0,
    ] {
        assert_eq!(model::spelt(bulge), None);
    }
}

/// The header's macros: no export has more bytes, and one has as many.
#[test]
fn the_most_bytes() {
    for (mode, most) in [(Mode::Half, 208_909), (Mode::Large, 213_005)] {
        let far = -1_048_560.0;
        let vertex = |at: usize| [far + (at % 2) as f64, far, -mode.bulge(), 0.0];
        let path: Vec<f64> = (0..4096).flat_map(vertex).collect();
        let text = model::export(&path, true, mode).expect("within all limits");
        assert_eq!(text.len(), most);
        assert_eq!(mode.most_bytes(4096), most);
        let mut rng = Rng::new(SEED);
        for _ in 0..20_000 {
            let count = draw::how_many(&mut rng);
            let path = draw::path(count, mode, &mut rng);
            let text = model::export(&path, false, mode).expect("numbers of six digits");
            assert!(text.len() <= mode.most_bytes(count));
        }
    }
}

/// The model reads what it writes.
#[test]
fn there_and_back() {
    let mut rng = Rng::new(SEED);
    for mode in MODES {
        for _ in 0..20_000 {
            let text = draw::good(mode, &mut rng).text();
            let body = model::import(&text, mode).expect("a body of the form");
            let written = model::export(&body.path(), body.closed, mode);
            let written = written.expect("it came from a text");
            assert_eq!(model::import(&written, mode), Ok(body));
        }
    }
}

/// With no bulge above 1 both modes are one.
#[test]
fn the_same_without_large_arcs() {
    let mut rng = Rng::new(SEED);
    for _ in 0..20_000 {
        let text = draw::good(Mode::Half, &mut rng).text();
        assert_eq!(
            model::import(&text, Mode::Large),
            model::import(&text, Mode::Half)
        );
        let path = draw::any_path(Mode::Half, &mut rng);
        let small = |v: &[f64]| v.get(2).is_none_or(|b| b.abs() <= 1.0);
        if path.chunks(4).all(small) {
            let of = |mode: Mode| model::export(&path, true, mode);
            assert_eq!(of(Mode::Large), of(Mode::Half));
        }
    }
}

#[test]
fn stored_bodies() {
    for stored::Stored {
        name,
        text,
        expected,
    } in stored::read().expect("bodies")
    {
        let answer = model::import(&text, Mode::Half);
        assert_eq!(stored::told(&answer), expected, "{name}");
    }
}

#[test]
fn a_right_stand_in_passes() {
    for ours in [HALF, LARGE] {
        stand_in::set("");
        let mut run = Run::new(ours, SEED, 1);
        run.all(&stored::read().expect("bodies"), 0);
        assert_eq!(run.report(), 0);
    }
}

/// What the request names.
const NAMED: &[&str] = &[
    "22 before 20",
    "seven digits read",
    "minus zero read",
    "minus zero read as zero",
    "minus zero written",
    "minus zero written as zero",
    "closed by bit 2",
    "a missing bulge keeps the last one",
    "24 first",
    "a line too many",
    "export rounding silently",
];

const OF_IMPORTS: &[&str] = &[
    "21 for 20",
    "20 for 21",
    "a line with the rows' item",
    "lines from 0",
    "lines by pairs",
    "22 at the line of 90",
    "22 at line 2",
    "no line told",
    "lines of 16 bits",
    "lines of 20 bits",
    "millionths times 1e-6",
    "numbers of 32 bits",
    "whole and fraction added",
    "no blanks taken",
    "a tab taken",
    "a blank line passed over",
    "a carriage return taken",
    "blanks behind taken",
    "no last newline needed",
    "a plus taken",
    "a minus before a code taken",
    "whole numbers of 32 bits",
    "whole numbers wrap round",
    "no digits are 0",
    "a leading zero refused",
    "more than 20 digits refused",
    "numbers wrap round",
    "a comma taken",
    "a point at the end taken",
    "a point at the front taken",
    "more digits cut off",
    "six digits refused",
    "an exponent taken",
    "a cap at the limit",
    "no sign",
    "a skipped value needs no newline",
    "90 may be missing",
    "70 may be missing",
    "the last 20 may be missing",
    "the end told at the last line",
    "an unended code is 21",
    "an unended code at the end passed over",
    "an unended value is 21",
    "an unended skipped value is 20",
    "42 twice taken",
    "42 before 10 taken",
    "90 twice taken",
    "70 twice taken",
    "70 before 90 taken",
    "10 twice taken",
    "20 twice taken",
    "42 before 20 taken",
    "0 ends the body",
    "codes above 1071 refused",
    "widths refused",
    "a skipped value may be missing",
    "a skipped empty value is passed over",
    "a code without its value skipped",
    "out of place told at the value",
    "out of place passed over",
    "a missing value told at its code",
    "a missing value is 20",
    "a bad number told at its code",
    "7 by the count, before all else",
    "closed by 1 only",
    "closed if not 0",
    "never closed",
    "flags of 8 bits only",
    "a missing bulge is -0",
    "y before x",
    "one to tell in is enough",
    "three to tell in are needed",
    "a fault before no room",
    "a trace of 1",
    "a trace of -0",
    "room for three numbers a vertex",
    "room for 16,384 is needed",
    "24 before 22",
    "24 before 7",
    "more vertices than the count taken",
    "fewer vertices than the count taken",
    "the count not looked at",
    "the count's last 16 bits",
    "22 last",
    "22 behind the numbers",
    "7 before 22",
    "the last number not written",
    "numbers told for vertices",
    "told in the other order",
    "a third place told",
];

const OF_EXPORTS: &[&str] = &[
    "2 for 23",
    "23 of a bulge told as x",
    "traces not checked",
    "export rounding by a last bit",
    "export cuts digits off",
    "only 65,536ths exported",
    "test by a product",
    "no minus written",
    "a plus written",
    "a blank written",
    "a zero in front left out",
    "a zero more in front",
    "zeros behind left out",
    "five digits written",
    "the fraction not padded",
    "a comma written",
    "carriage returns written",
    "two to tell in are needed",
    "nothing to tell in is enough",
    "the rest of a vertex passed over",
    "7 before 6",
    "70 before 90 written",
    "always closed written",
    "no 42 where the bulge is 0",
    "no 42 behind an open path's last vertex",
    "the bulge's text not looked at",
    "traces written",
    "an end written",
    "room for the most is needed",
    "23 before the checks",
    "24 before 23",
    "the last newline not written",
    "a NUL behind",
    "vertices told for bytes",
    "a byte more told",
    "a second place told",
    "a chord of 2^-40 refused",
];

const OF_BOTH: &[&str] = &[
    "8 for 24",
    "17 for 24",
    "the room with the rows' item",
    "the room with a line's item",
    "an owner of 1",
    "4,097 vertices taken",
    "4,096 vertices refused",
    "coordinates up to 2^21",
    "a bulge a millionth beyond",
    "the largest coordinate refused",
    "the largest bulge refused",
    "the last bulge of an open path not checked",
    "vertices from 1",
    "arcs before numbers",
    "the closing arc not checked",
    "arcs not checked",
    "written before a refusal",
    "told before a refusal",
    "written before 24",
    "told before 24",
    "a place less is enough",
    "a place more is needed",
    "the rest cleared",
    "answers 1",
];

/// Of the mode of large arcs alone; the first ones are named by its request.
const OF_LARGE_ARCS: &[&str] = &[
    "the sign lost",
    "a cut at exactly 1",
    "5 before 2",
    "the new index told",
    "7 after the cut",
    "y's cut with plus",
    "2 before 5",
    "x's cut with minus",
    "a cut on the other side",
    "a cut at the middle of the chord",
    "a cut by the whole chord",
    "a cut without b",
    "a cut from 1.000001 on",
    "only positive bulges cut",
    "nothing cut",
    "the cut path",
    "bulges up to 1",
    "bulges up to 8",
    "a cut point's x told as x",
    "a cut point's y told as y",
    "a cut point told as a chord",
    "a cut point's coordinates exchanged",
    "a cut point's y before its x",
    "a cut point at the limit refused",
    "a cut point a float beyond taken",
    "a cut point a millionth beyond taken",
    "cut points not checked",
    "a cut point's x not checked",
    "a cut point's y not checked",
    "halves not checked",
    "the first half not checked",
    "the second half not checked",
    "5 if both halves are short",
    "5 by the arc's own chord",
    "5 by the arc's own chord too",
    "the second half's index told",
    "the last bulge of an open path cut",
    "room for the other mode's most is needed",
    "one digit before a bulge's point",
];

/// Only bodies and paths of so many vertices show these, and none of them is drawn.
const OF_THE_LARGEST: &[&str] = &[
    "4,097 vertices taken",
    "4,096 vertices refused",
    "24 before 7",
    "7 before 22",
    "7 before 6",
    "7 after the cut",
];
/// No draw comes so close.
const CHOSEN: &[&str] = &[
    "lines of 16 bits",
    "lines of 20 bits",
    "a chord of 2^-40 refused",
    "7 by the count, before all else",
    "a cut point a float beyond taken",
    "a cut point a millionth beyond taken",
    "the first half not checked",
    "the second half not checked",
    "5 if both halves are short",
    "5 by the arc's own chord",
    "5 by the arc's own chord too",
];

fn defects() -> impl Iterator<Item = &'static str> {
    [NAMED, OF_IMPORTS, OF_EXPORTS, OF_BOTH]
        .into_iter()
        .flatten()
        .copied()
}

fn all() -> impl Iterator<Item = (&'static str, Ours)> {
    let of_large = OF_LARGE_ARCS.iter().map(|defect| (*defect, LARGE));
    defects()
        .flat_map(|defect| [(defect, HALF), (defect, LARGE)])
        .chain(of_large)
}

/// Without the examples by hand and the stored bodies, and by draws alone if that can be.
#[test]
fn wrong_stand_ins_are_found() {
    const ROUNDS: usize = 64;
    for (defect, ours) in all() {
        stand_in::set(defect);
        let mut run = Run::new(ours, SEED, 1);
        if OF_THE_LARGEST.contains(&defect) || CHOSEN.contains(&defect) {
            run.chosen();
        }
        for _ in 0..ROUNDS {
            run.drawn(1 << 7);
            run.damaged(1 << 9);
            run.paths(1 << 8);
        }
        assert!(!run.goes_on(), "not found: {defect}, {:?}", ours.mode);
    }
}

/// In a call that has both sorts of slices, each is found in each call.
#[test]
fn found_in_each_call() {
    for (defect, ours) in OF_BOTH
        .iter()
        .flat_map(|defect| [(defect, HALF), (defect, LARGE)])
    {
        for of_import in [true, false] {
            stand_in::set(defect);
            let mut run = Run::new(one_call(ours, of_import), SEED, 1);
            if OF_THE_LARGEST.contains(defect) {
                run.chosen();
            }
            for _ in 0..64 {
                run.drawn(1 << 6);
                run.damaged(1 << 9);
                run.paths(1 << 9);
            }
            assert!(!run.goes_on(), "not found: {defect}, {:?}", ours.mode);
        }
    }
}

/// The stand-in with its defect in one call only: in the import or in the export.
fn one_call(ours: Ours, of_import: bool) -> Ours {
    let right = match ours.mode {
        Mode::Half => Ours {
            import: |text, path, told| with("", || (HALF.import)(text, path, told)),
            export: |path, out, told| with("", || (HALF.export)(path, out, told)),
            ..HALF
        },
        Mode::Large => Ours {
            import: |text, path, told| with("", || (LARGE.import)(text, path, told)),
            export: |path, out, told| with("", || (LARGE.export)(path, out, told)),
            ..LARGE
        },
    };
    match of_import {
        true => Ours {
            import: ours.import,
            ..right
        },
        false => Ours {
            export: ours.export,
            ..right
        },
    }
}

/// Without the defect for as long as a call lasts.
fn with(defect: &'static str, call: impl FnOnce() -> u64) -> u64 {
    let before = stand_in::set(defect);
    let word = call();
    stand_in::set(before);
    word
}

/// A cap higher than 2^53 is no defect: what is larger is refused with 2 or 3 anyway.
#[test]
fn a_cap_that_does_not_matter() {
    stand_in::set("no cap");
    let mut run = Run::new(HALF, SEED, 1);
    run.all(&stored::read().expect("bodies"), 0);
    assert_eq!(run.report(), 0);
}

/// docs/COMPARING.md says how many.
#[test]
fn how_many_are_tried() {
    assert_eq!(defects().count(), 162);
    assert_eq!(OF_LARGE_ARCS.len(), 39);
}
