//! The model by hand and beside the plain form; a right stand-in for the library, which must pass; and wrong ones, which the
//! comparison must notice, in each of the calls.

use super::ask::Call;
use super::damage::{Parts, DAMAGES};
use super::draw::{any, longest, longest_text, small};
use super::run::Run;
use super::stand_in::{self, of_limits, STAND_IN};
use super::{examples, model, plain};
use crate::form::{self, Sheet};
use crate::rng::Rng;

const SEED: u64 = 1;

#[test]
fn by_hand() {
    for (text, bytes) in examples::LAYOUTS {
        assert_eq!(model::pack(text.as_bytes()).as_deref(), Some(*bytes));
        assert_eq!(model::unpack(bytes).as_deref(), Ok(text.as_bytes()));
    }
    for (bytes, offset) in examples::FAULTS {
        let fault = model::sheet(bytes).expect_err("a fault");
        assert_eq!(fault.offset, *offset, "{bytes:?}");
    }
    for text in examples::BROKEN {
        assert_eq!(model::pack(text.as_bytes()), None, "{text:?}");
    }
}

#[test]
fn floats_by_hand() {
    let path = [[3, -4, 65_536], [0, 0, -16_384]];
    let floats: [f64; 8] = [3.0, -4.0, 1.0, 0.0, 0.0, 0.0, -0.25, 0.0];
    let bits = |numbers: &[f64]| -> Vec<u64> { numbers.iter().map(|x| x.to_bits()).collect() };
    assert_eq!(bits(&model::floats(&path)), bits(&floats));
}

/// The model reads what it writes, and the longest file and text have the bytes that the request gives.
#[test]
fn there_and_back() {
    let mut rng = Rng::new(SEED);
    for _ in 0..20_000 {
        let sheet = any(&mut rng);
        let bytes = model::packed(&sheet);
        assert!(bytes.len() <= model::LONGEST);
        assert_eq!(model::sheet(&bytes), Ok(sheet.clone()));
        assert_eq!(form::sheet(&sheet.text()), Some(sheet));
    }
    assert_eq!(model::packed(&longest()).len(), 5636);
    assert_eq!(model::LONGEST, 5636);
    assert_eq!(longest_text().text().len(), model::LONGEST_TEXT);
}

/// A file of more than 8,192 bytes has its fault within the first 5,637: what follows decides nothing.
#[test]
fn longer_files() {
    let mut rng = Rng::new(SEED);
    let mut tried = |front: &[u8]| {
        for long in [model::MOST_BYTES + 1, 20_000] {
            let bytes = form::damage::lengthened(front, long, &[rng.below(256) as u8]);
            let fault = model::sheet(&bytes).expect_err("a fault");
            assert!(fault.offset <= model::LONGEST);
            let cut = model::sheet(&bytes[..model::MOST_BYTES]).expect_err("a fault");
            assert_eq!(cut.offset, fault.offset);
        }
    };
    tried(&model::packed(&longest()));
    tried(&model::packed(&longest_text()));
    for seed in 0..2000 {
        tried(&model::packed(&any(&mut Rng::new(seed))));
    }
}

/// The form that the programs are timed beside does the same work.
#[test]
fn plain_moves() {
    let mut rng = Rng::new(SEED);
    let same = |text: &[u8], bytes: &[u8]| {
        assert_eq!(plain::pack(text), model::pack(text), "{text:?}");
        let unpacked = model::unpack(bytes).map_err(|fault| fault.offset);
        assert_eq!(plain::unpack(bytes), unpacked, "{bytes:?}");
    };
    for sheet in [longest(), longest_text(), Sheet::default()] {
        same(&sheet.text(), &model::packed(&sheet));
    }
    for _ in 0..2000 {
        let sheet = any(&mut rng);
        same(&sheet.text(), &model::packed(&sheet));
        for damage in &DAMAGES {
            let bytes = (damage.make)(&Parts::of(&small(&mut rng)), &mut rng);
            same(b"", &bytes);
        }
        for damage in &form::damage::DAMAGES {
            let text = (damage.make)(&small(&mut rng).text(), &mut rng);
            same(&text, &[]);
        }
    }
}

#[test]
fn a_right_stand_in_passes() {
    stand_in::set("", Call::Pack);
    let mut run = Run::new(STAND_IN, SEED, 1);
    run.all(0);
    assert_eq!(run.report(), 0);
}

/// Of the writer, the reader and the limits: each in the calls that have them.
const OF_PACK: &[&str] = &[
    "zigzag off by one at negatives",
    "zigzag off by two at negatives",
    "odd numbers positive",
    "counts zigzagged",
    "nothing zigzagged",
    "bulges not zigzagged",
    "the highest group first",
    "the top bit at the last",
    "128 in one byte",
    "127 in two bytes",
    "a group more",
    "the counts in the other order",
    "the second path first",
    "y before x",
    "a carriage return taken",
    "two spaces taken",
    "a tab taken",
    "an empty line taken",
    "no last newline needed",
    "missing vertices passed over",
    "more vertices passed over",
    "a space at the end taken",
    "a space in front taken",
    "a number more passed over",
    "a plus taken",
    "a leading zero taken",
    "a minus zero taken",
    "a number wraps at 64 bits",
    "told before a refusal",
    "18 for a text",
];

const OF_FILES: &[&str] = &[
    "zigzag off by one at negatives",
    "odd numbers positive",
    "counts zigzagged",
    "nothing zigzagged",
    "bulges not zigzagged",
    "the highest group first",
    "the top bit at the last",
    "the counts in the other order",
    "the second path first",
    "y before x",
    "at most four bytes of a number",
    "a number wraps at 32 bits",
    "a number wraps at 64 bits",
    "groups of a number of more than ten bytes dropped",
    "a padded form taken",
    "a padded form taken, first count",
    "a padded form taken, second count",
    "a padded form taken, first x",
    "a padded form taken, first y",
    "a padded form taken, first bulge",
    "a padded form taken, second x",
    "a padded form taken, second y",
    "a padded form taken, second bulge",
    "a padded zero taken",
    "a padded form of up to four bytes taken",
    "a padded form of five bytes and more taken",
    "a padded form of more than ten bytes taken",
    "a padded form of the limit taken",
    "a cut number taken",
    "a missing number is 0",
    "a missing bulge is 0",
    "an empty file taken",
    "a missing number told at the last byte",
    "a cut number told at the end",
    "the last byte of a number at fault",
    "the byte behind a number at fault",
    "the last byte of a padded number",
    "the last byte of a number out of range",
    "the fifth byte of a longer number",
    "a vertex at fault",
    "offsets from 1",
    "offsets in numbers",
    "offsets from the first vertex on",
    "always at 0",
    "left-over bytes taken",
    "one byte left over taken",
    "a 0 left over taken",
    "a newline left over taken",
    "a cut number left over taken",
    "left-over bytes beyond 8,192 taken",
    "left-over bytes told at the end",
    "left-over bytes told at the last",
    "left-over bytes told one before",
    "left-over bytes read as a number",
    "more than 8,192 bytes told at 0",
    "more than 8,192 bytes told at 8,192",
    "more than 5,636 bytes told at 5,636",
    "more than 5,636 bytes cut",
    "8,192 bytes told at 0",
    "5,636 bytes refused",
    "10 for a file",
    "no offset told",
];

const OF_UNPACK: &[&str] = &[
    "a plus before numbers",
    "a zero in front of numbers",
    "the most negative as positive",
    "digits turned",
    "tabs between numbers",
    "no last newline",
    "an empty line at the end",
];

const OF_READ: &[&str] = &[
    "bulges by 65,535",
    "bulges as whole numbers",
    "bulges of a last bit less",
    "zeros with a minus",
    "a trace of -0",
    "a trace of 1",
    "the bulge's trace",
    "no traces",
    "room for three numbers a vertex",
    "both into one",
    "numbers for vertices",
    "told in the other order",
    "the first slice's room not asked for",
    "the second slice's room not asked for",
];

const OF_BYTES: &[&str] = &["what follows overwritten", "the last byte not written"];

const OF_ALL: &[&str] = &[
    "no limits",
    "a bulge as far as a coordinate",
    "the rest cleared",
    "written before a refusal",
    "written where there is no room",
    "a place less is enough",
    "a place more is asked for",
    "only what is written is asked for",
    "room is asked for last",
    "one place to tell is enough",
    "three places to tell are asked for",
    "no place to tell is asked for",
    "one more told",
    "only one place told",
    "a third place told",
];

fn defects() -> Vec<(&'static str, Call)> {
    let mut all = Vec::new();
    let mut add = |names: &[&'static str], calls: &[Call]| {
        for name in names {
            all.extend(calls.iter().map(|call| (*name, *call)));
        }
    };
    let limits: Vec<&str> = of_limits().collect();
    add(OF_PACK, &[Call::Pack]);
    add(OF_FILES, &[Call::Unpack, Call::Read]);
    add(OF_UNPACK, &[Call::Unpack]);
    add(OF_READ, &[Call::Read]);
    add(OF_BYTES, &[Call::Pack, Call::Unpack]);
    add(OF_ALL, &[Call::Pack, Call::Unpack, Call::Read]);
    add(&limits, &[Call::Pack, Call::Unpack, Call::Read]);
    all
}

/// Without the examples by hand, and by draws alone if that can be: only one layout has 5,636 bytes, and no draw is it.
#[test]
fn wrong_stand_ins_are_found() {
    const ROUNDS: usize = 64;
    let chosen = ["5,636 bytes refused", "more than 5,636 bytes cut"];
    for (defect, of) in defects() {
        stand_in::set(defect, of);
        let mut run = Run::new(STAND_IN, SEED, 1);
        if chosen.contains(&defect) {
            run.chosen(0);
        }
        for _ in 0..ROUNDS {
            run.drawn(1 << 6);
            run.damaged(1 << 10);
            run.damaged_texts(1 << 8);
        }
        assert!(!run.goes_on(), "not found: {defect}, {of:?}");
    }
}

/// To cut a file after 8,192 bytes is no defect: its fault comes before.
#[test]
fn a_cut_that_does_not_matter() {
    for of in [Call::Unpack, Call::Read] {
        stand_in::set("more than 8,192 bytes cut", of);
        let mut run = Run::new(STAND_IN, SEED, 1);
        run.all(0);
        assert_eq!(run.report(), 0);
    }
}

/// docs/COMPARING.md says how many.
#[test]
fn how_many_are_tried() {
    assert_eq!(defects().len(), 308);
}
