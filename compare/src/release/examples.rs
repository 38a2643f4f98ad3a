//! Fixed answers, bit by bit, on both sides: counterexamples to what looks true.

use super::calls::{Ours, Text, LINES, PAIR};
use super::judge::Answer;
use crate::numbers::hex;

pub struct Example {
    pub name: &'static str,
    call: usize,
    on: &'static [u64],
    class: u64,
    values: [u64; 4],
}

const ONE: u64 = 0x3ff0_0000_0000_0000;

const MINUS_ZERO: u64 = 1 << 63;

const ALL: &[Example] = &[
    Example {
        name: "an overlap's parameters that fall",
        call: LINES,
        on: &[
            0x408b_3333_3333_333b,
            0,
            0x408e_5333_3333_333b,
            0,
            0,
            0,
            0x408b_3333_3333_3333,
            0,
            0x3d71_0000_0000_0000,
        ],
        class: 2,
        values: [0x3ff0_0000_0000_0005, ONE, 0, 0],
    },
    Example {
        name: "two arcs on one chord, with bulges next to each other, that touch 2e13 away",
        call: PAIR,
        on: &[
            0xc12e_8b20_fcc8_d1aa,
            0,
            0xbe45_798e_e230_8c3c,
            0x412e_8b20_fcc8_d1aa,
            0,
            0,
            0xc12e_8b20_fcc8_d1aa,
            MINUS_ZERO,
            0xbe45_798e_e230_8c3d,
            0x412e_8b20_fcc8_d1aa,
            MINUS_ZERO,
            0,
            0x3d70_0000_0000_0000,
        ],
        class: 1,
        values: [0, 0x42b2_7c97_0d8a_62a8, 0, 0],
    },
    Example {
        name: "the same on a diagonal of the box, 5e13 away in each coordinate",
        call: PAIR,
        on: &[
            0xc130_0000_0000_0000,
            0xc12f_ffff_ffff_ffff,
            0xbe45_798e_e230_8c3c,
            0x4130_0000_0000_0000,
            0x412f_ffff_ffff_ffff,
            0,
            0xc130_0000_0000_0000,
            0xc12f_ffff_ffff_ffff,
            0xbe45_798e_e230_8c3d,
            0x4130_0000_0000_0000,
            0x412f_ffff_ffff_ffff,
            0,
            0x3f74_636f_b2b4_e1ac,
        ],
        class: 1,
        values: [0xc2c8_287c_0000_0002, 0x42c8_287c_0000_0001, 0, 0],
    },
];

pub fn all() -> &'static [Example] {
    ALL
}

impl Example {
    /// What a side answers otherwise, if one does.
    pub fn wrong(&self, ours: &Ours, text: Text) -> Option<String> {
        let numbers: Vec<f64> = self.on.iter().map(|bits| f64::from_bits(*bits)).collect();
        let mut out = [f64::NAN; 4];
        let class = (ours.call)(self.call, &numbers, &mut out);
        let sides = [Answer::new(class, &out), text(self.call, &numbers)];
        let is = |answer: &Answer| {
            answer.class == self.class && answer.values.map(f64::to_bits) == self.values
        };
        let wrong = sides.iter().find(|answer| !is(answer))?;
        Some(format!("gives {}, {}", wrong.class, hex(&wrong.values)))
    }
}
