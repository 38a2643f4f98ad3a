//! Texts and packed files worked out by hand, which need no model.

use super::ask::{Call, TOLD};
use super::Ours;

/// Texts and their packed forms.
pub const LAYOUTS: &[(&str, &[u8])] = &[
    ("0 0\n", &[0, 0]),
    ("1 0\n0 0 0\n", &[1, 0, 0, 0, 0]),
    ("0 1\n1 -1 2\n", &[0, 1, 2, 1, 4]),
    ("1 0\n63 -64 -1\n", &[1, 0, 126, 127, 1]),
    ("1 0\n64 -65 -2\n", &[1, 0, 0x80, 1, 0x81, 1, 3]),
    (
        "1 1\n8191 -8192 8192\n-8193 0 150\n",
        &[
            1, 1, 0xfe, 0x7f, 0xff, 0x7f, 0x80, 0x80, 1, 0x81, 0x80, 1, 0, 0xac, 2,
        ],
    ),
    // +1,048,576 has four bytes, -1,048,576 three
    (
        "0 1\n1048576 -1048576 65536\n",
        &[0, 1, 0x80, 0x80, 0x80, 1, 0xff, 0xff, 0x7f, 0x80, 0x80, 8],
    ),
    (
        "1 0\n1048575 -1048575 -65536\n",
        &[1, 0, 0xfe, 0xff, 0x7f, 0xfd, 0xff, 0x7f, 0xff, 0xff, 7],
    ),
    // the scope's example
    (
        "2 2\n0 0 0\n4 0 0\n2 -2 0\n2 2 0\n",
        &[2, 2, 0, 0, 0, 8, 0, 0, 4, 3, 0, 4, 4, 0],
    ),
];

/// Files that are no layout, and the offset of each one's fault.
pub const FAULTS: &[(&[u8], usize)] = &[
    // a number is missing
    (&[], 0),
    (&[0], 1),
    (&[1, 0], 2),
    (&[1, 0, 5], 3),
    (&[1, 0, 5, 6], 4),
    (&[0, 1, 0x80, 1, 6], 5),
    // cut off
    (&[0x80], 0),
    (&[0, 0x80], 1),
    (&[1, 0, 5, 0x86], 3),
    (&[1, 0, 0x80, 1, 0x80, 0x80], 4),
    // not the shortest form
    (&[0x80, 0, 0], 0),
    (&[0x81, 0x80, 0, 0], 0),
    (&[0, 0x80, 0], 1),
    (&[1, 0, 5, 0x86, 0, 7], 3),
    (&[1, 0, 0x80, 0x80, 0x80, 0x81, 0, 0, 0], 2),
    // out of range: 257 vertices, one beyond each limit
    (&[0x81, 2, 0], 0),
    (&[0, 0x81, 2], 1),
    (&[1, 0, 0x81, 0x80, 0x80, 1, 0, 0], 2),
    (&[1, 0, 0x82, 0x80, 0x80, 1, 0, 0], 2),
    (&[1, 0, 0, 0x81, 0x80, 0x80, 1, 0], 3),
    (&[1, 0, 0, 0, 0x81, 0x80, 8], 4),
    (&[1, 0, 0, 0, 0x82, 0x80, 8], 4),
    // bytes left over
    (&[0, 0, 0], 2),
    (&[0, 0, 0x80], 2),
    (&[1, 0, 5, 6, 7, b'\n'], 5),
    (&[1, 0, 0x80, 1, 6, 7, 0xff, 0xff], 6),
    // 2^64 and 2^32 come to 0 in fewer bits
    (
        &[0x80, 0x80, 0x80, 0x80, 0x80, 0x80, 0x80, 0x80, 0x80, 2, 0],
        0,
    ),
    (&[0x80, 0x80, 0x80, 0x80, 0x10, 0], 0),
];

/// Texts that break their form.
pub const BROKEN: &[&str] = &[
    "",
    "0 0",
    "0 0\n\n",
    "1 0\n",
    "1 0\n0 0 -0\n",
    "1 0\n1048577 0 0\n",
    "1 0\n0 0 -65537\n",
    "0 0 \n",
    "257 0\n",
];

/// What a call does not answer as written here.
pub fn wrong(ours: Ours) -> Vec<String> {
    let mut wrong = Vec::new();
    for (text, bytes) in LAYOUTS {
        if moved(Call::Pack, ours.pack, text.as_bytes()) != (0, bytes.to_vec(), bytes.len() as u64)
        {
            wrong.push(format!("pack, by hand: {text:?}"));
        }
        let unpacked = (0, text.as_bytes().to_vec(), text.len() as u64);
        if moved(Call::Unpack, ours.unpack, bytes) != unpacked {
            wrong.push(format!("unpack, by hand: {bytes:?}"));
        }
    }
    for (bytes, offset) in FAULTS {
        let (word, _, told) = moved(Call::Unpack, ours.unpack, bytes);
        if (word, told) != (18, *offset as u64) {
            wrong.push(format!("unpack, by hand: {bytes:?}"));
        }
        let (mut first, mut second) = (vec![0.5; Call::Read.room()], vec![0.5; Call::Read.room()]);
        let mut told = [7; TOLD];
        let word = (ours.read)(bytes, &mut first, &mut second, &mut told);
        if (word, told) != (18, [*offset as u64, 0]) {
            wrong.push(format!("read, by hand: {bytes:?}"));
        }
    }
    for text in BROKEN {
        if moved(Call::Pack, ours.pack, text.as_bytes()).0 != 10 {
            wrong.push(format!("pack, by hand: {text:?}"));
        }
    }
    wrong
}

type Move = fn(&[u8], &mut [u8], &mut [u64]) -> u64;

/// What a call returns, writes, and tells in the first place.
fn moved(call: Call, ours: Move, input: &[u8]) -> (u64, Vec<u8>, u64) {
    let mut out = vec![0; call.room()];
    let mut told = [7; TOLD];
    let word = ours(input, &mut out, &mut told);
    out.truncate(told[0] as usize);
    (word, out, told[0])
}
