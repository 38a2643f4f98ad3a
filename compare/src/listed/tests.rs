//! A right stand-in for the library's call, which must pass, and wrong ones, which the comparison must notice.

use super::answering::{Answering, ROOM};
use super::model::{answer, behind_line, of_sheet, LINE};
use super::run;
use crate::form;
use crate::packed::model as packed;

const COUNT: u64 = 3_072;
const SEED: u64 = 1;

/// A stand-in that prints what is said, if there is room.
fn saying(says: impl Fn(&[u8]) -> String + 'static) -> Answering {
    Answering::of_call(Box::new(move |input, out| {
        if out.len() < ROOM {
            return 0;
        }
        let text = says(input);
        out[..text.len()].copy_from_slice(text.as_bytes());
        text.len()
    }))
}

fn differences(answering: Answering) -> u64 {
    run(answering, COUNT, SEED).expect("no program is run")
}

/// The answer to what follows a line of this many bytes.
fn behind(input: &[u8], bytes: usize) -> String {
    answer(&behind_line(&input[bytes..])).printed()
}

fn right(input: &[u8]) -> String {
    answer(input).printed()
}

fn has_line(input: &[u8]) -> bool {
    input.starts_with(LINE)
}

#[test]
fn the_right_one() {
    assert_eq!(differences(saying(right)), 0);
}

type Says = fn(&[u8]) -> String;

#[test]
fn wrong_lines() {
    let wrong: [(&str, Says); 14] = [
        ("a text is still taken", |input| match form::sheet(input) {
            Some(sheet) => of_sheet(&sheet).printed(),
            None => right(input),
        }),
        (
            "a packed file is taken without its line",
            |input| match packed::sheet(input) {
                Ok(sheet) => of_sheet(&sheet).printed(),
                Err(_) => right(input),
            },
        ),
        ("18 before 16", |input| match packed::sheet(input) {
            Err(_) if !has_line(input) => "refused 18\n".to_string(),
            _ => right(input),
        }),
        ("10 for 16", |input| {
            right(input).replace("refused 16", "refused 10")
        }),
        ("10 for 18", |input| {
            right(input).replace("refused 18", "refused 10")
        }),
        ("the line in any case", |input| {
            match input.get(..LINE.len()) {
                Some(line) if line.eq_ignore_ascii_case(LINE) => behind(input, LINE.len()),
                _ => right(input),
            }
        }),
        ("the newline is optional", |input| {
            let word = &LINE[..LINE.len() - 1];
            match input.starts_with(word) && !has_line(input) {
                true => behind(input, word.len()),
                false => right(input),
            }
        }),
        ("a carriage return is taken", |input| {
            match input.starts_with(b"packed\r\n") {
                true => behind(input, LINE.len() + 1),
                false => right(input),
            }
        }),
        ("blanks before the line are skipped", |input| {
            right(input.trim_ascii_start())
        }),
        ("a front part of the line is enough", |input| {
            match !input.is_empty() && LINE.starts_with(input) {
                true => "refused 18\n".to_string(),
                false => right(input),
            }
        }),
        ("an empty input is an empty file", |input| {
            match input.is_empty() {
                true => "refused 18\n".to_string(),
                false => right(input),
            }
        }),
        ("the line alone has no file", |input| match input == LINE {
            true => "refused 16\n".to_string(),
            false => right(input),
        }),
        ("the line may stand twice", |input| {
            match input.starts_with(&LINE.repeat(2)) {
                true => right(&input[LINE.len()..]),
                false => right(input),
            }
        }),
        ("only the first byte is looked at", |input| match input {
            [b'p', _, _, _, _, _, _, ..] => behind(input, LINE.len()),
            _ => right(input),
        }),
    ];
    for (name, says) in wrong {
        assert_ne!(differences(saying(says)), 0, "{name}");
    }
}

#[test]
fn wrong_files() {
    let wrong: [(&str, Says); 6] = [
        ("the offset is printed", |input| {
            match input.strip_prefix(LINE).map(packed::sheet) {
                Some(Err(fault)) => format!("refused 18 at {}\n", fault.offset),
                _ => right(input),
            }
        }),
        ("the file is cut at its longest", |input| {
            right(&input[..input.len().min(LINE.len() + packed::LONGEST)])
        }),
        ("8,192 bytes are too many", |input| {
            match input.len() >= LINE.len() + packed::MOST_BYTES {
                true => "refused 16\n".to_string(),
                false => right(input),
            }
        }),
        ("a newline behind the file is taken", |input| {
            match has_line(input) && input.ends_with(b"\n") && input.len() > LINE.len() {
                true => right(&input[..input.len() - 1]),
                false => right(input),
            }
        }),
        ("5 comes after 8", |input| {
            right(input).replace("refused 5", "refused 8")
        }),
        ("no last newline", |input| {
            right(input).trim_end().to_string()
        }),
    ];
    for (name, says) in wrong {
        assert_ne!(differences(saying(says)), 0, "{name}");
    }
}

#[test]
fn wrong_slices() {
    let print = |input: &[u8], out: &mut [u8]| {
        let text = right(input);
        out[..text.len()].copy_from_slice(text.as_bytes());
        text.len()
    };
    let behind = move |input: &[u8], out: &mut [u8]| match out.len() < ROOM {
        true => 0,
        false => {
            let written = print(input, out);
            out[written] = 0;
            written
        }
    };
    assert_ne!(differences(Answering::of_call(Box::new(behind))), 0);
    let without_room = move |input: &[u8], out: &mut [u8]| match out.len() < right(input).len() {
        true => 0,
        false => print(input, out),
    };
    assert_ne!(differences(Answering::of_call(Box::new(without_room))), 0);
    let a_byte_less = move |input: &[u8], out: &mut [u8]| match out.len() < ROOM - 1 {
        true => 0,
        false => print(input, out),
    };
    assert_ne!(differences(Answering::of_call(Box::new(a_byte_less))), 0);
    let more_room = move |input: &[u8], out: &mut [u8]| match out.len() <= ROOM {
        true => 0,
        false => print(input, out),
    };
    assert_ne!(differences(Answering::of_call(Box::new(more_room))), 0);
}
