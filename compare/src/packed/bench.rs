//! What a move costs: the two programs from start to end, beside a small one in plain Rust (`mover`); and our calls beside the
//! same plain functions, without a program around them.

use std::fs::{self, File};
use std::hint::black_box;
use std::path::{Path, PathBuf};
use std::process::{Command, Stdio};
use std::time::{Duration, Instant};
use std::{env, process};

use super::ask::{Call, TOLD};
use super::draw::{longest, longest_text};
use super::{model, plain, OURS};
use crate::bench::{head, Row};
use crate::form::Sheet;
use crate::program::{Program, Way};

/// Where the gate has the programs, beside this program's sources.
const PROGRAMS: &str = concat!(env!("CARGO_MANIFEST_DIR"), "/../target/bin");
/// A call is repeated until a round has so many bytes of text.
const A_ROUND: u64 = 1 << 20;
/// Each program is run so often, by turns.
const RUNS: usize = 1000;

pub fn run() -> Result<(), String> {
    let layouts = [
        ("the longest packed form", longest()),
        ("the longest text", longest_text()),
        ("no vertices", Sheet::default()),
    ];
    head("moves in one program, ns a call, beside plain Rust");
    for (name, sheet) in &layouts {
        calls(name, sheet);
    }
    println!(
        "{:62} {:>26} {:>26} {:>13}",
        "programs, \u{b5}s from start to end, beside plain Rust",
        "ours, least and median",
        "plain, least and median",
        "ratio of each"
    );
    for (name, sheet) in &layouts {
        programs(name, sheet)?;
    }
    Ok(())
}

fn calls(name: &str, sheet: &Sheet) {
    let (text, bytes) = (sheet.text(), model::packed(sheet));
    let mut out = vec![0; Call::Unpack.room()];
    let mut told = [0; TOLD];
    let a_round = A_ROUND / text.len() as u64;
    Row::new(&format!("pack, {name}")).of(1).timed(
        a_round,
        || assert_eq!((OURS.pack)(black_box(&text), &mut out, &mut told), 0),
        || assert!(black_box(plain::pack(black_box(&text))).is_some()),
    );
    Row::new(&format!("unpack, {name}")).of(1).timed(
        a_round,
        || assert_eq!((OURS.unpack)(black_box(&bytes), &mut out, &mut told), 0),
        || assert!(black_box(plain::unpack(black_box(&bytes))).is_ok()),
    );
}

fn programs(name: &str, sheet: &Sheet) -> Result<(), String> {
    let (text, bytes) = (sheet.text(), model::packed(sheet));
    timed(name, "pack", &text, &bytes)?;
    timed(name, "unpack", &bytes, &text)
}

/// Times a program, and the plain one with the same word, on an input that is in a file.
fn timed(name: &str, word: &str, input: &[u8], output: &[u8]) -> Result<(), String> {
    let ours = Path::new(PROGRAMS).join(word);
    let printed = Program::new(&ours)?.run(input, Way::AtOnce)?;
    if printed.output != output {
        return Err(format!("{} does not move {name}", ours.display()));
    }
    let file = env::temp_dir().join(format!("moved-{}", process::id()));
    let named = |why| format!("{}: {why}", file.display());
    fs::write(&file, input).map_err(named)?;
    let mut times = [Vec::new(), Vec::new()];
    for _ in 0..RUNS {
        times[0].push(once(Command::new(&ours), &file)?);
        let mut plain = Command::new(mover()?);
        plain.arg(word);
        times[1].push(once(plain, &file)?);
    }
    fs::remove_file(&file).map_err(named)?;
    let [ours, plain] = times.map(|mut times| {
        times.sort();
        [times[0], times[RUNS / 2]].map(|time| time.as_nanos() as f64 / 1000.0)
    });
    println!(
        "{:62} {:12.1} {:13.1} {:12.1} {:13.1} {:6.2} {:6.2}",
        format!("{word}, {name}"),
        ours[0],
        ours[1],
        plain[0],
        plain[1],
        ours[0] / plain[0],
        ours[1] / plain[1]
    );
    Ok(())
}

/// It stands beside this program.
fn mover() -> Result<PathBuf, String> {
    let here = env::current_exe().map_err(|why| why.to_string())?;
    Ok(here.with_file_name("mover"))
}

/// From the start of a program to its end, by the clock on the wall.
fn once(mut program: Command, input: &Path) -> Result<Duration, String> {
    let file = File::open(input).map_err(|why| why.to_string())?;
    let start = Instant::now();
    let status = program
        .stdin(file)
        .stdout(Stdio::null())
        .status()
        .map_err(|why| format!("{:?}: {why}", program.get_program()))?;
    let time = start.elapsed();
    match status.success() {
        true => Ok(time),
        false => Err(format!("{:?} ended with {status}", program.get_program())),
    }
}
