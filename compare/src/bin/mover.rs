//! Both programs in plain Rust, `mover pack` and `mover unpack`: what `pack` and `unpack` are timed beside, from start to end.

#[path = "../packed/plain.rs"]
mod plain;

use std::env;
use std::io::{self, Read, Write};
use std::process::ExitCode;

fn main() -> ExitCode {
    let mut input = Vec::new();
    if io::stdin().read_to_end(&mut input).is_err() {
        eprintln!("mover: standard input cannot be read");
        return ExitCode::SUCCESS;
    }
    let moved = match env::args().nth(1).as_deref() {
        Some("pack") => plain::pack(&input).ok_or("refused 10".to_string()),
        Some("unpack") => plain::unpack(&input).map_err(|at| format!("refused 18 at {at}")),
        _ => {
            eprintln!("usage: mover pack or mover unpack");
            return ExitCode::FAILURE;
        }
    };
    match moved {
        Ok(out) => {
            let mut output = io::stdout().lock();
            if output.write_all(&out).and(output.flush()).is_err() {
                eprintln!("mover: standard output cannot be written");
            }
        }
        Err(why) => eprintln!("{why}"),
    }
    ExitCode::SUCCESS
}
