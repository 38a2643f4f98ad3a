//! Runs a program on its standard input, and takes what it writes.

use std::io::{self, ErrorKind, Read, Write};
use std::path::{Path, PathBuf};
use std::process::{Command, Stdio};
use std::thread;
use std::time::Duration;

/// How the input is written to the pipe.
#[derive(Clone, Copy)]
pub enum Way {
    AtOnce,
    /// In this many pieces, with a pause after each, so that it cannot be read at once.
    InPieces(usize),
    /// And then this byte again and again, until the program ends.
    #[cfg(feature = "rust-text")]
    Endless(u8),
}

const PAUSE: Duration = Duration::from_millis(2);

/// What a program wrote to standard output and to standard error.
#[derive(Debug, PartialEq)]
pub struct Printed {
    pub output: Vec<u8>,
    pub error: Vec<u8>,
}

pub struct Program(PathBuf);

impl Program {
    pub fn new(path: impl AsRef<Path>) -> Result<Program, String> {
        let path = path.as_ref();
        let full = path.canonicalize();
        full.map(Program)
            .map_err(|why| format!("{}: {why}", path.display()))
    }

    /// All that it writes. The program must end by itself, without a failure.
    pub fn run(&self, input: &[u8], way: Way) -> Result<Printed, String> {
        self.piped(input, way)
            .map_err(|why| format!("{}: {why}", self.0.display()))
    }

    fn piped(&self, bytes: &[u8], way: Way) -> io::Result<Printed> {
        let mut child = Command::new(&self.0)
            .stdin(Stdio::piped())
            .stdout(Stdio::piped())
            .stderr(Stdio::piped())
            .spawn()?;
        let input = child.stdin.take().expect("piped");
        let mut output = child.stdout.take().expect("piped");
        let mut error = child.stderr.take().expect("piped");
        let mut printed = Printed {
            output: Vec::new(),
            error: Vec::new(),
        };
        // one after the other, the program and this one could wait for each other; what goes to standard error is short
        thread::scope(|scope| {
            let feeding = scope.spawn(|| feed(input, bytes, way));
            output.read_to_end(&mut printed.output)?;
            error.read_to_end(&mut printed.error)?;
            feeding.join().expect("no panic")
        })?;
        let status = child.wait()?;
        if !status.success() {
            return Err(io::Error::other(format!("ended with {status}")));
        }
        Ok(printed)
    }
}

/// Writes the input and closes the pipe. A program that knows its answer does not have to read the rest.
fn feed(mut input: impl Write, bytes: &[u8], way: Way) -> io::Result<()> {
    let written = match way {
        Way::AtOnce => input.write_all(bytes),
        #[cfg(feature = "rust-text")]
        Way::Endless(byte) => {
            let more = [byte; 4096];
            let mut written = input.write_all(bytes);
            while written.is_ok() {
                written = input.write_all(&more);
            }
            written
        }
        Way::InPieces(pieces) => {
            let size = bytes.len() / pieces + 1;
            bytes.chunks(size).try_for_each(|piece| {
                input.write_all(piece)?;
                input.flush()?;
                thread::sleep(PAUSE);
                Ok(())
            })
        }
    };
    match written {
        Err(why) if why.kind() == ErrorKind::BrokenPipe => Ok(()),
        written => written,
    }
}
