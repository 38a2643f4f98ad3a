//! Somebody's own layouts, listed by the Rust text and by our build, row beside row: texts, packed files, bodies of drawings, and
//! plain numbers, which may hold a NaN. A layout that our build refuses is shown with its place in words, and with what the Rust
//! text answers, which looks at no number first.

mod file;
mod listing;
mod numbers;
mod table;
#[cfg(test)]
mod tests;
mod words;

use std::fs;

use file::{held, Held};
use listing::{listed, refused_file, Beside};
use table::{Line, Table};

use crate::listings::{layout, Ours};

/// The exit status: nothing differs; something does; a file could not be read, or the words were wrong.
pub const SAME: u8 = 0;
pub const DIFFERENT: u8 = 1;
pub const UNREAD: u8 = 2;

pub const USAGE: &str = "usage: compare beside [--epsilon E] [--closed] FILE... (docs/RELEASE.md)";

const EPSILON: f64 = 1.0 / 1024.0;

/// What stands before the files: an epsilon for all of them, and whether their paths are closed.
#[derive(Clone, Copy, Debug, PartialEq)]
pub struct Options {
    pub epsilon: f64,
    /// A body has a flag of its own.
    pub closed: bool,
}

/// Prints the table of these files. Answers the exit status, or what is wrong with the words.
pub fn run(words: &[&str]) -> Result<u8, String> {
    let (options, files) = options(words)?;
    let read = |name: &&str| {
        (
            name.to_string(),
            fs::read(name).map_err(|why| why.to_string()),
        )
    };
    let (printed, status) = of_files(files.iter().map(read), options, layout::ours);
    print!("{printed}");
    Ok(status)
}

fn options<'a>(words: &[&'a str]) -> Result<(Options, Vec<&'a str>), String> {
    let mut options = Options {
        epsilon: EPSILON,
        closed: false,
    };
    let mut rest = words.iter().copied();
    let mut files = Vec::new();
    while let Some(word) = rest.next() {
        match word {
            "--closed" => options.closed = true,
            "--epsilon" => {
                let number = rest.next().ok_or("--epsilon needs a number")?;
                let no_number = |_| format!("no number: {number}");
                options.epsilon = number.parse().map_err(no_number)?;
            }
            _ if word.starts_with("--") => return Err(format!("no such option: {word}")),
            _ => files.push(word),
        }
    }
    match files.is_empty() {
        true => Err("no file is named".to_string()),
        false => Ok((options, files)),
    }
}

/// The table of files by their names and bytes, and the exit status.
fn of_files(
    files: impl Iterator<Item = (String, Result<Vec<u8>, String>)>,
    options: Options,
    ours: Ours,
) -> (String, u8) {
    let mut table = Table::default();
    for (name, bytes) in files {
        let line = match bytes.and_then(|bytes| of_file(&name, &bytes, options, ours)) {
            Ok((form, beside)) => Line::listed(name, form, beside),
            Err(why) => Line::unread(name, why),
        };
        table.push(line);
    }
    (table.printed(), table.status())
}

/// The name of the file's form, and both listings of what it holds.
fn of_file(
    name: &str,
    bytes: &[u8],
    options: Options,
    ours: Ours,
) -> Result<(&'static str, Beside), String> {
    let (form, held) = held(name, bytes, options.closed)?;
    let beside = match held {
        Held::Paths(paths) => listed(&paths, options.epsilon, ours),
        Held::Refused(refused) => refused_file(refused, options.epsilon),
    };
    Ok((form, beside))
}
