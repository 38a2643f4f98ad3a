//! The stored bodies of drawings, which other programs wrote, and what an import answers to each.

use std::fmt::Write;
use std::fs;
use std::path::{Path, PathBuf};

use super::draw;
use super::model::{self, Body, Fault, Item, Mode};
use super::OURS;
use crate::rng::Rng;
use crate::vertex::VERTEX;

const FOLDER: &str = concat!(env!("CARGO_MANIFEST_DIR"), "/../drawings");

pub struct Stored {
    pub name: String,
    pub text: Vec<u8>,
    /// What stands in NAME.expected.
    pub expected: String,
}

/// The bodies, in the order of their names. Fails if there are none, or if an answer is missing.
pub fn read() -> Result<Vec<Stored>, String> {
    let mut all = Vec::new();
    for path in bodies(Path::new(FOLDER))? {
        let expected = bytes(&path.with_extension("expected"))?;
        all.push(Stored {
            name: path.display().to_string(),
            text: bytes(&path)?,
            expected: String::from_utf8_lossy(&expected).into_owned(),
        });
    }
    Ok(all)
}

/// Writes NAME.expected for each NAME.body of a folder, as the model answers. Answers how many are accepted and how many refused.
pub fn write(folder: &Path) -> Result<[usize; 2], String> {
    let mut counts = [0; 2];
    for path in bodies(folder)? {
        let answer = model::import(&bytes(&path)?, Mode::Half);
        counts[usize::from(answer.is_err())] += 1;
        let to = path.with_extension("expected");
        fs::write(&to, told(&answer)).map_err(|why| format!("{}: {why}", to.display()))?;
    }
    Ok(counts)
}

/// An answer in text lines: the counts, then the bits of each vertex's numbers; or the refusal and its place.
pub fn told(answer: &Result<Body, Fault>) -> String {
    let mut text = String::new();
    match answer {
        Ok(body) => {
            let closed = u8::from(body.closed);
            writeln!(text, "vertices {} closed {closed}", body.vertices.len()).expect("a string");
            for [x, y, bulge] in body.vertices.iter().map(|v| v.map(f64::to_bits)) {
                writeln!(text, "{x:016x} {y:016x} {bulge:016x}").expect("a string");
            }
        }
        Err(fault) => {
            let place = match fault.item {
                Item::Line => "line",
                Item::Chord | Item::CutX | Item::CutY => "segment",
                _ => "vertex",
            };
            writeln!(text, "refused {} at {place} {}", fault.number, fault.index)
                .expect("a string");
        }
    }
    text
}

/// Writes drawn paths as our calls export them, NAME.body, and beside each the flag and the bits of x, y and bulge, NAME.bits.
/// Another program may read the bodies and compare.
pub fn export_to(folder: &Path, count: u64, seed: u64) -> Result<u64, String> {
    let mut rng = Rng::new(seed);
    let mut text = vec![0; Mode::Half.most_bytes(model::MOST_VERTICES)];
    for at in 0..count {
        let vertices = match at {
            0 => model::MOST_VERTICES,
            _ => 1 + draw::how_many(&mut rng),
        };
        let path = draw::path(vertices, Mode::Half, &mut rng);
        let closed = rng.one_in(2);
        let mut told = [0];
        let word = (OURS.export)((&path, closed), &mut text, &mut told);
        if word != 0 {
            return Err(format!("a path of six digits is not exported: {word:#x}"));
        }
        let mut bits = format!("closed {}\n", u8::from(closed));
        for v in path.chunks(VERTEX) {
            let [x, y, bulge] = [v[0], v[1], v[2]].map(f64::to_bits);
            writeln!(bits, "{x:016x} {y:016x} {bulge:016x}").expect("a string");
        }
        let to = folder.join(format!("{at:06}.body"));
        let named = |why| format!("{}: {why}", to.display());
        fs::write(&to, &text[..told[0] as usize]).map_err(named)?;
        fs::write(to.with_extension("bits"), bits).map_err(named)?;
    }
    Ok(count)
}

fn bodies(folder: &Path) -> Result<Vec<PathBuf>, String> {
    let named = |why| format!("{}: {why}", folder.display());
    let mut files = Vec::new();
    for entry in fs::read_dir(folder).map_err(named)? {
        let path = entry.map_err(named)?.path();
        if path.extension().is_some_and(|end| end == "body") {
            files.push(path);
        }
    }
    files.sort();
    match files.is_empty() {
        true => Err(format!("{}: no bodies are stored", folder.display())),
        false => Ok(files),
    }
}

fn bytes(path: &Path) -> Result<Vec<u8>, String> {
    fs::read(path).map_err(|why| format!("{}: {why}", path.display()))
}
