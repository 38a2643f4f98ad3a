//! The program that lists, compared with a model that is written here from the request's words, over the listing's model and so over
//! the Rust's pair function: its whole output for layouts in their packed form behind the first line, for damaged files and lines,
//! and for texts, which it does not take any more. The same is asked of the library's call, in one process.

mod answering;
mod draw;
#[cfg(test)]
mod examples;
mod kinds;
mod model;
mod own;
mod score;
mod sheet;
mod stored;
#[cfg(test)]
mod tests;
mod verdict;

pub use own::own;
pub use stored::write;

use answering::Answering;
use draw::{small, Kind, KINDS};
use model::{behind_line, input, LINE};
use score::Score;

use crate::form::damage::{lengthened, replaced, swapped, DAMAGES as TEXT_DAMAGES};
use crate::form::Sheet;
use crate::packed::damage::{Parts, DAMAGES};
use crate::packed::draw::longest as longest_packed;
use crate::packed::model::{packed, LONGEST, MOST_BYTES};
use crate::program::{Program, Way};
use crate::rng::Rng;

/// The word that stands for the library in the place of a program.
const LIBRARY: &str = "library";

/// Asks the program, or the library, for the answers to inputs: with each front part of the first line, each of its bytes changed,
/// and other lines; of each length about the limits; without an end; then to `count` inputs, half of them layouts, the rest
/// damaged files and texts. Answers how many differences there were, plus the kinds of input that never occurred.
pub fn check(program: &str, count: u64, seed: u64) -> Result<u64, String> {
    let answering = match program {
        LIBRARY => Answering::library(),
        path => Answering::Program(Program::new(path)?),
    };
    run(answering, count, seed)
}

fn run(answering: Answering, count: u64, seed: u64) -> Result<u64, String> {
    let piped = answering.is_piped();
    let mut run = Run {
        score: Score::new(answering),
        rng: Rng::new(seed),
    };
    run.first_lines()?;
    run.first_bytes()?;
    run.each_length()?;
    if piped {
        run.endless()?;
    }
    // most of a long run's layouts are small
    let drawn = (count / 2).min(1024 + count / 64);
    run.drawn(drawn)?;
    run.small(count / 2 - drawn)?;
    run.damaged(count / 4)?;
    run.texts(count / 4)?;
    Ok(run.score.report())
}

struct Run {
    score: Score,
    rng: Rng,
}

impl Run {
    fn once(&mut self, group: usize, input: &[u8]) -> Result<(), String> {
        let way = if self.rng.one_in(32) {
            Way::InPieces(2 + self.rng.below(3) as usize)
        } else {
            Way::AtOnce
        };
        self.score.compare(group, input, way)
    }

    /// The scope's example, packed.
    fn example() -> Vec<u8> {
        packed(&Sheet::new(
            vec![[0, 0, 0], [4, 0, 0]],
            vec![[2, -2, 0], [2, 2, 0]],
        ))
    }

    /// Each front part of the line, and other lines, alone and before a layout.
    fn first_lines(&mut self) -> Result<(), String> {
        let group = self.score.group("other first lines", Some(16));
        let mut lines: Vec<Vec<u8>> = (0..=LINE.len()).map(|end| LINE[..end].to_vec()).collect();
        let others: [&[u8]; 16] = [
            b"PACKED\n",
            b"Packed\n",
            b"packeD\n",
            b"packed\r\n",
            b"packed\r",
            b"packed\0",
            b"packed \n",
            b"packed\t\n",
            b" packed\n",
            b"\npacked\n",
            b"\xef\xbb\xbfpacked\n",
            b"packed\n\n",
            b"packed\npacked\n",
            b"text\n",
            b"unpacked\n",
            b"packed\x0b",
        ];
        lines.extend(others.map(<[u8]>::to_vec));
        let files = [
            Vec::new(),
            Run::example(),
            b"2 2\n0 0 0\n4 0 0\n2 -2 0\n2 2 0\n".to_vec(),
        ];
        for line in lines {
            for file in &files {
                self.once(group, &[line.as_slice(), file].concat())?;
            }
        }
        Ok(())
    }

    /// Each byte of the line changed to every other, removed, doubled, swapped with the next, and with every byte before it.
    fn first_bytes(&mut self) -> Result<(), String> {
        let group = self.score.group("a byte of the first line", Some(16));
        let whole = behind_line(&Run::example());
        for at in 0..LINE.len() {
            let mut inputs = vec![
                replaced(&whole, at..at + 1, b""),
                replaced(&whole, at..at, &whole[at..=at]),
                swapped(&whole, at),
            ];
            for byte in 0..=255 {
                inputs.push(replaced(&whole, at..at + 1, &[byte]));
                inputs.push(replaced(&whole, at..at, &[byte]));
            }
            for input in inputs {
                self.once(group, &input)?;
            }
        }
        Ok(())
    }

    /// About as many bytes as a packed file may have, as the program looks at, and more than a pipe holds: of one byte, or with a
    /// layout at the front; with the line and without it.
    fn each_length(&mut self) -> Result<(), String> {
        let behind = self.score.group("very long, behind the line", Some(18));
        let without = self.score.group("very long, without the line", Some(16));
        let alone = self.score.group("the longest packed form", Some(5));
        self.once(alone, &input(&longest_packed()))?;
        let lengths = [
            LONGEST - 1,
            LONGEST,
            LONGEST + 1,
            MOST_BYTES - 1,
            MOST_BYTES,
            MOST_BYTES + 1,
        ];
        for bytes in lengths.into_iter().chain([MOST_BYTES + 2, 20_000, 100_000]) {
            for filler in [0, 0x80, 0xff, b'\n', b'p'] {
                for file in [Vec::new(), Run::example(), packed(&longest_packed())] {
                    if file.len() < bytes {
                        let file = lengthened(&file, bytes, &[filler]);
                        self.once(behind, &behind_line(&file))?;
                        self.once(without, &file)?;
                    }
                }
            }
        }
        Ok(())
    }

    /// A byte without end, behind the line or without it: the program answers after the bytes that it looks at.
    fn endless(&mut self) -> Result<(), String> {
        let behind = self.score.group("without end, behind the line", Some(18));
        let without = self.score.group("without end, without the line", Some(16));
        // the model gets more bytes than decide
        const ENOUGH: usize = 20_000;
        for byte in [0xff, 0x80, 0, b'\n', b'p'] {
            for file in [Vec::new(), Run::example()] {
                let file = lengthened(&file, ENOUGH, &[byte]);
                let input = behind_line(&file);
                self.score.compare(behind, &input, Way::Endless(byte))?;
                self.score.compare(without, &file, Way::Endless(byte))?;
            }
        }
        Ok(())
    }

    /// Layouts of every kind.
    fn drawn(&mut self, count: u64) -> Result<(), String> {
        let groups = KINDS.map(|kind| (self.score.group(kind.name, kind.must), kind));
        let rounds = (0..).flat_map(|round| {
            let due = move |(_, kind): &&(usize, Kind)| round % kind.rounds == 0;
            groups.iter().filter(due)
        });
        for (group, kind) in rounds.take(count as usize) {
            let sheet = (kind.draw)(&mut self.rng);
            self.once(*group, &input(&sheet))?;
        }
        Ok(())
    }

    fn small(&mut self, count: u64) -> Result<(), String> {
        if count == 0 {
            return Ok(());
        }
        let group = self.score.group("small", None);
        for _ in 0..count {
            let sheet = small(&mut self.rng);
            self.once(group, &input(&sheet))?;
        }
        Ok(())
    }

    /// Small, and now and then one of every kind.
    fn some_sheet(&mut self) -> Sheet {
        let rng = &mut self.rng;
        if rng.one_in(64) {
            let at = rng.below(KINDS.len() as u64) as usize;
            (KINDS[at].draw)(rng)
        } else {
            small(rng)
        }
    }

    /// Damaged packed files behind the line.
    fn damaged(&mut self, count: u64) -> Result<(), String> {
        let groups = DAMAGES.map(|damage| (self.score.group(damage.name, Some(18)), damage.make));
        for (group, make) in groups.into_iter().cycle().take(count as usize) {
            let parts = Parts::of(&self.some_sheet());
            let file = make(&parts, &mut self.rng);
            self.once(group, &behind_line(&file))?;
        }
        Ok(())
    }

    /// Texts, damaged ones too, and packed files without the line.
    fn texts(&mut self, count: u64) -> Result<(), String> {
        let right = self.score.group("a layout's text", Some(16));
        let wrong = self.score.group("a damaged text", Some(16));
        let bare = self.score.group("a packed file without the line", Some(16));
        for turn in 0..count {
            let sheet = self.some_sheet();
            match turn % 3 {
                0 => self.once(right, &sheet.text())?,
                1 => {
                    let at = self.rng.below(TEXT_DAMAGES.len() as u64) as usize;
                    let text = (TEXT_DAMAGES[at].make)(&sheet.text(), &mut self.rng);
                    self.once(wrong, &text)?;
                }
                _ => self.once(bare, &packed(&sheet))?,
            }
        }
        Ok(())
    }
}
