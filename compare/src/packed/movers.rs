//! The two programs, `pack` and `unpack`, compared with the model: all that they write to standard output and to standard error.

use std::path::Path;

use super::ask::Call;
use super::damage::{Parts, DAMAGES};
use super::draw::{any, longest, longest_text, small};
use super::kinds::VAST;
use super::model::{self, LONGEST, LONGEST_TEXT, MOST_BYTES};
use super::{examples, run::front};
use crate::form::damage::{self as of_text, lengthened};
use crate::form::{self, Sheet};
use crate::met::Met;
use crate::program::{Printed, Program, Way};
use crate::rng::Rng;

const SHOWN: u64 = 5;
/// More than a pipe holds.
const PIPE: usize = 65_536;

/// How a program is run.
pub type Runs<'a> = &'a dyn Fn(&[u8], Way) -> Result<Printed, String>;

/// Runs both programs of a folder on chosen inputs, and on `count` drawn and damaged ones. Answers how many differences there
/// were, plus the kinds of input that never occurred.
pub fn check(folder: &Path, count: u64, seed: u64) -> Result<u64, String> {
    let [pack, unpack] = ["pack", "unpack"].map(|name| Program::new(folder.join(name)));
    let (pack, unpack) = (pack?, unpack?);
    let pack = |input: &[u8], way| pack.run(input, way);
    let unpack = |input: &[u8], way| unpack.run(input, way);
    let mut run = Movers::new(&pack, &unpack, seed);
    run.all(count)?;
    Ok(run.report())
}

/// A run of a program.
struct Case {
    call: Call,
    bytes: usize,
    in_pieces: bool,
    refused: bool,
    offset: usize,
}

pub struct Movers<'a> {
    pack: Runs<'a>,
    unpack: Runs<'a>,
    rng: Rng,
    kinds: Met<Case>,
    /// For each program: how many inputs it moved and refused.
    counts: [[u64; 2]; 2],
    pub differences: u64,
}

impl<'a> Movers<'a> {
    pub fn new(pack: Runs<'a>, unpack: Runs<'a>, seed: u64) -> Movers<'a> {
        Movers {
            pack,
            unpack,
            rng: Rng::new(seed),
            kinds: kinds(),
            counts: [[0; 2]; 2],
            differences: 0,
        }
    }

    pub fn all(&mut self, count: u64) -> Result<(), String> {
        self.examples()?;
        self.lengths()?;
        for at in 0..count as usize {
            let sheet = match self.rng.below(8) {
                0 => any(&mut self.rng),
                _ => small(&mut self.rng),
            };
            match at % 4 {
                0 => self.layout(&sheet)?,
                1 => {
                    let damage = &of_text::DAMAGES[at / 4 % of_text::DAMAGES.len()];
                    let text = (damage.make)(&sheet.text(), &mut self.rng);
                    self.text(&text)?;
                }
                _ => {
                    let damage = &DAMAGES[at / 4 % DAMAGES.len()];
                    let bytes = (damage.make)(&Parts::of(&sheet), &mut self.rng);
                    self.file(&bytes)?;
                }
            }
        }
        Ok(())
    }

    fn examples(&mut self) -> Result<(), String> {
        for (text, bytes) in examples::LAYOUTS {
            self.text(text.as_bytes())?;
            self.file(bytes)?;
        }
        for (bytes, _) in examples::FAULTS {
            self.file(bytes)?;
        }
        for text in examples::BROKEN {
            self.text(text.as_bytes())?;
        }
        Ok(())
    }

    /// The longest layouts, and inputs about as long as may be and much longer.
    fn lengths(&mut self) -> Result<(), String> {
        let sheets = [longest(), longest_text()];
        for sheet in &sheets {
            self.layout(sheet)?;
            let bytes = model::packed(sheet);
            // an offset of each number of digits
            for at in [1, 20, 300, 4000, bytes.len() - 1] {
                self.file(&bytes[..at])?;
            }
            for long in [bytes.len() + 1, MOST_BYTES, MOST_BYTES + 1, PIPE + 1, VAST] {
                self.file(&lengthened(&bytes, long, &[0]))?;
            }
        }
        for filler in [0, 0x80, 0xff] {
            for long in [LONGEST, MOST_BYTES, MOST_BYTES + 1, VAST] {
                self.file(&vec![filler; long])?;
                self.file(&lengthened(&[1, 0, 2], long, &[filler]))?;
            }
        }
        for long in [form::MOST_BYTES, form::MOST_BYTES + 1, VAST] {
            for filler in [b"\n".as_slice(), b"0"] {
                self.text(&lengthened(&sheets[1].text(), long, filler))?;
                self.text(&lengthened(b"0 0\n", long, filler))?;
            }
        }
        Ok(())
    }

    fn layout(&mut self, sheet: &Sheet) -> Result<(), String> {
        self.text(&sheet.text())?;
        self.file(&model::packed(sheet))
    }

    fn text(&mut self, text: &[u8]) -> Result<(), String> {
        let expected = model::pack(text).ok_or("refused 10\n".to_string());
        self.once(Call::Pack, text, expected, 0)
    }

    fn file(&mut self, bytes: &[u8]) -> Result<(), String> {
        let unpacked = model::unpack(bytes);
        let offset = unpacked.as_ref().map_or_else(|fault| fault.offset, |_| 0);
        let expected = unpacked.map_err(|_| format!("refused 18 at {offset}\n"));
        self.once(Call::Unpack, bytes, expected, offset)
    }

    /// Runs a program, on standard output or on standard error of which something is expected.
    fn once(
        &mut self,
        call: Call,
        input: &[u8],
        expected: Result<Vec<u8>, String>,
        offset: usize,
    ) -> Result<(), String> {
        let way = if self.rng.one_in(16) {
            Way::InPieces(2 + self.rng.below(3) as usize)
        } else {
            Way::AtOnce
        };
        let refused = expected.is_err();
        let expected = match expected {
            Ok(output) => Printed {
                output,
                error: vec![],
            },
            Err(error) => Printed {
                output: vec![],
                error: error.into_bytes(),
            },
        };
        let runs = match call {
            Call::Pack => self.pack,
            _ => self.unpack,
        };
        let printed = runs(input, way)?;
        if printed != expected {
            self.differ(call, input, &printed, &expected);
        }
        self.counts[call as usize][usize::from(refused)] += 1;
        self.kinds.count(&Case {
            call,
            bytes: input.len(),
            in_pieces: matches!(way, Way::InPieces(_)),
            refused,
            offset,
        });
        Ok(())
    }

    fn differ(&mut self, call: Call, input: &[u8], printed: &Printed, expected: &Printed) {
        self.differences += 1;
        if self.differences > SHOWN {
            return;
        }
        println!("{}: {} bytes {}", call.name(), input.len(), front(input));
        for (what, Printed { output, error }) in [("printed", printed), ("expected", expected)] {
            println!(
                "  {what} {} bytes {}, error \"{}\"",
                output.len(),
                front(output),
                error.escape_ascii()
            );
        }
    }

    /// Prints the counts, and answers how many differences there were; a kind that never occurred counts as one.
    pub fn report(&self) -> u64 {
        for (name, [moved, refused]) in ["pack", "unpack"].iter().zip(self.counts) {
            println!("program {name}: {moved} moved, {refused} refused");
        }
        println!("programs: {} differences", self.differences);
        let unmet = self.kinds.report("programs", "run");
        for what in &unmet {
            println!("programs: NEVER MET: {what}");
        }
        self.differences + unmet.len() as u64
    }
}

fn kinds() -> Met<Case> {
    let mut kinds = Met::new();
    for (call, longest, most) in [
        (Call::Pack, LONGEST_TEXT, form::MOST_BYTES),
        (Call::Unpack, LONGEST, MOST_BYTES),
    ] {
        let name = call.name();
        for refused in [false, true] {
            let how = if refused { "refused" } else { "moved" };
            kinds.add(format!("{name}, {how}"), move |case: &Case| {
                case.call == call && case.refused == refused && !case.in_pieces
            });
            kinds.add(format!("{name}, {how}, in pieces"), move |case: &Case| {
                case.call == call && case.refused == refused && case.in_pieces
            });
        }
        for (bytes, refused) in [
            (0, true),
            (longest, false),
            (most, true),
            (most + 1, true),
            (VAST, true),
        ] {
            let how = if refused { "refused" } else { "moved" };
            kinds.add(
                format!("{name}, {how}, {bytes} bytes"),
                move |case: &Case| {
                    case.call == call && case.refused == refused && case.bytes == bytes
                },
            );
        }
    }
    // as many digits as an offset may have
    for digits in 1..=4 {
        kinds.add(
            format!("an offset of {digits} digits"),
            move |case: &Case| {
                let long = case.offset.to_string().len() == digits;
                case.call == Call::Unpack && case.refused && long
            },
        );
    }
    kinds
}

#[cfg(test)]
mod tests {
    use super::*;

    fn output(bytes: Vec<u8>) -> Printed {
        Printed {
            output: bytes,
            error: vec![],
        }
    }

    fn error(text: String) -> Printed {
        Printed {
            output: vec![],
            error: text.into_bytes(),
        }
    }

    fn pack(text: &[u8]) -> Printed {
        model::pack(text).map_or_else(|| error("refused 10\n".to_string()), output)
    }

    fn unpack(bytes: &[u8]) -> Printed {
        match model::unpack(bytes) {
            Ok(text) => output(text),
            Err(fault) => error(format!("refused 18 at {}\n", fault.offset)),
        }
    }

    /// How many differences there are if what is printed is changed so, and what the report adds to them.
    fn differences(spoil: fn(&[u8], Way, Printed) -> Printed) -> [u64; 2] {
        let pack = |input: &[u8], way| Ok(spoil(input, way, pack(input)));
        let unpack = |input: &[u8], way| Ok(spoil(input, way, unpack(input)));
        let mut run = Movers::new(&pack, &unpack, 1);
        run.all(512).expect("it runs");
        [run.differences, run.report() - run.differences]
    }

    #[test]
    fn right_programs_pass() {
        assert_eq!(differences(|_, _, printed| printed), [0, 0]);
    }

    #[test]
    fn wrong_programs_are_found() {
        let wrong: [fn(&[u8], Way, Printed) -> Printed; 11] = [
            // a refusal on standard output
            |_, _, Printed { output, error }| Printed {
                output: [output, error].concat(),
                error: vec![],
            },
            // and on both
            |_, _, Printed { output, error }| Printed {
                output: [&output[..], &error].concat(),
                error,
            },
            // no newline behind it
            |_, _, Printed { output, error }| Printed {
                output,
                error: error.strip_suffix(b"\n").unwrap_or(&error).to_vec(),
            },
            // the program's name before it
            |_, _, Printed { output, error }| Printed {
                output,
                error: match error.is_empty() {
                    true => error,
                    false => [b"unpack: ", &error[..]].concat(),
                },
            },
            // no offset
            |_, _, Printed { output, error }| Printed {
                output,
                error: match error.starts_with(b"refused 18") {
                    true => b"refused 18\n".to_vec(),
                    false => error,
                },
            },
            // the last digit of an offset left out
            |_, _, Printed { output, error }| Printed {
                output,
                error: match error.len() {
                    18.. => [&error[..error.len() - 2], b"\n"].concat(),
                    _ => error,
                },
            },
            // a word on standard error though it is moved
            |_, _, Printed { output, error }| Printed {
                error: match error.is_empty() {
                    true => b"done\n".to_vec(),
                    false => error,
                },
                output,
            },
            // the last byte left out
            |_, _, Printed { mut output, error }| {
                output.pop();
                Printed { output, error }
            },
            // a newline behind the layout
            |_, _, Printed { mut output, error }| {
                if error.is_empty() {
                    output.push(b'\n');
                }
                Printed { output, error }
            },
            // read once
            |input, way, printed| match way {
                Way::InPieces(pieces) => {
                    let first = input.chunks(input.len() / pieces + 1).next();
                    let first = first.unwrap_or_default();
                    match printed.error.is_empty() {
                        // which program it is shows by the last byte of the text
                        true if input.ends_with(b"\n") => pack(first),
                        true => unpack(first),
                        false => printed,
                    }
                }
                _ => printed,
            },
            // nothing at all for a long input
            |input, _, printed| match input.len() {
                900_000.. => output(vec![]),
                _ => printed,
            },
        ];
        for (at, spoil) in wrong.into_iter().enumerate() {
            assert!(differences(spoil)[0] > 0, "wrong program {at}");
        }
    }

    #[test]
    fn a_program_that_is_not_there() {
        assert!(check(Path::new("nowhere"), 1, 1).is_err());
    }
}
