//! Kinds of input that a run must have met. They are read from the input and its answer, not from how it was made.

use super::model::{paths, Answer, CLASSES, LINE, MOST_ROWS};
use crate::crossing::faults::{Fault, Item};
use crate::form::{self, BULGE, COORDINATE};
use crate::listings::layout::Drawn;
use crate::packed::model as packed;
use crate::vertex::VERTEX;

pub struct Case<'a> {
    pub input: &'a [u8],
    pub answer: &'a Answer,
    pub in_pieces: bool,
}

/// A case, with what is needed of it more than once.
struct Seen<'a> {
    case: &'a Case<'a>,
    paths: [Drawn; 2],
    refused: Option<u64>,
}

impl Seen<'_> {
    fn is_listed(&self) -> bool {
        self.refused.is_none()
    }

    fn is_broken(&self) -> bool {
        matches!(self.case.answer, Answer::Broken)
    }

    fn is_missing(&self) -> bool {
        matches!(self.case.answer, Answer::Missing)
    }

    /// Whether the first bytes are those, with a layout's packed form behind them.
    fn is_behind(&self, front: &[u8]) -> bool {
        let file = self.case.input.strip_prefix(front);
        file.is_some_and(|file| packed::sheet(file).is_ok())
    }

    fn vertices(&self) -> [usize; 2] {
        self.paths.each_ref().map(|path| path.path().vertices())
    }

    fn rows(&self) -> usize {
        self.case.answer.rows().len()
    }

    fn bytes(&self) -> usize {
        self.case.input.len()
    }

    /// Whether the first fault is a chord of this path.
    fn has_short_arc(&self, which: usize) -> bool {
        let Answer::Made(listing) = self.case.answer else {
            return false;
        };
        let is = |fault: &Fault| fault.place.item == Item::Chord && fault.place.owner == which;
        listing.faults.first().is_some_and(is)
    }

    /// Whether a path ends with the same vertex twice, with a bulge only at the last one: it belongs to no segment.
    fn ends_in_bulge(&self) -> bool {
        self.paths.iter().any(|path| match path.numbers[..] {
            [.., x, y, b, _, x2, y2, b2, _] => x == x2 && y == y2 && b == 0.0 && b2 != 0.0,
            _ => false,
        })
    }
}

type Test = Box<dyn Fn(&Seen) -> bool>;

struct Kind {
    name: String,
    met: u64,
    test: Test,
}

pub struct Kinds(Vec<Kind>);

/// No layout's input has more bytes.
const LONGEST: usize = LINE.len() + packed::LONGEST;
/// The most bytes of an input that the program looks at.
const MOST_BYTES: usize = LINE.len() + packed::MOST_BYTES;

impl Kinds {
    /// `piped` if inputs are written to a pipe, some in pieces.
    pub fn new(piped: bool) -> Kinds {
        let mut kinds = Kinds(Vec::new());
        kinds.of_sizes();
        kinds.of_numbers();
        kinds.of_rows();
        kinds.of_refusals();
        kinds.of_lines();
        if piped {
            kinds.of_pieces();
        }
        kinds
    }

    fn add(&mut self, name: impl Into<String>, test: impl Fn(&Seen) -> bool + 'static) {
        self.0.push(Kind {
            name: name.into(),
            met: 0,
            test: Box::new(test),
        });
    }

    fn of_sizes(&mut self) {
        for which in 0..2 {
            for n in [0, 1, 2, 255, 256] {
                self.add(format!("path {which} of {n} vertices, listed"), move |s| {
                    s.is_listed() && s.vertices()[which] == n
                });
            }
        }
        self.add("both of 256 vertices, listed", |s| {
            s.is_listed() && s.vertices() == [256, 256]
        });
        self.add("as many bytes as a layout can have", |s| {
            s.refused == Some(5) && s.bytes() == LONGEST
        });
        self.add("no pairs, listed", |s| {
            s.is_listed() && s.vertices().iter().any(|n| *n < 2)
        });
    }

    fn of_pieces(&mut self) {
        self.add("in pieces, listed", |s| s.is_listed() && s.case.in_pieces);
        self.add("in pieces, broken", |s| s.is_broken() && s.case.in_pieces);
        self.add("in pieces, no line", |s| s.is_missing() && s.case.in_pieces);
    }

    fn of_numbers(&mut self) {
        let limits = [("x", COORDINATE), ("y", COORDINATE), ("bulge", BULGE)];
        for (which, (name, limit)) in limits.into_iter().enumerate() {
            for sign in [1, -1] {
                let number = sign * limit;
                let value = if which == 2 {
                    sign as f64
                } else {
                    number as f64
                };
                self.add(format!("{name} {number}, listed"), move |s| {
                    let of = |path: &Drawn| {
                        path.numbers
                            .iter()
                            .skip(which)
                            .step_by(VERTEX)
                            .any(|x| *x == value)
                    };
                    s.is_listed() && s.paths.iter().any(of)
                });
            }
        }
        self.add("a last bulge behind equal ends, listed", |s| {
            s.is_listed() && s.ends_in_bulge()
        });
    }

    fn of_rows(&mut self) {
        for rows in [0, 1, MOST_ROWS - 1, MOST_ROWS] {
            self.add(format!("{rows} rows, listed"), move |s| {
                s.is_listed() && s.rows() == rows
            });
        }
        for rows in [MOST_ROWS + 1, MOST_ROWS + 2] {
            self.add(format!("{rows} rows, refused"), move |s| {
                s.refused == Some(8) && s.rows() == rows
            });
        }
        self.add("more than 10,000 rows, refused", |s| {
            s.refused == Some(8) && s.rows() > 10_000
        });
        self.add("256 vertices each and 512 rows, listed", |s| {
            s.is_listed() && s.vertices() == [256, 256] && s.rows() == MOST_ROWS
        });
        self.add("indices of three digits, listed", |s| {
            let long = |i: &u64| *i > 99;
            s.is_listed()
                && s.case
                    .answer
                    .rows()
                    .iter()
                    .any(|row| row.indices.iter().all(long))
        });
        for (class, name) in CLASSES.iter().enumerate().skip(1) {
            self.add(format!("a row of class {name}"), move |s| {
                s.is_listed()
                    && s.case
                        .answer
                        .rows()
                        .iter()
                        .any(|row| row.class == class as u64)
            });
        }
    }

    fn of_refusals(&mut self) {
        for which in 0..2 {
            self.add(format!("a short arc in path {which}"), move |s| {
                s.refused == Some(5) && s.has_short_arc(which)
            });
        }
        for bytes in [0, 1, 2].map(|more| LINE.len() + more) {
            self.add(format!("broken, {bytes} bytes"), move |s| {
                s.is_broken() && s.bytes() == bytes
            });
        }
        for bytes in [
            LONGEST,
            LONGEST + 1,
            MOST_BYTES - 1,
            MOST_BYTES,
            MOST_BYTES + 1,
        ] {
            for byte in [0, 0x80, 0xff] {
                self.add(
                    format!("broken, {bytes} bytes that end in {byte}"),
                    move |s| {
                        s.is_broken() && s.bytes() == bytes && s.case.input.last() == Some(&byte)
                    },
                );
            }
        }
        self.add("broken, more than a pipe holds", |s| {
            s.is_broken() && s.bytes() > 65_536
        });
        self.add("the line twice, broken", |s| {
            s.is_broken() && s.is_behind(&LINE.repeat(2))
        });
        self.add("broken, with a text behind the line", |s| {
            let text = s.case.input.strip_prefix(LINE).and_then(form::sheet);
            s.is_broken() && text.is_some()
        });
    }

    /// What stands in the place of the first line.
    fn of_lines(&mut self) {
        for end in 0..LINE.len() {
            self.add(
                format!("the first {end} bytes of the line, alone"),
                move |s| s.is_missing() && s.case.input == &LINE[..end],
            );
            self.add(
                format!("the first {end} bytes of the line, and a layout"),
                move |s| s.is_missing() && s.is_behind(&LINE[..end]),
            );
        }
        for at in 0..LINE.len() {
            self.add(
                format!("byte {at} of the line changed, and a layout"),
                move |s| {
                    let Some(front) = s.case.input.get(..LINE.len()) else {
                        return false;
                    };
                    let others = (0..LINE.len()).filter(|place| front[*place] != LINE[*place]);
                    s.is_missing() && s.is_behind(front) && others.eq([at])
                },
            );
        }
        let fronts: [(&str, &[u8]); 9] = [
            ("a line in capital letters", b"PACKED\n"),
            ("a line with a capital letter", b"Packed\n"),
            ("a line that ends in a carriage return", b"packed\r\n"),
            ("a carriage return alone", b"packed\r"),
            ("a blank behind the word", b"packed \n"),
            ("a blank before the word", b" packed\n"),
            ("a newline before the line", b"\npacked\n"),
            ("a byte order mark", b"\xef\xbb\xbfpacked\n"),
            ("a NUL in the place of the newline", b"packed\0"),
        ];
        for (name, front) in fronts {
            self.add(name, move |s| s.is_missing() && s.is_behind(front));
        }
        self.add("a layout's text", |s| {
            s.is_missing() && form::sheet(s.case.input).is_some()
        });
        self.add("a text that breaks its form", |s| {
            let digit = s.case.input.first().is_some_and(u8::is_ascii_digit);
            s.is_missing() && digit && form::sheet(s.case.input).is_none()
        });
        self.add("no line, more than a pipe holds", |s| {
            s.is_missing() && s.bytes() > 65_536
        });
    }

    pub fn count(&mut self, case: &Case) {
        let seen = Seen {
            case,
            paths: sheet(case).map(|sheet| paths(&sheet)).unwrap_or_default(),
            refused: case.answer.refused(),
        };
        for kind in &mut self.0 {
            kind.met += u64::from((kind.test)(&seen));
        }
    }

    /// Prints how many there are, and answers those that never occurred.
    pub fn report(&self) -> Vec<String> {
        if let Some(Kind { name, met, .. }) = self.0.iter().min_by_key(|kind| kind.met) {
            println!(
                "listed: {} kinds, the rarest ({name}) {met} times",
                self.0.len()
            );
        }
        let unmet = self.0.iter().filter(|kind| kind.met == 0);
        unmet.map(|kind| kind.name.clone()).collect()
    }
}

/// The layout of an input, if it has one.
fn sheet(case: &Case) -> Option<form::Sheet> {
    packed::sheet(case.input.strip_prefix(LINE)?).ok()
}
