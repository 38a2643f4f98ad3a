//! Kinds of input that a run must have met. They are read from the input and the model's answer, not from how it was drawn.

use super::lent::Asked;
use super::model::{self, Body, Fault, Item, Mode, Segment, COORDINATE, MOST_VERTICES, SHORTEST};
use crate::met::Met;
use crate::vertex::VERTEX;

/// What is due where a fault stands: the count, the flags, a first vertex, a y, a bulge or the next vertex, the next vertex.
pub const DUE: [&str; 6] = [
    "90 due",
    "70 due",
    "behind 70",
    "behind 10",
    "behind 20",
    "behind 42",
];
const FIVE: [&str; 5] = ["90", "70", "10", "20", "42"];
/// Which of the five may stand there.
const MAY: [&[&str]; 6] = [&["90"], &["70"], &["10"], &["20"], &["42", "10"], &["10"]];

/// What is wrong with a text line.
#[derive(Clone, Copy, Debug, PartialEq)]
pub enum Wrong {
    /// Its newline is missing.
    Unended,
    /// There is no such text line.
    Missing,
    Empty,
    Blanks,
    Minus,
    MinusZero,
    ManyDigits,
    NoWhole,
    NoFraction,
    Return,
    Tab,
    Plus,
    Exponent,
    BlankBehind,
    Point,
    Other,
    OutOfPlace,
}

/// Of a whole number.
const OF_WHOLES: [Wrong; 10] = [
    Wrong::Unended,
    Wrong::Empty,
    Wrong::Blanks,
    Wrong::Minus,
    Wrong::Return,
    Wrong::Tab,
    Wrong::Plus,
    Wrong::BlankBehind,
    Wrong::Point,
    Wrong::Other,
];
const OF_NUMBERS: [Wrong; 14] = [
    Wrong::Unended,
    Wrong::Empty,
    Wrong::Blanks,
    Wrong::Minus,
    Wrong::MinusZero,
    Wrong::ManyDigits,
    Wrong::NoWhole,
    Wrong::NoFraction,
    Wrong::Return,
    Wrong::Tab,
    Wrong::Plus,
    Wrong::Exponent,
    Wrong::BlankBehind,
    Wrong::Other,
];

/// Where a fault of a text line stands: what is due, the code (of its pair, if the line is a value), and what is wrong.
#[derive(Clone, Debug, PartialEq)]
pub struct Site {
    pub due: usize,
    pub value: bool,
    pub code: String,
    pub wrong: Wrong,
}

impl Site {
    /// Reads the text lines before the fault's, which are right.
    pub fn of(text: &[u8], line: u64) -> Site {
        let lines: Vec<&[u8]> = text.split(|byte| *byte == b'\n').collect();
        let at = line as usize - 1;
        let code = |at: usize| lines[at].iter().map(|b| char::from(*b)).collect::<String>();
        let code = |at: usize| {
            let code = code(at);
            code.trim_start_matches(' ')
                .trim_start_matches('0')
                .to_string()
        };
        let mut due = 0;
        for pair in 0..at / 2 {
            due = match code(2 * pair).as_str() {
                "90" => 1,
                "70" => 2,
                "10" => 3,
                "20" => 4,
                "42" => 5,
                _ => due,
            };
        }
        let value = at % 2 == 1;
        let code = if value { code(at - 1) } else { code(at) };
        let unended = at + 1 == lines.len();
        let wrong = match lines[at] {
            b"" if unended => Wrong::Missing,
            _ if unended => Wrong::Unended,
            bytes => sort(bytes, value && ["10", "20", "42"].contains(&code.as_str())),
        };
        Site {
            due,
            value,
            code,
            wrong,
        }
    }
}

fn sort(line: &[u8], number: bool) -> Wrong {
    let bare: Vec<u8> = line
        .iter()
        .copied()
        .skip_while(|byte| *byte == b' ')
        .collect();
    let digits = bare.strip_prefix(b"-").unwrap_or(&bare);
    let has = |byte: u8| line.contains(&byte);
    let only = |bytes: &[u8], of: &[u8]| bytes.iter().all(|byte| of.contains(byte));
    let point = digits.iter().position(|byte| *byte == b'.');
    match () {
        _ if line.is_empty() => Wrong::Empty,
        _ if bare.is_empty() => Wrong::Blanks,
        _ if has(b'\r') => Wrong::Return,
        _ if has(b'\t') => Wrong::Tab,
        _ if has(b'+') => Wrong::Plus,
        _ if line.ends_with(b" ") => Wrong::BlankBehind,
        _ if number && (has(b'e') || has(b'E')) => Wrong::Exponent,
        _ if number && bare.starts_with(b"-") && !digits.is_empty() && only(digits, b"0.") => {
            Wrong::MinusZero
        }
        _ if number && point == Some(0) && digits.len() > 1 => Wrong::NoWhole,
        _ if number && only(digits, b"0123456789.") && digits.ends_with(b".") => Wrong::NoFraction,
        _ if number
            && only(digits, b"0123456789.")
            && point.is_some_and(|at| digits.len() - at > 7) =>
        {
            Wrong::ManyDigits
        }
        _ if number && bare == b"-" || !number && bare.starts_with(b"-") => Wrong::Minus,
        _ if !number && only(&bare, b"0123456789.") && point.is_some() => Wrong::Point,
        _ if !number && only(&bare, b"0123456789") => Wrong::OutOfPlace,
        _ => Wrong::Other,
    }
}

pub struct Import {
    pub asked: Asked,
    pub answer: Result<Seen, (Fault, Option<Site>)>,
    /// The segment at fault.
    pub arc: Option<Segment>,
}

/// What is seen of a body that is accepted but for its room.
pub struct Seen {
    pub vertices: usize,
    pub closed: bool,
    /// Which numbers are at a limit: x, y and bulge, the greatest and the least.
    limits: [bool; 6],
    /// How many arcs are cut; which cut points are at a limit: x and y, the greatest and the least.
    large: usize,
    cuts: [bool; 4],
    /// The bulge that starts no segment.
    unused: Option<f64>,
    lines: [bool; SPELT.len()],
}

/// How accepted text lines may be spelt.
const SPELT: [&str; 16] = [
    "blanks before a code",
    "a zero before a code",
    "a code of more than 20 digits",
    "blanks before a count",
    "a zero before a count",
    "flags above 1",
    "flags of more than 20 digits",
    "an absent bulge behind one that is not 0",
    "another group before 90",
    "another group behind 90",
    "another group behind 70",
    "another group behind 10",
    "another group behind 20",
    "another group behind 42",
    "an empty value of another group",
    "a value of another group with a byte above 127",
];

impl Seen {
    pub fn of(text: &[u8], body: &Body, mode: Mode) -> Seen {
        let mut lines = [false; SPELT.len()];
        let mut due = 0;
        let mut bulge = false;
        let all: Vec<&[u8]> = text.split(|byte| *byte == b'\n').collect();
        for pair in all.chunks_exact(2) {
            let (line, value) = (pair[0], pair[1]);
            let bare: Vec<u8> = line.iter().copied().skip_while(|b| *b == b' ').collect();
            let code = String::from_utf8_lossy(&bare);
            let code = code.trim_start_matches('0');
            let blank = |line: &[u8]| line.starts_with(b" ");
            lines[0] |= blank(line);
            lines[1] |= bare.starts_with(b"0") && bare.len() > 1;
            lines[2] |= code.len() > 20;
            match code {
                "90" => {
                    lines[3] |= blank(value);
                    lines[4] |= value.starts_with(b"0") && value.len() > 1;
                    due = 1;
                }
                "70" => {
                    let flags: Vec<u8> = value
                        .iter()
                        .copied()
                        .skip_while(|b| b" 0".contains(b))
                        .collect();
                    lines[5] |= flags != b"1" && !flags.is_empty();
                    lines[6] |= flags.len() > 20;
                    due = 2;
                }
                "10" => {
                    lines[7] |= due == 4 && bulge;
                    due = 3;
                }
                "20" => due = 4,
                "42" => {
                    bulge = value.iter().any(|b| (b'1'..=b'9').contains(b));
                    due = 5;
                }
                _ => {
                    lines[8 + due] = true;
                    lines[14] |= value.is_empty();
                    lines[15] |= value.iter().any(|b| *b > 127);
                }
            }
        }
        let mut limits = [false; 6];
        for vertex in &body.vertices {
            let most = [COORDINATE, COORDINATE, mode.bulge()];
            for (at, limit) in most.into_iter().enumerate() {
                limits[2 * at] |= vertex[at] == limit;
                limits[2 * at + 1] |= vertex[at] == -limit;
            }
        }
        let mut cuts = [false; 4];
        let mut large = 0;
        let segments = model::segments(&body.path(), body.closed);
        for point in segments.into_iter().filter_map(model::cut_point) {
            large += 1;
            for at in 0..2 {
                cuts[2 * at] |= point[at] == COORDINATE;
                cuts[2 * at + 1] |= point[at] == -COORDINATE;
            }
        }
        let last = body.vertices.last().filter(|_| !body.closed);
        Seen {
            vertices: body.vertices.len(),
            closed: body.closed,
            limits,
            large,
            cuts,
            unused: last.map(|vertex| vertex[2]),
            lines,
        }
    }
}

const TOLD_IMPORT: usize = 2;
const TOLD_EXPORT: usize = 1;

impl Import {
    fn fits(&self) -> bool {
        self.asked.told >= TOLD_IMPORT
    }

    fn seen(&self) -> Option<&Seen> {
        self.answer.as_ref().ok().filter(|_| self.fits())
    }

    fn written(&self) -> Option<&Seen> {
        self.seen()
            .filter(|seen| self.asked.room >= VERTEX * seen.vertices)
    }

    fn fault(&self) -> Option<Fault> {
        let fault = self.answer.as_ref().err().map(|(fault, _)| *fault);
        fault.filter(|_| self.fits())
    }

    fn site(&self) -> Option<&Site> {
        let found = self.answer.as_ref().err().filter(|_| self.fits());
        found.and_then(|(_, site)| site.as_ref())
    }
}

/// What may be wrong with an arc that is cut: the fault and the segment.
type OfArcs = (&'static str, fn(Fault, Segment) -> bool);

/// In imports and in exports.
const OF_ARCS: [OfArcs; 10] = [
    ("2 of a cut point's x, below", |fault, arc| {
        fault.item == Item::CutX && model::cut_point(arc).is_some_and(|at| at[0] < 0.0)
    }),
    ("2 of a cut point's x, above", |fault, arc| {
        fault.item == Item::CutX && model::cut_point(arc).is_some_and(|at| at[0] > 0.0)
    }),
    ("2 of a cut point's y, below", |fault, arc| {
        fault.item == Item::CutY && model::cut_point(arc).is_some_and(|at| at[1] < 0.0)
    }),
    ("2 of a cut point's y, above", |fault, arc| {
        fault.item == Item::CutY && model::cut_point(arc).is_some_and(|at| at[1] > 0.0)
    }),
    ("2 of a cut point's x and y", |fault, arc| {
        let beyond = |x: &f64| x.abs() > COORDINATE;
        fault.item == Item::CutX && model::cut_point(arc).is_some_and(|at| at.iter().all(beyond))
    }),
    ("2 of the first segment's cut point", |fault, _| {
        fault.number == 2 && fault.index == 0
    }),
    ("2 of another segment's cut point", |fault, _| {
        fault.number == 2 && fault.index > 0
    }),
    ("5 of an arc that is not cut", |fault, arc| {
        fault.number == 5 && model::cut_point(arc).is_none()
    }),
    ("5 of both halves, at the first segment", |fault, arc| {
        fault.number == 5 && fault.index == 0 && is_short(arc, [true; 2])
    }),
    ("5 of both halves, at another segment", |fault, arc| {
        fault.number == 5 && fault.index > 0 && is_short(arc, [true; 2])
    }),
];

/// In exports alone: a chord of some millionths is long enough.
const OF_HALVES: [OfArcs; 2] = [
    ("5 of the first half alone", |fault, arc| {
        fault.number == 5 && is_short(arc, [true, false])
    }),
    ("5 of the second half alone", |fault, arc| {
        fault.number == 5 && is_short(arc, [false, true])
    }),
];

/// Whether an arc is cut, and which halves are too short.
fn is_short(arc: Segment, halves: [bool; 2]) -> bool {
    model::cut_point(arc).is_some() && model::short(arc) == halves
}

/// What a run must have met of imports with large arcs.
fn large_imports(met: &mut Met<Import>) {
    for (name, test) in OF_ARCS {
        met.add(name, move |case| {
            let found = case.fault().zip(case.arc);
            found.is_some_and(|(fault, arc)| test(fault, arc))
        });
    }
    for (name, large) in [("one large arc", 1), ("two large arcs", 2)] {
        met.add(name, move |case| {
            case.written().is_some_and(|seen| seen.large == large)
        });
    }
    for at in 0..4 {
        met.add(format!("a cut point at limit {at}"), move |case| {
            case.written().is_some_and(|seen| seen.cuts[at])
        });
    }
    met.add("a large bulge that starts no segment", |case| {
        let is = |b: f64| b.abs() > 1.0;
        case.written()
            .is_some_and(|seen| seen.unused.is_some_and(is))
    });
}

/// What a run must have met of exports with large arcs.
fn large_exports(met: &mut Met<Export>) {
    for (name, test) in OF_ARCS.into_iter().chain(OF_HALVES) {
        met.add(name, move |case| {
            let found = case.fault().zip(case.arc);
            found.is_some_and(|((fault, _), arc)| test(fault, arc))
        });
    }
    for (name, large) in [("one large arc", 1), ("two large arcs", 2)] {
        met.add(name, move |case| {
            case.large == large && case.bytes().is_some_and(|bytes| bytes <= case.asked.room)
        });
    }
    met.add("23 of a large bulge", |case| {
        let is = |x: f64| x.abs() > 1.0;
        let found = case.fault();
        found.is_some_and(|(fault, x)| {
            (fault.number, fault.item) == (23, Item::Bulge) && x.is_some_and(is)
        })
    });
}

pub fn imports(mode: Mode) -> Met<Import> {
    let mut met: Met<Import> = Met::new();
    for (name, told) in [("none", 0), ("one", 1), ("three", 3)] {
        met.add(format!("{name} to tell in"), move |case| {
            case.asked.told == told
        });
    }
    for vertices in [0, 1, 2, 3, MOST_VERTICES] {
        for closed in [false, true] {
            met.add(
                format!("{vertices} vertices, closed {closed}"),
                move |case| {
                    case.written()
                        .is_some_and(|seen| seen.vertices == vertices && seen.closed == closed)
                },
            );
        }
    }
    for (name, more) in [("exactly", 0), ("one more", 1)] {
        met.add(format!("room for {name}"), move |case| {
            case.seen()
                .is_some_and(|seen| case.asked.room == VERTEX * seen.vertices + more)
        });
    }
    for (name, less) in [("a place less", 1), ("a vertex less", 4)] {
        met.add(format!("24, {name}"), move |case| {
            case.seen().is_some_and(|seen| {
                seen.vertices > 0 && case.asked.room + less == VERTEX * seen.vertices
            })
        });
    }
    met.add("24, no room", |case| {
        case.seen()
            .is_some_and(|seen| seen.vertices > 0 && case.asked.room == 0)
    });
    for (at, name) in SPELT.into_iter().enumerate() {
        met.add(name, move |case| {
            case.written().is_some_and(|seen| seen.lines[at])
        });
    }
    for at in 0..6 {
        met.add(format!("limit {at}"), move |case| {
            case.written().is_some_and(|seen| seen.limits[at])
        });
    }
    let at_site = |met: &mut Met<Import>, number: u64, site: Site| {
        let name = format!("{number}: {}, {site:?}", DUE[site.due]);
        met.add(name, move |case| {
            let is = |at: &Site| {
                let code = site.code.is_empty()
                    || at.code == site.code
                    || site.code == "other" && !FIVE.contains(&at.code.as_str());
                at.due == site.due && at.value == site.value && at.wrong == site.wrong && code
            };
            case.fault().is_some_and(|fault| fault.number == number) && case.site().is_some_and(is)
        });
    };
    for due in 0..6 {
        let site = |value: bool, code: &str, wrong: Wrong| Site {
            due,
            value,
            code: code.to_string(),
            wrong,
        };
        for wrong in OF_WHOLES {
            at_site(&mut met, 20, site(false, "", wrong));
        }
        for code in FIVE {
            if !MAY[due].contains(&code) {
                at_site(&mut met, 21, site(false, code, Wrong::OutOfPlace));
                continue;
            }
            at_site(&mut met, 21, site(true, code, Wrong::Missing));
            let wrongs: &[Wrong] = if due < 2 { &OF_WHOLES } else { &OF_NUMBERS };
            for wrong in wrongs {
                at_site(&mut met, 20, site(true, code, *wrong));
            }
        }
        if [0, 1, 3].contains(&due) {
            at_site(&mut met, 21, site(false, "", Wrong::Missing));
        }
        at_site(&mut met, 21, site(true, "other", Wrong::Missing));
        at_site(&mut met, 21, site(true, "other", Wrong::Unended));
    }
    for (number, item) in [(22, Item::Line), (7, Item::Length), (5, Item::Chord)] {
        met.add(format!("{number}"), move |case| {
            case.fault()
                .is_some_and(|fault| (fault.number, fault.item) == (number, item))
        });
    }
    for (number, item) in [(2, Item::X), (2, Item::Y), (3, Item::Bulge)] {
        for first in [true, false] {
            met.add(
                format!("{number} of {item:?}, at the first vertex {first}"),
                move |case| {
                    let is = |fault: Fault| {
                        fault.number == number && fault.item == item && (fault.index == 0) == first
                    };
                    case.fault().is_some_and(is)
                },
            );
        }
    }
    if mode == Mode::Large {
        large_imports(&mut met);
    }
    met
}

pub struct Export {
    pub asked: Asked,
    pub numbers: usize,
    pub closed: bool,
    /// How many bytes the text has.
    pub answer: Result<usize, (Fault, Option<f64>)>,
    /// The segment at fault.
    pub arc: Option<Segment>,
    /// How many arcs are cut.
    pub large: usize,
}

impl Export {
    /// The fault, and the number that it is about.
    fn fault(&self) -> Option<(Fault, Option<f64>)> {
        let fault = self.answer.as_ref().err().copied();
        fault.filter(|_| self.asked.told >= TOLD_EXPORT)
    }

    fn bytes(&self) -> Option<usize> {
        let bytes = self.answer.as_ref().ok().copied();
        bytes.filter(|_| self.asked.told >= TOLD_EXPORT)
    }
}

/// A sort of number that is read back from no text.
type Sort = (&'static str, fn(f64) -> bool);

const NOT_SPELT: [Sort; 6] = [
    ("-0", |x| x.to_bits() == (-0.0_f64).to_bits()),
    ("subnormal", |x| x != 0.0 && !x.is_normal()),
    ("below half a millionth", |x| {
        x.is_normal() && x.abs() < 5e-7
    }),
    ("above a number of six digits", |x| {
        x != 0.0 && is_millionths(x.next_down())
    }),
    ("below a number of six digits", |x| {
        x != 0.0 && is_millionths(x.next_up())
    }),
    ("n/65,536", |x| {
        x.abs() <= 1.0 && x != 0.0 && (x * 65_536.0).fract() == 0.0
    }),
];

fn is_millionths(x: f64) -> bool {
    x != 0.0 && (x * 1e6).round() / 1e6 == x
}

pub fn exports(mode: Mode) -> Met<Export> {
    let mut met: Met<Export> = Met::new();
    met.add("nothing to tell in", |case| case.asked.told == 0);
    met.add("two to tell in", |case| case.asked.told == 2);
    for vertices in [0, 1, 2, MOST_VERTICES] {
        for closed in [false, true] {
            met.add(
                format!("{vertices} vertices, closed {closed}"),
                move |case| {
                    case.bytes().is_some_and(|bytes| bytes <= case.asked.room)
                        && (case.numbers, case.closed) == (VERTEX * vertices, closed)
                },
            );
        }
    }
    met.add("room exactly", |case| case.bytes() == Some(case.asked.room));
    met.add("room for one more", |case| {
        case.bytes()
            .is_some_and(|bytes| bytes + 1 == case.asked.room)
    });
    met.add("24, a byte less", |case| {
        case.bytes() == Some(case.asked.room + 1)
    });
    met.add("24, no room", |case| {
        case.bytes().is_some() && case.asked.room == 0
    });
    for over in 1..4 {
        met.add(format!("6, {over} over"), move |case| {
            case.numbers % VERTEX == over
                && case.fault().is_some_and(|(fault, _)| fault.number == 6)
        });
    }
    let is = |case: &Export, number: u64, item: Item| {
        let found = case.fault();
        found.filter(|(fault, _)| (fault.number, fault.item) == (number, item))
    };
    met.add("7", move |case| is(case, 7, Item::Length).is_some());
    met.add("5", move |case| is(case, 5, Item::Chord).is_some());
    for item in [Item::X, Item::Y, Item::Bulge, Item::Trace] {
        let beyond = match item {
            Item::Bulge => 3,
            Item::Trace => 15,
            _ => 2,
        };
        for number in [11, 12, beyond] {
            met.add(format!("{number} of {item:?}"), move |case| {
                is(case, number, item).is_some()
            });
        }
        if item == Item::Trace {
            continue;
        }
        for first in [true, false] {
            met.add(
                format!("23 of {item:?}, at the first vertex {first}"),
                move |case| {
                    is(case, 23, item).is_some_and(|(fault, _)| (fault.index == 0) == first)
                },
            );
        }
        for (name, test) in NOT_SPELT {
            met.add(format!("23 of {item:?}: {name}"), move |case| {
                is(case, 23, item).is_some_and(|(_, x)| x.is_some_and(test))
            });
        }
        met.add(format!("23 of {item:?}: 2^-40"), move |case| {
            item == Item::Bulge || is(case, 23, item).is_some_and(|(_, x)| x == Some(SHORTEST))
        });
    }
    if mode == Mode::Large {
        large_exports(&mut met);
    }
    met
}
