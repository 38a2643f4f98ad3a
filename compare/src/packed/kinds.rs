//! Kinds of input that a run must have met. They are read from the input and the model's answer, not from how it was drawn.

use super::ask::{Asked, Call, TOLD};
use super::draw::{edges, EDGES, OF_A_PLACE};
use super::model::{Fault, Role, What, Wrong, LONGEST, LONGEST_TEXT, MOST_BYTES};
use crate::form::{self, Sheet};
use crate::met::Met;

/// The longest input.
pub const VAST: usize = 1_000_000;

/// A call as it was made. A plain copy of what is needed, so that a kind's test borrows nothing.
pub struct Case {
    pub call: Call,
    /// How many bytes the input has, and the byte where its fault starts, unless that is the end.
    pub bytes: usize,
    pub first: Option<u8>,
    pub asked: Asked,
    pub answer: Answer,
}

pub enum Answer {
    /// A layout, with which numbers it has.
    Layout(Seen),
    /// A text that breaks its form.
    Broken,
    Fault(Fault),
}

/// What is seen of a layout: its vertices, and which edges of which numbers it has.
#[derive(Clone, Copy)]
pub struct Seen {
    vertices: [usize; 2],
    edges: u128,
}

impl Seen {
    pub fn of(sheet: &Sheet) -> Seen {
        let mut seen = 0;
        for (path, places) in sheet.paths.iter().enumerate() {
            for place in places {
                for (item, n) in place.iter().enumerate() {
                    let edge = edge_of(OF_A_PLACE[item], *n);
                    seen |= edge.map_or(0, |edge| bit(path, item, edge));
                }
            }
        }
        Seen {
            vertices: sheet.paths.each_ref().map(Vec::len),
            edges: seen,
        }
    }
}

fn edge_of(role: Role, n: i64) -> Option<usize> {
    edges(role).iter().position(|edge| *edge == n)
}

fn bit(path: usize, item: usize, edge: usize) -> u128 {
    1 << ((path * OF_A_PLACE.len() + item) * EDGES + edge)
}

impl Case {
    fn fits(&self) -> bool {
        self.asked.fits(self.call)
    }

    fn layout(&self) -> Option<&Seen> {
        match &self.answer {
            Answer::Layout(seen) if self.fits() => Some(seen),
            _ => None,
        }
    }

    fn fault(&self) -> Option<&Fault> {
        match &self.answer {
            Answer::Fault(fault) if self.fits() => Some(fault),
            _ => None,
        }
    }

    fn is_refused(&self) -> bool {
        self.fits() && !matches!(self.answer, Answer::Layout(_))
    }
}

/// Kinds by the slices, of layouts and of faults: a case is looked at only for those that it can be.
pub struct Kinds {
    rooms: Met<Case>,
    layouts: Met<Case>,
    faults: Met<Case>,
}

impl Kinds {
    pub fn new(call: Call) -> Kinds {
        let mut kinds = Kinds {
            rooms: Met::new(),
            layouts: Met::new(),
            faults: Met::new(),
        };
        of_rooms(call, &mut kinds.rooms);
        of_layouts(&mut kinds.layouts);
        if call == Call::Pack {
            of_texts(&mut kinds.faults);
        } else {
            of_packed(&mut kinds.layouts);
            of_lengths(&mut kinds.faults);
            of_numbers(&mut kinds.faults);
            of_runs(&mut kinds.faults);
            of_rests(&mut kinds.faults);
        }
        kinds
    }

    pub fn count(&mut self, case: &Case) {
        self.rooms.count(case);
        match case.answer {
            Answer::Layout(_) => self.layouts.count(case),
            _ => self.faults.count(case),
        }
    }

    /// Prints how many there are, and answers those that never occurred.
    pub fn report(&self, name: &str) -> Vec<String> {
        let parts = [
            (&self.rooms, "slices"),
            (&self.layouts, "layout"),
            (&self.faults, "fault"),
        ];
        let never = parts.map(|(met, of)| met.report(name, of));
        never.concat()
    }
}

fn of_rooms(call: Call, kinds: &mut Met<Case>) {
    let needed = call.room();
    for slice in 0..call.slices() {
        for (name, least, most) in [
            ("none", 0, 0),
            ("less than needed", 1, needed - 2),
            ("a place less than needed", needed - 1, needed - 1),
            ("what is needed", needed, needed),
            ("a place more", needed + 1, needed + 1),
            ("more", needed + 2, usize::MAX),
        ] {
            kinds.add(
                format!("slice {slice}, room: {name}"),
                move |case: &Case| {
                    let others = case.asked.room.iter().enumerate().take(call.slices());
                    let mut others = others.filter(|(other, _)| *other != slice);
                    let enough = others.all(|(_, room)| *room >= needed);
                    case.asked.told >= TOLD
                        && enough
                        && (least..=most).contains(&case.asked.room[slice])
                },
            );
        }
    }
    for told in 0..=3 {
        kinds.add(format!("{told} places to tell"), move |case: &Case| {
            case.asked.told == told
                && case.asked.room[..call.slices()]
                    .iter()
                    .all(|n| *n >= needed)
        });
    }
    kinds.add("no room, of a layout", |case: &Case| {
        !case.fits() && matches!(case.answer, Answer::Layout(_))
    });
    kinds.add("no room, and a fault", |case: &Case| {
        !case.fits() && !matches!(case.answer, Answer::Layout(_))
    });
    kinds.add("refused, with more room", move |case: &Case| {
        case.is_refused() && case.asked.room[0] > needed
    });
}

fn of_layouts(kinds: &mut Met<Case>) {
    for path in 0..2 {
        for vertices in [0, 1, 2, 127, 128, 255, 256] {
            kinds.add(format!("path {path} of {vertices} vertices"), move |case| {
                case.layout()
                    .is_some_and(|seen| seen.vertices[path] == vertices)
            });
        }
        for (item, role) in OF_A_PLACE.into_iter().enumerate() {
            for (edge, n) in edges(role).into_iter().enumerate() {
                let bit = bit(path, item, edge);
                kinds.add(format!("path {path}, {role:?} {n}"), move |case| {
                    case.layout().is_some_and(|seen| seen.edges & bit > 0)
                });
            }
        }
    }
    kinds.add("no vertices", |case| {
        case.layout().is_some_and(|seen| seen.vertices == [0, 0])
    });
    kinds.add("256 vertices each", |case| {
        case.layout()
            .is_some_and(|seen| seen.vertices == [256, 256])
    });
    kinds.add("as long as can be", |case| {
        let longest = match case.call {
            Call::Pack => LONGEST_TEXT,
            _ => LONGEST,
        };
        case.layout().is_some() && case.bytes == longest
    });
}

fn of_texts(kinds: &mut Met<Case>) {
    for bytes in [
        0,
        1,
        2,
        LONGEST_TEXT,
        LONGEST_TEXT + 1,
        form::MOST_BYTES - 1,
        form::MOST_BYTES,
        form::MOST_BYTES + 1,
        VAST,
    ] {
        kinds.add(format!("refused, {bytes} bytes"), move |case| {
            case.is_refused() && case.bytes == bytes
        });
    }
}

fn of_packed(kinds: &mut Met<Case>) {
    for bytes in [2, 5, LONGEST - 1] {
        kinds.add(format!("a layout of {bytes} bytes"), move |case| {
            case.layout().is_some() && case.bytes == bytes
        });
    }
}

fn of_lengths(kinds: &mut Met<Case>) {
    for bytes in [
        0,
        1,
        2,
        3,
        LONGEST - 1,
        LONGEST,
        LONGEST + 1,
        MOST_BYTES - 1,
        MOST_BYTES,
        MOST_BYTES + 1,
        VAST,
    ] {
        kinds.add(format!("refused, {bytes} bytes"), move |case| {
            case.is_refused() && case.bytes == bytes
        });
    }
    for offset in [0, 1, 2, 3, LONGEST - 3, LONGEST] {
        kinds.add(format!("a fault at {offset}"), move |case| {
            case.fault().is_some_and(|fault| fault.offset == offset)
        });
    }
    kinds.add("a fault at the last byte", |case| {
        case.fault()
            .is_some_and(|fault| fault.offset + 1 == case.bytes)
    });
    kinds.add("a fault at the end", |case| {
        case.fault().is_some_and(|fault| fault.offset == case.bytes)
    });
}

/// Each fault of each number of a path.
fn of_numbers(kinds: &mut Met<Case>) {
    for path in 0..2 {
        for role in [Role::Count, Role::X, Role::Y, Role::Bulge] {
            let mut add = |name: &str, test: fn(Role, Wrong, &Number) -> bool| {
                kinds.add(format!("path {path}, {role:?}: {name}"), move |case| {
                    number(case).is_some_and(|number| {
                        number.path == path
                            && number.role == role
                            && test(role, number.wrong, &number)
                    })
                });
            };
            add("missing", |_, wrong, _| wrong == Wrong::Missing);
            add("cut after one byte", |_, wrong, number| {
                wrong == Wrong::Cut && number.bytes == 1
            });
            add("cut after more", |_, wrong, number| {
                wrong == Wrong::Cut && number.bytes > 1
            });
            add("padded to two bytes", |_, wrong, number| {
                wrong == Wrong::Padded && number.bytes == 2
            });
            add("padded to three", |_, wrong, number| {
                wrong == Wrong::Padded && number.bytes == 3
            });
            add("padded to more", |_, wrong, number| {
                wrong == Wrong::Padded && number.bytes > 3
            });
            add("padded, the limit", |role, wrong, number| {
                wrong == Wrong::Padded && number.n == Some(role.limit().into())
            });
            add("padded and beyond", |_, wrong, _| {
                wrong == Wrong::PaddedBeyond
            });
            add("one beyond", |role, wrong, number| {
                let next = i128::from(role.limit()) + 1;
                wrong == Wrong::Beyond && number.n == Some(next)
            });
            add("beyond, of the longest bytes", |role, wrong, number| {
                let longest = super::model::number(role, role.limit()).len();
                wrong == Wrong::Beyond && number.bytes == longest
            });
            add("beyond, a byte longer", |role, wrong, number| {
                let longest = super::model::number(role, role.limit()).len();
                wrong == Wrong::Beyond && number.bytes == longest + 1
            });
            add("beyond, in range by 32 bits", |role, wrong, number| {
                wrong == Wrong::Beyond && wraps(role, number, 32)
            });
            add("beyond, in range by 64 bits", |role, wrong, number| {
                wrong == Wrong::Beyond && wraps(role, number, 64)
            });
            if role != Role::Count {
                add("one below", |role, wrong, number| {
                    let next = -i128::from(role.limit()) - 1;
                    wrong == Wrong::Beyond && number.n == Some(next)
                });
                add("padded, the least", |role, wrong, number| {
                    wrong == Wrong::Padded && number.n == Some((-role.limit()).into())
                });
            }
        }
    }
}

/// What is known of a number at fault.
struct Number {
    role: Role,
    path: usize,
    wrong: Wrong,
    bytes: usize,
    n: Option<i128>,
}

fn number(case: &Case) -> Option<Number> {
    match case.fault()?.what {
        What::Number {
            role,
            path,
            wrong,
            bytes,
            n,
        } => Some(Number {
            role,
            path,
            wrong,
            bytes,
            n,
        }),
        What::Rest(_) => None,
    }
}

/// Whether so many of its last bits would be a number within the range. An odd one stands for a negative number.
fn wraps(role: Role, number: &Number, bits: u32) -> bool {
    let Some(n) = number.n else {
        return false;
    };
    let stored = match role {
        Role::Count => n,
        _ if n < 0 => -2 * n - 1,
        _ => 2 * n,
    };
    let most = match role {
        Role::Count => role.limit(),
        _ => 2 * role.limit(),
    };
    stored >> bits > 0 && stored & ((1 << bits) - 1) <= i128::from(most)
}

fn of_runs(kinds: &mut Met<Case>) {
    for byte in [0x80, 0xff] {
        for (name, least, most) in [
            ("5 to 9", 5, 9),
            ("10", 10, 10),
            ("11 to 19", 11, 19),
            ("20 and more", 20, MOST_BYTES - 1),
            ("8,192 and more", MOST_BYTES, usize::MAX),
            ("a million", VAST, VAST),
        ] {
            for (end, cut) in [("ended", false), ("cut", true)] {
                let name = format!("a number of {name} bytes from {byte:#x} on, {end}");
                kinds.add(name, move |case: &Case| {
                    number(case).is_some_and(|number| {
                        (number.wrong == Wrong::Cut) == cut
                            && (least..=most).contains(&number.bytes)
                            && case.first == Some(byte)
                    })
                });
            }
        }
    }
}

fn of_rests(kinds: &mut Met<Case>) {
    let rest = |case: &Case| match case.fault()?.what {
        What::Rest(bytes) => Some((case.fault()?.offset, bytes)),
        _ => None,
    };
    let mut add = |name: &str, test: fn(usize, usize, u8) -> bool| {
        kinds.add(format!("bytes left over: {name}"), move |case: &Case| {
            let first = case.first.unwrap_or_default();
            rest(case).is_some_and(|(offset, bytes)| test(offset, bytes, first))
        });
    };
    add("one", |_, bytes, _| bytes == 1);
    add("two", |_, bytes, _| bytes == 2);
    add("more than 100", |_, bytes, _| bytes > 100);
    add("up to 8,192 bytes", |offset, bytes, _| {
        offset + bytes == MOST_BYTES
    });
    add("one beyond 8,192 bytes", |offset, bytes, _| {
        offset + bytes == MOST_BYTES + 1
    });
    add("a million", |offset, bytes, _| offset + bytes == VAST);
    add("after no vertices", |offset, _, _| offset == 2);
    add("after the longest layout", |offset, _, _| offset == LONGEST);
    add("a 0", |_, bytes, first| bytes == 1 && first == 0);
    add("a newline", |_, bytes, first| bytes == 1 && first == b'\n');
    add("a byte that says that more follow", |_, bytes, first| {
        bytes == 1 && first >= 128
    });
}
