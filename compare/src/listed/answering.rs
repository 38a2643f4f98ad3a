//! Who answers an input: the program, or the library's call, which is lent a slice among other places.

use std::cell::RefCell;

use super::model::MOST_ROWS;
use crate::packed::lent::{Behind, Input, Lent, Old};
use crate::probe;
use crate::program::{Printed, Program, Way};
use crate::rng::Rng;

/// The room that the call asks for: a line of 128 bytes for the counts, and one for each row.
pub const ROOM: usize = (MOST_ROWS + 1) * 128;

pub enum Answering {
    Program(Program),
    Library(RefCell<Slices>),
}

type Call = Box<dyn Fn(&[u8], &mut [u8]) -> usize>;

pub struct Slices {
    call: Call,
    input: Input,
    out: Lent<u8>,
    rng: Rng,
}

impl Answering {
    pub fn library() -> Answering {
        Answering::of_call(Box::new(probe::vjp_list_layout))
    }

    pub fn of_call(call: Call) -> Answering {
        Answering::Library(RefCell::new(Slices {
            call,
            input: Input::new(),
            out: Lent::new(ROOM + 1),
            rng: Rng::new(1),
        }))
    }

    pub fn is_piped(&self) -> bool {
        matches!(self, Answering::Program(_))
    }

    /// What is printed for an input. The library tells what else it has written, if anything, as an error; it is asked with too
    /// little room now and then.
    pub fn to(&self, input: &[u8], way: Way) -> Result<Printed, String> {
        match self {
            Answering::Program(program) => program.run(input, way),
            Answering::Library(slices) => {
                let mut slices = slices.borrow_mut();
                if slices.rng.one_in(64) {
                    let short = [0, 1, 128, ROOM - 128, ROOM - 1];
                    let room = slices.rng.pick(&short);
                    let Printed { output, mut error } = slices.ask(input, room);
                    if !output.is_empty() {
                        error.extend(b"an answer without room");
                    }
                    if !error.is_empty() {
                        return Ok(Printed { output, error });
                    }
                }
                let more = slices.rng.below(2) as usize;
                Ok(slices.ask(input, ROOM + more))
            }
        }
    }
}

impl Slices {
    fn ask(&mut self, bytes: &[u8], room: usize) -> Printed {
        let behind = Behind::draw(&mut self.rng);
        self.input.hold(bytes, behind);
        let out = self.out.lend(room, Old::draw(&mut self.rng));
        let written = (self.call)(self.input.bytes(), out);
        let output = out.get(..written).unwrap_or_default().to_vec();
        let mut error = Vec::new();
        if written > room {
            error.extend(format!("{written} bytes in a room of {room}").bytes());
        } else if let Some(wrong) = self.out.wrong(&output) {
            error.extend(wrong.bytes());
        }
        if !self.input.is(bytes, behind) {
            error.extend(b"the input is changed");
        }
        Printed { output, error }
    }
}
