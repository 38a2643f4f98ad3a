//! A run: chosen files and texts, then drawn layouts both ways and damaged ones, each asked with the slices that are drawn for it.

use super::ask::{Asked, Call, CALLS, MORE, TOLD};
use super::damage::{padded, Parts, DAMAGES};
use super::draw::{any, edges, longest, longest_text, small};
use super::examples;
use super::kinds::{Answer, Case, Kinds, Seen, VAST};
use super::lent::{Behind, Input, Lent};
use super::model::{self, number, Fault, Role, LONGEST, LONGEST_TEXT, MOST_BYTES, MOST_NUMBERS};
use super::Ours;
use crate::form::damage::{self as of_text, lengthened, replaced, FORM};
use crate::form::{self, Place, Sheet, MOST_VERTICES};
use crate::rng::Rng;
use crate::vertex::VERTEX;

const SHOWN: u64 = 5;
/// What a call returns.
const DONE: u64 = 0;
const TEXT: u64 = 10;
const PACKED: u64 = 18;
const NO_ROOM: u64 = 512;
/// At least so many layouts are drawn, and one for so many of the count. Some kinds are rare.
const LEAST: u64 = 1 << 14;
const A_LAYOUT: u64 = 10;
/// The bytes that a number ends or goes on with, in files of three.
const THIRD: [u8; 8] = [0, 1, 2, 63, 127, 128, 129, 255];

/// What a call should return and leave: in its slices, and in the places that it tells its answer in.
struct Expected<'a, T> {
    word: u64,
    written: [&'a [T]; 2],
    told: Option<[u64; TOLD]>,
}

impl<'a, T> Expected<'a, T> {
    fn done(written: [&'a [T]; 2], told: [usize; TOLD]) -> Expected<'a, T> {
        Expected {
            word: DONE,
            written,
            told: Some(told.map(|n| n as u64)),
        }
    }

    fn nothing(word: u64) -> Expected<'a, T> {
        Expected {
            word,
            written: [&[], &[]],
            told: None,
        }
    }

    fn refused(fault: &Fault) -> Expected<'a, T> {
        Expected {
            told: Some([fault.offset as u64, 0]),
            ..Expected::nothing(PACKED)
        }
    }

    fn told(&self) -> &[u64] {
        self.told.as_ref().map_or(&[], |told| told)
    }
}

/// How often a call was answered in each way: done, refused, without room.
type Count = [u64; 3];

/// Damages of one sort: how many inputs, and how many of them were refused.
struct Group {
    name: String,
    inputs: u64,
    refused: u64,
}

pub struct Run {
    pub rng: Rng,
    ours: Ours,
    input: Input,
    bytes: Lent<u8>,
    floats: [Lent<f64>; 2],
    told: Lent<u64>,
    kinds: [Kinds; 3],
    counts: [Count; 3],
    layouts: u64,
    groups: Vec<Group>,
    /// Whether every slice is lent with exactly the room that is asked for.
    exactly: bool,
    differences: u64,
    enough: u64,
}

impl Run {
    pub fn new(ours: Ours, seed: u64, enough: u64) -> Run {
        Run {
            rng: Rng::new(seed),
            ours,
            input: Input::new(),
            bytes: Lent::new(LONGEST_TEXT + MORE),
            floats: [(); 2].map(|_| Lent::new(MOST_NUMBERS + MORE)),
            told: Lent::new(TOLD + 1),
            kinds: CALLS.map(Kinds::new),
            counts: [[0; 3]; 3],
            layouts: 0,
            groups: Vec::new(),
            exactly: false,
            differences: 0,
            enough,
        }
    }

    pub fn all(&mut self, count: u64) {
        let drawn = (count / A_LAYOUT).max(LEAST);
        self.examples();
        self.chosen(drawn);
        self.drawn(drawn);
        self.damaged(drawn);
        self.damaged_texts(drawn / 4);
    }

    /// Files and texts that are not drawn, but for the third bytes of the shortest files.
    pub fn chosen(&mut self, drawn: u64) {
        self.each_number();
        self.each_count();
        self.each_byte();
        // some of these come up once, and must be answered
        self.exactly = true;
        self.each_length();
        self.runs();
        self.texts();
        self.exactly = false;
        self.shortest(drawn);
    }

    pub fn goes_on(&self) -> bool {
        self.differences < self.enough
    }

    /// Texts and files worked out by hand.
    fn examples(&mut self) {
        for what in examples::wrong(self.ours) {
            self.differ(&what);
        }
        for (text, bytes) in examples::LAYOUTS {
            self.text(text.as_bytes());
            self.file(bytes);
        }
        for (bytes, _) in examples::FAULTS {
            self.file(bytes);
        }
        for text in examples::BROKEN {
            self.text(text.as_bytes());
        }
    }

    /// All files of up to two bytes; of three bytes, each two first ones with some third ones.
    fn shortest(&mut self, drawn: u64) {
        self.file(&[]);
        for first in 0..=255 {
            self.file(&[first]);
            for second in 0..=255 {
                if !self.goes_on() {
                    return;
                }
                self.file(&[first, second]);
                let third = self.rng.pick(&THIRD);
                self.file(&[first, second, third]);
                for _ in 0..drawn >> 16 {
                    let third = self.rng.below(256) as u8;
                    self.file(&[first, second, third]);
                }
            }
        }
    }

    /// Each number of a small layout at each edge and one beyond each limit, as it is and padded; and as a text.
    fn each_number(&mut self) {
        let sheet = Sheet::new(vec![[1, -2, 3]; 2], vec![[-4, 5, -6]; 2]);
        let parts = Parts::of(&sheet);
        for at in 2..parts.count() {
            let role = parts.role(at);
            let limit = role.limit();
            let beyond = [limit + 1, -limit - 1];
            for n in edges(role).into_iter().chain(beyond) {
                let (path, place) = ((at - 2) / 6, (at - 2) % 6);
                let mut sheet = sheet.clone();
                sheet.paths[path][place / 3][place % 3] = n;
                self.text(&sheet.text());
                self.with_number(&parts, at, &number(role, n));
            }
        }
        for at in 0..2 {
            for n in [0, 1, 2, 127, 128, 255, 256, 257, 511, 512] {
                self.with_number(&parts, at, &number(Role::Count, n));
            }
        }
    }

    fn with_number(&mut self, parts: &Parts, at: usize, number: &[u8]) {
        self.file(&parts.with(at, number));
        for by in [1, 2, 3, 4, 5, 8, 9, 10, 20] {
            self.file(&parts.with(at, &padded(number, by)));
        }
    }

    /// Each count up to one too many, with some of the other.
    fn each_count(&mut self) {
        let place: Place = [70, -9000, 1];
        for n in 0..=MOST_VERTICES + 1 {
            for m in [0, 1, 127, 128, 255, 256, 257] {
                for [n, m] in [[n, m], [m, n]] {
                    let path = |n: i64| vec![place; n as usize];
                    self.layout_or_beyond(&Sheet::new(path(n), path(m)));
                }
                if !self.goes_on() {
                    return;
                }
            }
        }
    }

    /// A layout that may have a vertex too many: both ways all the same.
    fn layout_or_beyond(&mut self, sheet: &Sheet) {
        self.text(&sheet.text());
        self.file(&model::packed(sheet));
    }

    /// A small file with each byte changed to every other, removed, put in, and its top bit moved; cut at every place.
    fn each_byte(&mut self) {
        let sheet = Sheet::new(
            vec![[1_048_576, -64, 65_536], [0, 64, -1]],
            vec![[-1_048_576, 8192, -65_536]],
        );
        let bytes = model::packed(&sheet);
        for at in 0..bytes.len() {
            self.file(&bytes[..at]);
            self.file(&replaced(&bytes, at..at + 1, &[]));
            for byte in 0..=255 {
                self.file(&replaced(&bytes, at..at + 1, &[byte]));
                self.file(&replaced(&bytes, at..at, &[byte]));
            }
        }
        for byte in 0..=255 {
            self.file(&[&bytes[..], &[byte]].concat());
        }
        let text = sheet.text();
        for at in 0..text.len() {
            self.text(&text[..at]);
            self.text(&replaced(&text, at..at + 1, &[]));
            for byte in FORM.iter().chain(of_text::OTHERS) {
                self.text(&replaced(&text, at..at + 1, &[*byte]));
                self.text(&replaced(&text, at..at, &[*byte]));
            }
        }
    }

    /// The longest layouts, cut at every place, and followed by so many bytes that a file is about as long as it may be, or much
    /// longer.
    fn each_length(&mut self) {
        let mut a_byte_less = longest();
        a_byte_less.paths[1][0][0] -= 1;
        self.layout(&a_byte_less);
        let sheets = [longest(), longest_text()];
        for sheet in &sheets {
            let bytes = model::packed(sheet);
            for at in 0..=bytes.len() {
                self.file(&bytes[..at]);
                if !self.goes_on() {
                    return;
                }
            }
            self.layout(sheet);
        }
        for long in [
            LONGEST - 1,
            LONGEST,
            LONGEST + 1,
            MOST_BYTES - 1,
            MOST_BYTES,
            MOST_BYTES + 1,
            MOST_BYTES + 2,
            VAST,
        ] {
            for filler in [0, 1, b'\n', 127, 0x80, 0xff] {
                self.file(&vec![filler; long]);
                for sheet in &sheets {
                    let bytes = model::packed(sheet);
                    self.file(&lengthened(
                        &bytes[..bytes.len().min(long)],
                        long,
                        &[filler],
                    ));
                }
                self.file(&lengthened(&[0, 0], long, &[filler]));
                self.file(&lengthened(&[128, 2, 128, 2], long, &[filler]));
            }
        }
    }

    /// Runs of 0x80 and of 0xff of every length, ended and not, as each number of a small file.
    fn runs(&mut self) {
        let parts = Parts::of(&Sheet::new(vec![[1, 2, 3]], vec![[4, 5, 6]]));
        let lengths = (1..=40).chain([63, 64, 65, 127, 128, 129, 300, MOST_BYTES, MOST_BYTES + 1]);
        for long in lengths {
            for byte in [0x80, 0xff] {
                for at in 0..parts.count() {
                    let mut run = vec![byte; long];
                    self.file(&parts.with(at, &run));
                    for end in [0, 1, 127] {
                        run.truncate(long);
                        run.push(end);
                        self.file(&parts.with(at, &run));
                    }
                }
            }
        }
        for byte in [0x80, 0xff] {
            let mut run = vec![byte; VAST];
            self.file(&run);
            for end in [0, 1, 127] {
                run[VAST - 1] = end;
                self.file(&run);
            }
        }
    }

    /// Texts of the longest lengths, with a text of the right form at the front.
    fn texts(&mut self) {
        let sheets = [longest(), longest_text(), Sheet::default()];
        let front = model::packed(&sheets[1]).len();
        for sheet in &sheets {
            let text = sheet.text();
            for at in [0, 1, 2, text.len() - 1] {
                self.text(&text[..at]);
            }
            for long in [
                LONGEST_TEXT,
                LONGEST_TEXT + 1,
                form::MOST_BYTES - 1,
                form::MOST_BYTES,
                form::MOST_BYTES + 1,
                VAST,
            ] {
                for filler in [b"\n".as_slice(), b" ", b"0", b"9", b"-", b"0 0 0\n", b"\0"] {
                    let front = text.len().min(if long < text.len() { front } else { long });
                    self.text(&lengthened(&text[..front], long, filler));
                }
            }
        }
    }

    /// Layouts both ways.
    pub fn drawn(&mut self, count: u64) {
        for _ in 0..count {
            if !self.goes_on() {
                return;
            }
            let sheet = any(&mut self.rng);
            self.layout(&sheet);
        }
    }

    /// Packed files with a damage each.
    pub fn damaged(&mut self, count: u64) {
        let groups: Vec<usize> = DAMAGES
            .iter()
            .map(|damage| self.group(format!("a file, {}", damage.name)))
            .collect();
        for at in (0..DAMAGES.len()).cycle().take(count as usize) {
            if !self.goes_on() {
                return;
            }
            let sheet = match self.rng.below(32) {
                0 => any(&mut self.rng),
                _ => small(&mut self.rng),
            };
            let bytes = (DAMAGES[at].make)(&Parts::of(&sheet), &mut self.rng);
            let refused = self.file(&bytes);
            self.count_in(groups[at], refused);
        }
    }

    /// Texts with a damage each.
    pub fn damaged_texts(&mut self, count: u64) {
        let damages = &of_text::DAMAGES;
        let groups: Vec<usize> = damages
            .iter()
            .map(|damage| self.group(format!("a text, {}", damage.name)))
            .collect();
        for at in (0..damages.len()).cycle().take(count as usize) {
            if !self.goes_on() {
                return;
            }
            let text = small(&mut self.rng).text();
            let text = (damages[at].make)(&text, &mut self.rng);
            let refused = self.text(&text);
            self.count_in(groups[at], refused);
        }
    }

    fn group(&mut self, name: String) -> usize {
        self.groups.push(Group {
            name,
            inputs: 0,
            refused: 0,
        });
        self.groups.len() - 1
    }

    fn count_in(&mut self, group: usize, refused: bool) {
        self.groups[group].inputs += 1;
        self.groups[group].refused += u64::from(refused);
    }

    /// Asks for a text, and answers whether the model refuses it.
    fn text(&mut self, text: &[u8]) -> bool {
        if !self.goes_on() {
            return false;
        }
        let sheet = form::sheet(text);
        self.pack(text, sheet.as_ref());
        sheet.is_none()
    }

    /// Asks for a file, and answers whether the model refuses it.
    fn file(&mut self, bytes: &[u8]) -> bool {
        if !self.goes_on() {
            return false;
        }
        let sheet = model::sheet(bytes);
        self.unpack(bytes, sheet.as_ref());
        self.read(bytes, sheet.as_ref());
        sheet.is_err()
    }

    /// A layout both ways.
    fn layout(&mut self, sheet: &Sheet) {
        self.layouts += 1;
        self.pack(&sheet.text(), Some(sheet));
        let bytes = model::packed(sheet);
        self.unpack(&bytes, Ok(sheet));
        self.read(&bytes, Ok(sheet));
    }

    fn asked(&mut self, call: Call) -> Asked {
        if self.exactly {
            Asked::exact(call, &mut self.rng)
        } else {
            Asked::draw(call, &mut self.rng)
        }
    }

    /// A text, and its layout if it has the form.
    fn pack(&mut self, text: &[u8], sheet: Option<&Sheet>) {
        let asked = self.asked(Call::Pack);
        let packed = sheet.map(model::packed);
        let expected = match &packed {
            _ if !asked.fits(Call::Pack) => Expected::nothing(NO_ROOM),
            Some(packed) => Expected::done([packed, &[]], [packed.len(), 0]),
            None => Expected::nothing(TEXT),
        };
        self.to_bytes(Call::Pack, text, asked, &expected);
        let answer = sheet.map_or(Answer::Broken, |sheet| Answer::Layout(Seen::of(sheet)));
        self.count(Call::Pack, text, asked, answer);
    }

    /// A file, and its layout or its fault.
    fn unpack(&mut self, bytes: &[u8], sheet: Result<&Sheet, &Fault>) {
        let asked = self.asked(Call::Unpack);
        let text = sheet.map(Sheet::text);
        let expected = match &text {
            _ if !asked.fits(Call::Unpack) => Expected::nothing(NO_ROOM),
            Ok(text) => Expected::done([text, &[]], [text.len(), 0]),
            Err(fault) => Expected::refused(fault),
        };
        self.to_bytes(Call::Unpack, bytes, asked, &expected);
        self.count(Call::Unpack, bytes, asked, answer(sheet));
    }

    fn read(&mut self, bytes: &[u8], sheet: Result<&Sheet, &Fault>) {
        let asked = self.asked(Call::Read);
        let paths = sheet.map(|sheet| sheet.paths.each_ref().map(|path| model::floats(path)));
        let expected = match &paths {
            _ if !asked.fits(Call::Read) => Expected::nothing(NO_ROOM),
            Ok([first, second]) => {
                let vertices = [first, second].map(|path| path.len() / VERTEX);
                Expected::done([first, second], vertices)
            }
            Err(fault) => Expected::refused(fault),
        };
        self.to_floats(bytes, asked, &expected);
        self.count(Call::Read, bytes, asked, answer(sheet));
    }

    fn to_bytes(&mut self, call: Call, bytes: &[u8], asked: Asked, expected: &Expected<u8>) {
        let behind = Behind::draw(&mut self.rng);
        self.input.hold(bytes, behind);
        let ours = match call {
            Call::Pack => self.ours.pack,
            _ => self.ours.unpack,
        };
        let out = self.bytes.lend(asked.room[0], asked.old);
        let told = self.told.lend(asked.told, asked.old);
        let word = ours(self.input.bytes(), out, told);
        let wrong = wrong_word(word, expected.word)
            .or_else(|| named("out", self.bytes.wrong(expected.written[0])))
            .or_else(|| named("told", self.told.wrong(expected.told())))
            .or_else(|| touched(self.input.is(bytes, behind)));
        self.note(call, bytes, asked, expected.word, wrong);
    }

    fn to_floats(&mut self, bytes: &[u8], asked: Asked, expected: &Expected<f64>) {
        let behind = Behind::draw(&mut self.rng);
        self.input.hold(bytes, behind);
        let [first, second] = &mut self.floats;
        let word = (self.ours.read)(
            self.input.bytes(),
            first.lend(asked.room[0], asked.old),
            second.lend(asked.room[1], asked.old),
            self.told.lend(asked.told, asked.old),
        );
        let [first, second] = &self.floats;
        let wrong = wrong_word(word, expected.word)
            .or_else(|| named("first", first.wrong(expected.written[0])))
            .or_else(|| named("second", second.wrong(expected.written[1])))
            .or_else(|| named("told", self.told.wrong(expected.told())))
            .or_else(|| touched(self.input.is(bytes, behind)));
        self.note(Call::Read, bytes, asked, expected.word, wrong);
    }

    fn note(&mut self, call: Call, bytes: &[u8], asked: Asked, word: u64, wrong: Option<String>) {
        let way = match word {
            DONE => 0,
            NO_ROOM => 2,
            _ => 1,
        };
        self.counts[call as usize][way] += 1;
        if let Some(what) = wrong {
            let (name, long, front) = (call.name(), bytes.len(), front(bytes));
            self.differ(&format!(
                "{name}: {what}\n  {long} bytes {front}, {asked:?}"
            ));
        }
    }

    fn differ(&mut self, what: &str) {
        self.differences += 1;
        if self.differences <= SHOWN {
            println!("packed, {what}");
        }
    }

    fn count(&mut self, call: Call, input: &[u8], asked: Asked, answer: Answer) {
        let first = match &answer {
            Answer::Fault(fault) => input.get(fault.offset).copied(),
            _ => None,
        };
        self.kinds[call as usize].count(&Case {
            call,
            bytes: input.len(),
            first,
            asked,
            answer,
        });
    }

    /// Prints the counts, and answers how many differences there were; a kind that never occurred counts as one.
    pub fn report(&self) -> u64 {
        for (call, [done, refused, no_room]) in CALLS.iter().zip(self.counts) {
            let name = call.name();
            let of = match call {
                Call::Pack => "texts",
                _ => "files",
            };
            let all = done + refused + no_room;
            println!(
                "packed, {name}: {all} {of}, {done} moved, {refused} refused, {no_room} without room"
            );
        }
        println!(
            "packed: {} drawn layouts both ways, {} differences",
            self.layouts, self.differences
        );
        let mut unmet = Vec::new();
        for (call, kinds) in CALLS.iter().zip(&self.kinds) {
            let name = format!("packed, {}", call.name());
            let never = kinds.report(&name);
            unmet.extend(never.iter().map(|what| format!("{name}: {what}")));
        }
        if let Some(rarest) = self.groups.iter().min_by_key(|group| group.refused) {
            let Group {
                name,
                inputs,
                refused,
            } = rarest;
            println!(
                "packed: {} sorts of damage, the least refused ({name}) {refused} of {inputs} times",
                self.groups.len()
            );
        }
        let never = self.groups.iter().filter(|group| group.refused == 0);
        unmet.extend(never.map(|group| format!("refused: {}", group.name)));
        for what in &unmet {
            println!("packed: NEVER MET: {what}");
        }
        self.differences + unmet.len() as u64
    }
}

fn answer(sheet: Result<&Sheet, &Fault>) -> Answer {
    match sheet {
        Ok(sheet) => Answer::Layout(Seen::of(sheet)),
        Err(fault) => Answer::Fault(*fault),
    }
}

fn wrong_word(word: u64, expected: u64) -> Option<String> {
    (word != expected).then(|| format!("returned {word}, expected {expected}"))
}

fn named(name: &str, wrong: Option<String>) -> Option<String> {
    wrong.map(|wrong| format!("{name}{wrong}"))
}

fn touched(unchanged: bool) -> Option<String> {
    (!unchanged).then(|| "the input was written to".to_string())
}

/// The first bytes, to be read by a person.
pub fn front(bytes: &[u8]) -> String {
    const MOST: usize = 40;
    let dots = if bytes.len() > MOST { ".." } else { "" };
    format!("{:02x?}{dots}", &bytes[..bytes.len().min(MOST)])
}
