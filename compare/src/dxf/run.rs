//! A run: chosen bodies and paths, then drawn and damaged ones, each asked with the slices that are drawn for it.

use std::collections::BTreeMap;

use super::arcs;
use super::damage::{large, Damage, BAD_NUMBERS, BAD_WHOLES, DAMAGES, OF_ARCS};
use super::draw::{self, joined, most_bulge, Spelling, Vertex};
use super::draw::{MILLION, MOST_COORDINATE};
use super::examples;
use super::kinds::{self, Export, Import, Seen, Site};
use super::lent::{Asked, Path, Places};
use super::model::{self, Body, Fault, Item, Mode, ITEMS, MOST_VERTICES, NO_ROOM, SHORTEST};
use super::stored::Stored;
use super::Ours;
use crate::form::damage::replaced;
use crate::met::Met;
use crate::packed::lent::{Behind, Input, Lent};
use crate::rng::Rng;
use crate::vertex::VERTEX;

const SHOWN: u64 = 5;
const DONE: u64 = 0;
/// Rooms beyond what is needed.
const MORE: usize = 64;
/// At least so many bodies are drawn, and one for so many of the count.
const LEAST: u64 = 1 << 14;
const A_BODY: u64 = 16;
/// Damages that are none.
const HARMLESS: [&str; 2] = ["another group put in", "other flags"];
/// What a byte of a stored body is changed to.
const BYTES: &[u8] = b"0123459.- \n\r\t+eE\0x\xff/:";

/// Damages of one sort: how many inputs, and how many of them were refused.
struct Group {
    inputs: u64,
    refused: u64,
}

/// How often a call was answered in each way: done, refused, without room to tell.
type Count = [u64; 3];

pub struct Run {
    pub rng: Rng,
    ours: Ours,
    input: Input,
    numbers: Path,
    path: Places<f64>,
    text: Places<u8>,
    told: Lent<u64>,
    imports: Met<Import>,
    exports: Met<Export>,
    counts: [Count; 2],
    there_and_back: u64,
    /// How often each number was refused with each item, in an import and in an export.
    refusals: [BTreeMap<(u64, u64), u64>; 2],
    groups: Vec<Group>,
    /// Whether every slice is lent with exactly what is needed.
    exactly: bool,
    differences: u64,
    enough: u64,
}

impl Run {
    pub fn new(ours: Ours, seed: u64, enough: u64) -> Run {
        let group = |_| Group {
            inputs: 0,
            refused: 0,
        };
        Run {
            rng: Rng::new(seed),
            ours,
            input: Input::new(),
            numbers: Path::new(),
            path: Places::new(VERTEX * MOST_VERTICES + MORE),
            text: Places::new(ours.mode.most_bytes(MOST_VERTICES) + MORE),
            told: Lent::new(3),
            imports: kinds::imports(ours.mode),
            exports: kinds::exports(ours.mode),
            counts: [[0; 3]; 2],
            there_and_back: 0,
            refusals: Default::default(),
            groups: damages(ours.mode).map(group).collect(),
            exactly: false,
            differences: 0,
            enough,
        }
    }

    pub fn all(&mut self, stored: &[Stored], count: u64) {
        let drawn = (count / A_BODY).max(LEAST);
        self.examples();
        self.stored(stored);
        self.chosen();
        self.drawn(drawn);
        self.damaged(drawn);
        self.paths(drawn);
    }

    pub fn goes_on(&self) -> bool {
        self.differences < self.enough
    }

    fn examples(&mut self) {
        for what in examples::wrong(self.ours) {
            self.differ(&what);
        }
        for (text, _, _) in examples::bodies(self.ours.mode) {
            self.import(text.as_bytes());
        }
        for (text, _) in examples::refused(self.ours.mode) {
            self.import(text.as_bytes());
        }
        for (path, closed, _) in examples::paths(self.ours.mode) {
            self.export(path, *closed);
        }
        for (path, closed, _) in examples::not_exported(self.ours.mode) {
            self.export(path, *closed);
        }
    }

    /// The stored bodies beside what is stored of them; then with every byte changed, removed, doubled and preceded by another,
    /// and cut at every place.
    fn stored(&mut self, stored: &[Stored]) {
        for Stored {
            name,
            text,
            expected,
        } in stored
        {
            if super::stored::told(&model::import(text, Mode::Half)) != *expected {
                self.differ(&format!("{name}: the model does not answer what is stored"));
            }
            self.import(text);
            self.each_byte(text);
        }
    }

    fn each_byte(&mut self, text: &[u8]) {
        for at in 0..text.len() {
            if !self.goes_on() {
                return;
            }
            self.import(&text[..at]);
            self.import(&replaced(text, at..at + 1, b""));
            self.import(&replaced(text, at..at, &text[at..at + 1]));
            for byte in BYTES {
                self.import(&replaced(text, at..at + 1, &[*byte]));
            }
            let byte = self.rng.pick(BYTES);
            self.import(&replaced(text, at..at, &[byte]));
        }
    }

    /// Bodies and paths at each limit.
    pub fn chosen(&mut self) {
        self.each_line();
        self.each_number();
        self.each_count();
        self.each_vertex();
        self.chords();
        if self.ours.mode == Mode::Large {
            self.arcs();
        }
        self.exactly = true;
        self.vast();
        self.largest();
        self.exactly = false;
    }

    /// A body with another group in each place: each line as each bad one and left out; each of the five put in everywhere; cut
    /// behind each line, and in each.
    pub fn each_line(&mut self) {
        let text = b"8\n0\n90\n3\n8\n1\n70\n1\n8\n2\n10\n0\n8\n3\n20\n0\n8\n4\n42\n0.5\n8\n5\n10\n1\n20\n0\n10\n1\n20\n2\n8\n6\n";
        let text = text.strip_suffix(b"\n").expect("a newline");
        let lines: Vec<Vec<u8>> = text
            .split(|byte| *byte == b'\n')
            .map(<[u8]>::to_vec)
            .collect();
        for at in 0..lines.len() {
            let front = joined(&lines[..at]);
            self.import(&front);
            self.import(&[&front, &lines[at][..]].concat());
            self.import(&[&front[..], b"9\nx"].concat());
            self.import(&[&front[..], b"9\n"].concat());
            for line in BAD_WHOLES.iter().chain(BAD_NUMBERS) {
                let mut lines = lines.clone();
                lines[at] = line.to_vec();
                self.import(&joined(&lines));
            }
            let mut fewer = lines.clone();
            fewer.remove(at);
            self.import(&joined(&fewer));
            for code in ["90", "70", "10", "20", "42", "0", "100"] {
                for end in ["", "\n", "\n1", "\n1\n"] {
                    self.import(&[&front[..], code.as_bytes(), end.as_bytes()].concat());
                }
                let mut more = lines.clone();
                let pair = [code.into(), b"1".to_vec()];
                more.splice(at..at, pair);
                self.import(&joined(&more));
            }
        }
    }

    /// Each number of three vertices at each edge, of either sign: about its limit, about 2^53 millionths, and beyond.
    fn each_number(&mut self) {
        let vertices = [[1, 2, 0], [-4, 5, 500_000], [7, 8, 0]].map(|numbers| Vertex {
            numbers,
            bulge: true,
        });
        for at in 0..3 * vertices.len() {
            let (vertex, item) = (at / 3, at % 3);
            let limit = [MOST_COORDINATE, MOST_COORDINATE, most_bulge(self.ours.mode)][item];
            for m in [
                0,
                1,
                999_999,
                limit - 1,
                limit,
                limit + 1,
                limit + MILLION,
                MOST_COORDINATE,
                (1 << 53) - 1,
                1 << 53,
                (1 << 53) + 1,
                i64::MAX,
            ] {
                for m in [m, -m] {
                    let mut vertices = vertices;
                    vertices[vertex].numbers[item] = m;
                    for spelling in [Spelling::Plain, Spelling::Loose] {
                        let body = draw::body(&vertices, false, spelling, &mut self.rng);
                        self.import(&body.text());
                    }
                    let path: Vec<f64> = vertices
                        .iter()
                        .flat_map(|v| {
                            [v.numbers[0], v.numbers[1], v.numbers[2], 0].map(|m| m as f64 / 1e6)
                        })
                        .collect();
                    for beside in [0, 1, 2] {
                        let mut path = path.clone();
                        let place = VERTEX * vertex + item;
                        path[place] = match beside {
                            0 => path[place],
                            1 => path[place].next_up(),
                            _ => path[place].next_down(),
                        };
                        self.export(&path, false);
                    }
                }
            }
            for _ in 0..64 {
                let parts = draw::body(&vertices, true, Spelling::Plain, &mut self.rng);
                let mut parts = parts;
                parts.0[2 + at].value = large(&mut self.rng);
                self.import(&parts.text());
            }
        }
    }

    /// Each number of vertices up to 20 with each count up to 20, and counts that wrap round.
    fn each_count(&mut self) {
        for vertices in 0..20 {
            let all = draw::vertices(vertices, self.ours.mode, &mut self.rng);
            for count in (0..20).chain([vertices as u128 + (1 << 32), vertices as u128 + (1 << 64)])
            {
                let mut parts = draw::body(&all, false, Spelling::Plain, &mut self.rng);
                parts.0[0].value = count.to_string().into_bytes();
                self.import(&parts.text());
            }
        }
    }

    /// Each number of a path of three vertices of each sort.
    fn each_vertex(&mut self) {
        let path = [
            0.0, 0.0, 0.5, 1.0, 4.0, 0.0, -0.25, 0.0, 4.0, 4.0, 0.0, 255.0,
        ];
        let any = [
            0.0,
            1.0,
            1e-6,
            1e-6_f64.next_up(),
            1e-6_f64.next_down(),
            5e-7,
            4e-7,
            1e-9,
            0.1,
            0.1_f64.next_up(),
            0.1_f64.next_down(),
            0.2 + 0.1,
            1.0 / 3.0,
            1.0 / 64.0,
            3.0 / 64.0,
            1.0 / 128.0,
            1.0 / 65_536.0,
            0.414_213_562_373_095_03,
            0.414_214,
            1.0 + 1e-6,
            1.0_f64.next_up(),
            1.0_f64.next_down(),
            255.0,
            255.0_f64.next_up(),
            256.0,
            1_048_575.999_999,
            1_048_576.0,
            1_048_576.000_001,
            1_048_576.0_f64.next_up(),
            1_048_576.0_f64.next_down(),
            SHORTEST,
            5e-324,
            f64::MIN_POSITIVE,
            f64::MIN_POSITIVE.next_down(),
            f64::MAX,
            f64::INFINITY,
            f64::NAN,
            f64::from_bits(0x7ff0_0000_0000_0001),
        ];
        for at in 0..path.len() {
            for x in any.iter().flat_map(|x| [*x, -*x]) {
                for closed in [false, true] {
                    let mut path = path;
                    path[at] = x;
                    self.export(&path, closed);
                    // with another fault behind it and before it
                    let other = self.rng.below(12) as usize;
                    path[other] = self.rng.pick(&any);
                    self.export(&path, closed);
                }
            }
        }
        for numbers in 0..14 {
            self.export(&[vec![0.5; numbers], vec![]].concat(), true);
        }
    }

    /// Chords of 2^-40 and beside it, which are no numbers of six digits: 5 below, 23 from there on.
    fn chords(&mut self) {
        for chord in [
            0.0,
            SHORTEST.next_down(),
            SHORTEST,
            SHORTEST.next_up(),
            1e-6,
        ] {
            for bulge in [0.0, 1.0, -1.0, 1e-6, 1e-8, 1e-8_f64.next_down()] {
                for closed in [false, true] {
                    for [x, y] in [[chord, 0.0], [0.0, chord]] {
                        self.export(&[0.0, 0.0, bulge, 0.0, x, y, 0.0, 0.0], closed);
                        self.export(&[0.0, 0.0, 0.0, 0.0, x, y, bulge, 0.0], closed);
                    }
                    let m = (chord * 1e6).round() as i64;
                    let b = (bulge * 1e6).round() as i64;
                    for [x, y] in [[0, 0], [MOST_COORDINATE, -MOST_COORDINATE]] {
                        let vertices = [[x, y, b], [x - m, y, b]].map(|numbers| Vertex {
                            numbers,
                            bulge: true,
                        });
                        let body = draw::body(&vertices, closed, Spelling::Loose, &mut self.rng);
                        self.import(&body.text());
                    }
                }
            }
        }
    }

    /// Arcs at each limit of the mode of large arcs, at each place of a path: as a body, if the numbers have six digits, and as a
    /// path.
    fn arcs(&mut self) {
        for path in arcs::chosen(&mut self.rng) {
            for closed in [false, true] {
                self.export(&path, closed);
                if let Some(vertices) = arcs::spelt(&path) {
                    let body = draw::body(&vertices, closed, Spelling::Loose, &mut self.rng);
                    self.import(&body.text());
                    self.back(&body.text());
                }
            }
        }
    }

    /// Very many blanks, zeros or digits in one line of each sort, and very many other groups, with a fault behind them and
    /// without one.
    fn vast(&mut self) {
        const MANY: usize = 1 << 18;
        const GROUPS: usize = 1 << 19;
        let lines: Vec<&[u8]> = b"90\n1\n70\n1\n10\n5\n20\n6\n42\n1\n9\n9"
            .split(|byte| *byte == b'\n')
            .collect();
        for at in 0..lines.len() {
            for filler in [b' ', b'0', b'9'] {
                let mut lines: Vec<Vec<u8>> = lines.iter().map(|line| line.to_vec()).collect();
                lines[at].splice(0..0, vec![filler; MANY]);
                self.import(&joined(&lines));
                lines[at].pop();
                lines[at].push(b' ');
                self.import(&joined(&lines));
            }
        }
        let groups = b"8\n\n".repeat(GROUPS);
        for end in [
            "90\n1\n70\n0\n10\n5\n20\n6\n",
            "90\n2\n70\n0\n10\n5\n20\n6\n",
            "90\n1\n70\n0\n10\n5\n20\n-0\n",
            "90\n1\n70\n0\n10\n5\n",
            "90\n1\n70\n0\n20\n5\n",
            "90\n1\n70",
            "x\n1\n",
            "8\n1",
            "",
        ] {
            self.import(&[&groups, end.as_bytes()].concat());
        }
        self.import(&[b"90\n0\n70\n0\n", &groups[..]].concat());
        self.import(&[b"90\n1\n70\n0\n", &groups[..]].concat());
        self.import(&vec![b'\n'; MANY]);
        self.import(&vec![b' '; MANY]);
    }

    /// Bodies and paths of 4,096 vertices, of one less and of one more: right, with a fault at the end, and with another count.
    fn largest(&mut self) {
        // each number as long as can be
        let mode = self.ours.mode;
        let bulge = most_bulge(mode);
        // no arc is cut outside
        let far = match mode {
            Mode::Half => -MOST_COORDINATE,
            Mode::Large => -MOST_COORDINATE + 16 * MILLION,
        };
        let wide = |n: usize| {
            let vertex = |at: usize| Vertex {
                numbers: [far + (at as i64 % 2) * MILLION, far, -bulge],
                bulge: true,
            };
            (0..n).map(vertex).collect::<Vec<_>>()
        };
        for n in [
            MOST_VERTICES - 1,
            MOST_VERTICES,
            MOST_VERTICES + 1,
            MOST_VERTICES + 2,
        ] {
            for closed in [false, true] {
                let any = draw::vertices(n, mode, &mut self.rng);
                for (all, spelling) in [
                    (&any, Spelling::Loose),
                    (&any, Spelling::Plain),
                    (&wide(n), Spelling::Plain),
                ] {
                    let parts = draw::body(all, closed, spelling, &mut self.rng);
                    let text = parts.text();
                    self.import(&text);
                    self.import(&text[..text.len() - 1]);
                    self.import(&[&text[..], b"10\n"].concat());
                    self.import(&[&text[..], b"x\n1\n"].concat());
                    let count = parts.of("90")[0];
                    for other in [n - 1, n + 1, MOST_VERTICES] {
                        let mut parts = parts.clone();
                        parts.0[count].value = other.to_string().into_bytes();
                        self.import(&parts.text());
                    }
                    for (code, value) in [
                        ("10", "1048576.000001"),
                        ("42", &draw::plain(-bulge - 1)),
                        ("20", "-0"),
                    ] {
                        let mut parts = parts.clone();
                        if let Some(last) = parts.of(code).last() {
                            parts.0[*last].value = value.into();
                        }
                        self.import(&parts.text());
                    }
                    let mut path: Vec<f64> = Vec::new();
                    for v in all {
                        let [x, y, b] = v.numbers.map(|m| m as f64 / 1e6);
                        path.extend([x, y, b, 255.0]);
                    }
                    self.export(&path, closed);
                    for (at, x) in [
                        (4, -0.0),
                        (3, 1e-7),
                        (2, 1.0 / 128.0),
                        (1, 256.0),
                        (4, f64::NAN),
                    ] {
                        let mut path = path.clone();
                        let place = path.len() - at;
                        path[place] = x;
                        self.export(&path, closed);
                    }
                    self.export(&path[..path.len() - 1], closed);
                    if self.differences >= self.enough {
                        return;
                    }
                }
            }
        }
        // every room about what is needed, where the most is needed
        let text = draw::body(&wide(MOST_VERTICES), true, Spelling::Plain, &mut self.rng).text();
        let body = model::import(&text, mode).expect("within all limits");
        for room in [0, 1, 16_383, 16_384, 16_385] {
            let asked = Asked::of(room, 2, &mut self.rng);
            self.import_in(&text, &Ok(body.clone()), asked);
        }
        let most = mode.most_bytes(MOST_VERTICES);
        for room in [0, 1, most - 1, most, most + 1] {
            let asked = Asked::of(room, 1, &mut self.rng);
            self.export_in(&body.path(), true, &Ok(text.clone()), asked);
        }
    }

    /// Bodies of the form; of each that is accepted also its export, and the import of that.
    pub fn drawn(&mut self, count: u64) {
        for _ in 0..count {
            if !self.goes_on() {
                return;
            }
            let text = draw::good(self.ours.mode, &mut self.rng).text();
            self.import(&text);
            self.back(&text);
        }
    }

    /// Bodies with a damage each, and text lines of any sort.
    pub fn damaged(&mut self, count: u64) {
        let mode = self.ours.mode;
        let damages: Vec<&Damage> = damages(mode).collect();
        for at in (0..=damages.len()).cycle().take(count as usize) {
            if !self.goes_on() {
                return;
            }
            let Some(damage) = damages.get(at) else {
                let text = draw::soup(&mut self.rng);
                self.import(&text);
                continue;
            };
            let parts = match self.rng.below(16) {
                0 => draw::good(mode, &mut self.rng),
                _ => draw::small(mode, &mut self.rng),
            };
            let text = (damage.make)(&parts, mode, &mut self.rng);
            let refused = self.import(&text);
            self.groups[at].inputs += 1;
            self.groups[at].refused += u64::from(refused);
        }
    }

    /// Paths of all sorts.
    pub fn paths(&mut self, count: u64) {
        for _ in 0..count {
            if !self.goes_on() {
                return;
            }
            let closed = self.rng.one_in(2);
            let path = draw::any_path(self.ours.mode, &mut self.rng);
            self.export(&path, closed);
        }
    }

    /// Imports, exports what came, and imports that: the same path, all by our calls alone. Then the text of what was imported is
    /// the same, if it was an export.
    fn back(&mut self, text: &[u8]) {
        let Ok(body) = model::import(text, self.ours.mode) else {
            return;
        };
        let mut path = vec![0.0; VERTEX * body.vertices.len()];
        let mut again = path.clone();
        let mut out = vec![0; self.ours.mode.most_bytes(body.vertices.len())];
        let (mut told, mut bytes, mut told_again) = ([0; 2], [0; 1], [0; 2]);
        let words = [
            (self.ours.import)(text, &mut path, &mut told),
            (self.ours.export)((&path, told[1] == 1), &mut out, &mut bytes),
        ];
        let end = (bytes[0] as usize).min(out.len());
        let last = (self.ours.import)(&out[..end], &mut again, &mut told_again);
        let bits = |path: &[f64]| path.iter().map(|x| x.to_bits()).collect::<Vec<_>>();
        self.there_and_back += 1;
        if words != [0; 2] || last != 0 || bits(&path) != bits(&again) || told != told_again {
            self.differ(&format!(
                "there and back: {words:?}, {last}: {}",
                front(text)
            ));
        }
    }

    /// Asks for a text, and answers whether the model refuses it.
    fn import(&mut self, text: &[u8]) -> bool {
        if !self.goes_on() {
            return false;
        }
        let body = model::import(text, self.ours.mode);
        let needed = match &body {
            Ok(body) => VERTEX * body.vertices.len(),
            Err(_) => self.rng.below(20) as usize,
        };
        let asked = match self.exactly {
            true => Asked::of(needed, 2, &mut self.rng),
            false => Asked::draw(needed, 2, &mut self.rng),
        };
        self.import_in(text, &body, asked);
        body.is_err()
    }

    fn import_in(&mut self, text: &[u8], body: &Result<Body, Fault>, asked: Asked) {
        let path = body.as_ref().map(Body::path).unwrap_or_default();
        let fits = path.len() <= asked.room;
        let (word, written, told): (u64, &[f64], Vec<u64>) = match body {
            _ if asked.told < 2 => (NO_ROOM, &[], vec![]),
            Err(fault) => (fault.word(), &[], vec![]),
            Ok(_) if !fits => (Fault::new(24, Item::Room, 0).word(), &[], vec![]),
            Ok(body) => (
                DONE,
                &path,
                vec![body.vertices.len() as u64, u64::from(body.closed)],
            ),
        };
        let behind = match self.rng.below(4) {
            0 => Behind::Groups,
            _ => Behind::draw(&mut self.rng),
        };
        self.input.hold(text, behind);
        let ours = (self.ours.import)(
            self.input.bytes(),
            self.path.lend(asked.room, asked.old),
            self.told.lend(asked.told, asked.old),
        );
        let wrong = wrong_word(ours, word)
            .or_else(|| named("path", self.path.wrong(written)))
            .or_else(|| named("told", self.told.wrong(&told)))
            .or_else(|| touched(self.input.is(text, behind)));
        self.note(0, word, wrong, || format!("{} {asked:?}", front(text)));
        let answer = match body {
            Ok(body) => Ok(Seen::of(text, body, self.ours.mode)),
            Err(fault) => {
                let of_line = [20, 21].contains(&fault.number);
                Err((*fault, of_line.then(|| Site::of(text, fault.index))))
            }
        };
        let unchecked = match body {
            Err(fault) if arcs::is_of_a_segment(*fault) => model::unchecked(text),
            _ => None,
        };
        let arc = body.as_ref().err().and_then(|fault| {
            let unchecked = unchecked?;
            arcs::at_fault(&unchecked.path(), unchecked.closed, *fault)
        });
        self.imports.count(&Import { asked, answer, arc });
    }

    fn export(&mut self, path: &[f64], closed: bool) {
        if !self.goes_on() {
            return;
        }
        let text = model::export(path, closed, self.ours.mode);
        let needed = match &text {
            Ok(text) => text.len(),
            Err(_) => self.rng.below(200) as usize,
        };
        let asked = match self.exactly {
            true => Asked::of(needed, 1, &mut self.rng),
            false => Asked::draw(needed, 1, &mut self.rng),
        };
        self.export_in(path, closed, &text, asked);
    }

    fn export_in(
        &mut self,
        path: &[f64],
        closed: bool,
        text: &Result<Vec<u8>, Fault>,
        asked: Asked,
    ) {
        let (word, written, told): (u64, &[u8], Vec<u64>) = match text {
            _ if asked.told < 1 => (NO_ROOM, &[], vec![]),
            Err(fault) => (fault.word(), &[], vec![]),
            Ok(text) if text.len() > asked.room => {
                (Fault::new(24, Item::Room, 0).word(), &[], vec![])
            }
            Ok(text) => (DONE, text, vec![text.len() as u64]),
        };
        self.numbers.hold(path);
        let ours = (self.ours.export)(
            (self.numbers.numbers(), closed),
            self.text.lend(asked.room, asked.old),
            self.told.lend(asked.told, asked.old),
        );
        let wrong = wrong_word(ours, word)
            .or_else(|| named("text", self.text.wrong(written)))
            .or_else(|| named("told", self.told.wrong(&told)))
            .or_else(|| touched(self.numbers.is(path)));
        self.note(1, word, wrong, || {
            format!(
                "{:?} closed {closed} {asked:?}",
                &path[..path.len().min(16)]
            )
        });
        let answer = match text {
            Ok(text) => Ok(text.len()),
            Err(fault) => {
                let item = ITEMS.iter().position(|item| *item == fault.item);
                let number = item.and_then(|at| path.get(VERTEX * fault.index as usize + at));
                Err((*fault, number.copied()))
            }
        };
        let fault = text.as_ref().err();
        let arc = fault.and_then(|fault| arcs::at_fault(path, closed, *fault));
        self.exports.count(&Export {
            asked,
            numbers: path.len(),
            closed,
            answer,
            arc,
            large: arcs::large(path, closed),
        });
    }

    fn note(
        &mut self,
        call: usize,
        word: u64,
        wrong: Option<String>,
        what: impl FnOnce() -> String,
    ) {
        let way = match word {
            DONE => 0,
            NO_ROOM => 2,
            _ => 1,
        };
        self.counts[call][way] += 1;
        if way == 1 {
            let of = (word & 0xff, word >> 16 & 0xff);
            *self.refusals[call].entry(of).or_default() += 1;
        }
        if let Some(wrong) = wrong {
            let name = self.calls()[call];
            self.differ(&format!("{name}: {wrong}\n  {}", what()));
        }
    }

    fn differ(&mut self, what: &str) {
        self.differences += 1;
        if self.differences <= SHOWN {
            println!("dxf, {what}");
        }
    }

    fn calls(&self) -> [&'static str; 2] {
        match self.ours.mode {
            Mode::Half => ["import", "export"],
            Mode::Large => ["large import", "large export"],
        }
    }

    /// Prints the counts, and answers how many differences there were; a kind that never occurred counts as one.
    pub fn report(&self) -> u64 {
        let calls = self.calls();
        for (at, name) in calls.into_iter().enumerate() {
            let [done, refused, no_room] = self.counts[at];
            let all = done + refused + no_room;
            println!("dxf, {name}: {all} calls, {done} done, {refused} refused, {no_room} without room to tell");
            let each = self.refusals[at].iter();
            let each = each.map(|((number, item), met)| format!("{number} of item {item} {met}"));
            println!(
                "dxf, {name}: refused {}",
                each.collect::<Vec<_>>().join(", ")
            );
        }
        println!(
            "dxf: {} bodies there and back, {} differences",
            self.there_and_back, self.differences
        );
        let mut unmet = self.imports.report(&format!("dxf, {}", calls[0]), "call");
        unmet.extend(self.exports.report(&format!("dxf, {}", calls[1]), "call"));
        let groups = damages(self.ours.mode).zip(&self.groups);
        if let Some((damage, Group { inputs, refused })) =
            groups.clone().min_by_key(|(_, group)| group.refused)
        {
            let (name, sorts) = (damage.name, self.groups.len());
            println!("dxf: {sorts} sorts of damage, the least refused ({name}) {refused} of {inputs} times");
        }
        let never =
            groups.filter(|(damage, group)| group.refused == 0 && !HARMLESS.contains(&damage.name));
        unmet.extend(never.map(|(damage, _)| format!("refused: {}", damage.name)));
        for what in &unmet {
            println!("dxf: NEVER MET: {what}");
        }
        self.differences + unmet.len() as u64
    }
}

/// The damages of a mode.
fn damages(mode: Mode) -> impl Iterator<Item = &'static Damage> + Clone {
    let of_arcs: &[Damage] = match mode {
        Mode::Half => &[],
        Mode::Large => &OF_ARCS,
    };
    DAMAGES.iter().chain(of_arcs)
}

fn wrong_word(word: u64, expected: u64) -> Option<String> {
    (word != expected).then(|| format!("returned {word:#x}, expected {expected:#x}"))
}

fn named(name: &str, wrong: Option<String>) -> Option<String> {
    wrong.map(|wrong| format!("{name}{wrong}"))
}

fn touched(unchanged: bool) -> Option<String> {
    (!unchanged).then(|| "the input was written to".to_string())
}

/// The first bytes, to be read by a person.
fn front(text: &[u8]) -> String {
    const MOST: usize = 200;
    let dots = if text.len() > MOST { ".." } else { "" };
    format!(
        "{:?}{dots}",
        String::from_utf8_lossy(&text[..text.len().min(MOST)])
    )
}
