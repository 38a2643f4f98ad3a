//! What a drawing costs: import beside the C library's `strtol` and `strtod` on the same lines, export beside its `snprintf`; and
//! the stack that each takes.

use std::ffi::{c_char, c_int, c_long};
use std::hint::black_box;
use std::ptr;

use super::draw::{self, Spelling, Vertex};
use super::model::Mode;
use super::{model, LARGE, OURS};
use crate::bench::{head, Row};
use crate::rng::Rng;
use crate::stack;
use crate::vertex::VERTEX;

const VERTICES: usize = model::MOST_VERTICES;
const MOST_BYTES: usize = 13 + 52 * VERTICES;
/// So many vertices a round.
const A_ROUND: u64 = 1 << 15;

unsafe extern "C" {
    fn strtol(text: *const c_char, end: *mut *mut c_char, base: c_int) -> c_long;
    fn strtod(text: *const c_char, end: *mut *mut c_char) -> f64;
    fn snprintf(out: *mut c_char, room: usize, form: *const c_char, ...) -> c_int;
    fn memchr(from: *const u8, byte: c_int, many: usize) -> *const u8;
}

pub fn run() {
    let mut rng = Rng::new(0xbe7c);
    head("drawings, ns a vertex, beside the C library's own");
    let any = draw::vertices(VERTICES, Mode::Half, &mut rng);
    let short: Vec<Vertex> = (0..VERTICES as i64)
        .map(|at| Vertex {
            numbers: [at % 64 * 1_000_000, at / 64 * 500_000, 0],
            bulge: false,
        })
        .collect();
    let long: Vec<Vertex> = (0..VERTICES as i64)
        .map(|at| Vertex {
            numbers: [
                -1_048_575_999_999 + at,
                -1_048_574_123_457 - at,
                -987_653 + at,
            ],
            bulge: true,
        })
        .collect();
    for (name, vertices) in [
        ("drawn numbers", &any),
        ("short numbers", &short),
        ("long numbers", &long),
    ] {
        let plain = draw::body(vertices, true, Spelling::Plain, &mut rng).text();
        let loose = draw::body(vertices, true, Spelling::Loose, &mut rng).text();
        import(&format!("import, {name}, as exported"), &plain);
        import(
            &format!("import, {name}, with blanks and other groups"),
            &loose,
        );
        export(&format!("export, {name}"), &plain);
    }
    of_stack(&any, &mut rng);
}

/// Bytes of stack that each call takes in each mode, on a body of 4,096 vertices.
fn of_stack(vertices: &[Vertex], rng: &mut Rng) {
    let text = draw::body(vertices, true, Spelling::Plain, rng).text();
    let mut path = vec![0.0; VERTEX * VERTICES];
    let mut told = [0; 2];
    let mut out = vec![0; MOST_BYTES];
    for (mode, ours) in [("", OURS), (" with large arcs", LARGE)] {
        let import = stack::of(|| assert_eq!((ours.import)(&text, &mut path, &mut told), 0));
        let export = stack::of(|| assert_eq!((ours.export)((&path, true), &mut out, &mut told), 0));
        println!("stack{mode}, bytes: import {import}, export {export}");
    }
}

fn row(name: &str) -> Row<'_> {
    Row::new(name).of(VERTICES as u64)
}

fn import(name: &str, text: &[u8]) {
    let mut path = vec![0.0; VERTEX * VERTICES];
    let mut other = path.clone();
    let mut told = [0; 2];
    // the C functions stop at a NUL
    let ended = [text, b"\0"].concat();
    row(name).timed(
        A_ROUND,
        || assert_eq!((OURS.import)(black_box(text), &mut path, &mut told), 0),
        || assert_eq!(read_in_c(black_box(&ended), &mut other), VERTICES),
    );
    assert_eq!(path, other, "{name}: other numbers");
}

/// Line by line, as one would in C: `strtol` for a code, `strtod` for a number, and nothing is checked.
fn read_in_c(text: &[u8], path: &mut [f64]) -> usize {
    let mut vertices = 0;
    let mut at = 0;
    // the NUL is behind the last line
    let end = text.len() - 1;
    let next = |at: usize| unsafe {
        let from = text.as_ptr().add(at);
        let newline = memchr(from, c_int::from(b'\n'), end - at);
        match newline.is_null() {
            true => end,
            false => at + newline.offset_from(from) as usize + 1,
        }
    };
    while at < end {
        let code = unsafe { strtol(text.as_ptr().add(at).cast(), ptr::null_mut(), 10) };
        at = next(at);
        let number = || unsafe { strtod(text.as_ptr().add(at).cast(), ptr::null_mut()) };
        match code {
            10 => {
                path[VERTEX * vertices..][..VERTEX].copy_from_slice(&[number(), 0.0, 0.0, 0.0]);
                vertices += 1;
            }
            20 => path[VERTEX * vertices - 3] = number(),
            42 => path[VERTEX * vertices - 2] = number(),
            _ => {}
        }
        at = next(at);
    }
    vertices
}

fn export(name: &str, text: &[u8]) {
    let body = model::import(text, Mode::Half).expect("a body");
    let path = body.path();
    let mut out = vec![0; MOST_BYTES + 1];
    let mut other = out.clone();
    let mut told = [0];
    row(name).timed(
        A_ROUND,
        || {
            assert_eq!(
                (OURS.export)((black_box(&path), true), &mut out, &mut told),
                0
            )
        },
        || assert_eq!(write_in_c(black_box(&path), &mut other), text.len()),
    );
    assert_eq!(out[..text.len()], *text, "{name}: another text");
    assert_eq!(
        out[..text.len()],
        other[..text.len()],
        "{name}: another text in C"
    );
}

/// One `snprintf` for the head, and one for each vertex.
fn write_in_c(path: &[f64], out: &mut [u8]) -> usize {
    let mut at = 0;
    let vertices = (path.len() / VERTEX) as c_long;
    let room = out.len();
    let to = out.as_mut_ptr().cast::<c_char>();
    unsafe {
        at += snprintf(
            to,
            room,
            c"90\n%ld\n70\n%d\n".as_ptr(),
            vertices,
            1 as c_int,
        ) as usize;
        for vertex in path.chunks(VERTEX) {
            let form = c"10\n%.6f\n20\n%.6f\n42\n%.6f\n".as_ptr();
            at += snprintf(to.add(at), room - at, form, vertex[0], vertex[1], vertex[2]) as usize;
        }
    }
    at
}
