//! The library's calls over slices: the only file with unsafe code beside its declarations.
//!
//! Each function lends slices for the time of one call and gives back the call's word. A call
//! reads and writes nothing but what is lent, keeps nothing, and always returns. No slice has a
//! null pointer, an empty one neither.

mod raw;

use crate::path::{Path, Vertex};

pub(crate) use raw::{
    vj_abs, vj_abs_bits, vj_max, vj_max_bits, vj_min, vj_min_bits, vj_sqrt, vj_sqrt_bits,
};

/// What is listed: two paths, or one with itself.
#[derive(Debug, Clone, Copy)]
pub(crate) enum Of<'a> {
    Two(&'a Path<'a>, &'a Path<'a>),
    One(&'a Path<'a>),
}

/// A listing without its memory: what is listed, by which mode and epsilon.
#[derive(Debug, Clone, Copy)]
pub(crate) struct Asked<'a> {
    pub(crate) of: Of<'a>,
    pub(crate) large: bool,
    pub(crate) epsilon: f64,
}

/// What a listing writes its rows into.
pub(crate) struct Lent<'a> {
    pub(crate) indices: &'a mut [u64],
    pub(crate) points: &'a mut [f64],
}

const _: () = assert!(size_of::<Vertex>() == 4 * size_of::<f64>());

/// The numbers of vertices, as the calls take them.
pub(crate) fn numbers(vertices: &[Vertex]) -> &[f64] {
    // SAFETY: a `Vertex` is four f64 in a row (`repr(C)`), so the vertices are four times as many
    // f64, and they stay borrowed as long as the slice.
    unsafe { std::slice::from_raw_parts(vertices.as_ptr().cast(), 4 * vertices.len()) }
}

pub(crate) fn line_line(n: [f64; 8], epsilon: f64, out: &mut [f64; 4]) -> u64 {
    let [a, b, c, d, e, f, g, h] = n;
    // SAFETY: start and length are those of `out`, which is borrowed for this call alone.
    unsafe { raw::vj_line_line_intr(a, b, c, d, e, f, g, h, epsilon, out.as_mut_ptr(), out.len()) }
}

pub(crate) fn line_circle(n: [f64; 7], epsilon: f64, out: &mut [f64; 4]) -> u64 {
    let [a, b, c, d, radius, x, y] = n;
    // SAFETY: start and length are those of `out`, which is borrowed for this call alone.
    unsafe {
        raw::vj_line_circle_intr(a, b, c, d, radius, x, y, epsilon, out.as_mut_ptr(), out.len())
    }
}

pub(crate) fn circle_circle(n: [f64; 6], epsilon: f64, out: &mut [f64; 4]) -> u64 {
    let [a, b, c, d, e, f] = n;
    // SAFETY: start and length are those of `out`, which is borrowed for this call alone.
    unsafe { raw::vj_circle_circle_intr(a, b, c, d, e, f, epsilon, out.as_mut_ptr(), out.len()) }
}

pub(crate) fn pair(n: [f64; 12], epsilon: f64, out: &mut [f64; 4]) -> u64 {
    let [a, b, c, d, e, f, g, h, i, j, k, l] = n;
    let (start, room) = (out.as_mut_ptr(), out.len());
    // SAFETY: start and length are those of `out`, which is borrowed for this call alone.
    unsafe { raw::vj_pair(a, b, c, d, e, f, g, h, i, j, k, l, epsilon, start, room) }
}

pub(crate) fn pair_findings(
    n: [f64; 12],
    epsilon: f64,
    out: &mut [f64; 4],
    findings: &mut [u64; 4],
) -> u64 {
    let [a, b, c, d, e, f, g, h, i, j, k, l] = n;
    let (start, room) = (out.as_mut_ptr(), out.len());
    let (found, found_room) = (findings.as_mut_ptr(), findings.len());
    // SAFETY: starts and lengths are those of two arrays, each borrowed for this call alone.
    unsafe {
        raw::vj_pair_findings(
            a, b, c, d, e, f, g, h, i, j, k, l, epsilon, start, room, found, found_room,
        )
    }
}

pub(crate) fn pair_large(
    n: [f64; 12],
    epsilon: f64,
    results: &mut [u64; 12],
    out: &mut [f64; 16],
) -> u64 {
    let [a, b, c, d, e, f, g, h, i, j, k, l] = n;
    let (words, words_room) = (results.as_mut_ptr(), results.len());
    let (start, room) = (out.as_mut_ptr(), out.len());
    // SAFETY: starts and lengths are those of two arrays, each borrowed for this call alone.
    unsafe {
        raw::vj_pair_large(
            a, b, c, d, e, f, g, h, i, j, k, l, epsilon, words, words_room, start, room,
        )
    }
}

/// A full listing; `counts` has the rows and the pairs looked at.
pub(crate) fn listing(asked: Asked, lent: Lent, counts: &mut [u64; 2]) -> u64 {
    let Lent { indices: i, points: p } = lent;
    let (c, n, eps) = (counts.as_mut_ptr(), counts.len(), asked.epsilon);
    match asked.of {
        Of::Two(one, two) => {
            let (a, b) = (one.numbers(), two.numbers());
            let call = if asked.large { raw::vj_mutual_large } else { raw::vj_mutual };
            // SAFETY: each start and length are those of a slice; those that are written are
            // borrowed for this call alone.
            unsafe {
                call(
                    a.as_ptr(),
                    a.len(),
                    one.is_closed(),
                    b.as_ptr(),
                    b.len(),
                    two.is_closed(),
                    eps,
                    i.as_mut_ptr(),
                    i.len(),
                    p.as_mut_ptr(),
                    p.len(),
                    c,
                    n,
                )
            }
        }
        Of::One(path) => {
            let a = path.numbers();
            let call = if asked.large { raw::vj_self_large } else { raw::vj_self };
            // SAFETY: as above.
            unsafe {
                call(
                    a.as_ptr(),
                    a.len(),
                    path.is_closed(),
                    eps,
                    i.as_mut_ptr(),
                    i.len(),
                    p.as_mut_ptr(),
                    p.len(),
                    c,
                    n,
                )
            }
        }
    }
}

/// A page; `counts` has the rows, the pairs passed, the next position and the number of all pairs.
pub(crate) fn page(
    asked: Asked,
    position: u64,
    budget: u64,
    lent: Lent,
    counts: &mut [u64; 4],
) -> u64 {
    let Lent { indices: i, points: p } = lent;
    let (c, n, eps) = (counts.as_mut_ptr(), counts.len(), asked.epsilon);
    match asked.of {
        Of::Two(one, two) => {
            let (a, b) = (one.numbers(), two.numbers());
            let call = if asked.large { raw::vj_mutual_page_large } else { raw::vj_mutual_page };
            // SAFETY: each start and length are those of a slice; those that are written are
            // borrowed for this call alone.
            unsafe {
                call(
                    a.as_ptr(),
                    a.len(),
                    one.is_closed(),
                    b.as_ptr(),
                    b.len(),
                    two.is_closed(),
                    eps,
                    position,
                    budget,
                    i.as_mut_ptr(),
                    i.len(),
                    p.as_mut_ptr(),
                    p.len(),
                    c,
                    n,
                )
            }
        }
        Of::One(path) => {
            let a = path.numbers();
            let call = if asked.large { raw::vj_self_page_large } else { raw::vj_self_page };
            // SAFETY: as above.
            unsafe {
                call(
                    a.as_ptr(),
                    a.len(),
                    path.is_closed(),
                    eps,
                    position,
                    budget,
                    i.as_mut_ptr(),
                    i.len(),
                    p.as_mut_ptr(),
                    p.len(),
                    c,
                    n,
                )
            }
        }
    }
}

/// A boxed listing, which also writes the index of boxes.
pub(crate) fn boxed(asked: Asked, boxes: &mut [f64], lent: Lent, counts: &mut [u64; 2]) -> u64 {
    let Lent { indices: i, points: p } = lent;
    let (c, n, eps) = (counts.as_mut_ptr(), counts.len(), asked.epsilon);
    match asked.of {
        Of::Two(one, two) => {
            let (a, b) = (one.numbers(), two.numbers());
            let call = if asked.large { raw::vj_mutual_boxed_large } else { raw::vj_mutual_boxed };
            // SAFETY: each start and length are those of a slice; those that are written are
            // borrowed for this call alone.
            unsafe {
                call(
                    a.as_ptr(),
                    a.len(),
                    one.is_closed(),
                    b.as_ptr(),
                    b.len(),
                    two.is_closed(),
                    eps,
                    boxes.as_mut_ptr(),
                    boxes.len(),
                    i.as_mut_ptr(),
                    i.len(),
                    p.as_mut_ptr(),
                    p.len(),
                    c,
                    n,
                )
            }
        }
        Of::One(path) => {
            let a = path.numbers();
            let call = if asked.large { raw::vj_self_boxed_large } else { raw::vj_self_boxed };
            // SAFETY: as above.
            unsafe {
                call(
                    a.as_ptr(),
                    a.len(),
                    path.is_closed(),
                    eps,
                    boxes.as_mut_ptr(),
                    boxes.len(),
                    i.as_mut_ptr(),
                    i.len(),
                    p.as_mut_ptr(),
                    p.len(),
                    c,
                    n,
                )
            }
        }
    }
}

/// A counted listing of two paths, which also adds to the report.
pub(crate) fn counted(
    paths: (&Path, &Path),
    large: bool,
    epsilon: f64,
    lent: Lent,
    counts: &mut [u64; 2],
    report: &mut [u64; 40],
) -> u64 {
    let Lent { indices: i, points: p } = lent;
    let (a, b) = (paths.0.numbers(), paths.1.numbers());
    let call = if large { raw::vj_mutual_counted_large } else { raw::vj_mutual_counted };
    // SAFETY: each start and length are those of a slice or an array; those that are written are
    // borrowed for this call alone.
    unsafe {
        call(
            a.as_ptr(),
            a.len(),
            paths.0.is_closed(),
            b.as_ptr(),
            b.len(),
            paths.1.is_closed(),
            epsilon,
            i.as_mut_ptr(),
            i.len(),
            p.as_mut_ptr(),
            p.len(),
            counts.as_mut_ptr(),
            counts.len(),
            report.as_mut_ptr(),
            report.len(),
        )
    }
}

pub(crate) fn join(into: &mut [u64; 40], other: &[u64; 40]) -> u64 {
    // SAFETY: starts and lengths are those of two arrays, and the borrows keep them apart.
    unsafe { raw::vj_join(into.as_mut_ptr(), into.len(), other.as_ptr(), other.len()) }
}

/// An import; `told` has the vertices, and 1 if the path is closed.
pub(crate) fn import(large: bool, text: &[u8], path: &mut [f64], told: &mut [u64; 2]) -> u64 {
    let call = if large { raw::vj_dxf_import_large } else { raw::vj_dxf_import };
    // SAFETY: each start and length are those of a slice; those that are written are borrowed for
    // this call alone.
    unsafe {
        call(
            text.as_ptr(),
            text.len(),
            path.as_mut_ptr(),
            path.len(),
            told.as_mut_ptr(),
            told.len(),
        )
    }
}

/// An export; `told` has the bytes.
pub(crate) fn export(large: bool, path: &Path, text: &mut [u8], told: &mut [u64; 1]) -> u64 {
    let a = path.numbers();
    let call = if large { raw::vj_dxf_export_large } else { raw::vj_dxf_export };
    // SAFETY: as for an import.
    unsafe {
        call(
            a.as_ptr(),
            a.len(),
            path.is_closed(),
            text.as_mut_ptr(),
            text.len(),
            told.as_mut_ptr(),
            told.len(),
        )
    }
}
