//! The calls with arcs beyond a half circle, as `include/vonjekona.h` declares them. Rows of indices have five words.

use super::{Rows, Span};

// A lent slice goes in as its start and its length. The call writes nothing beyond these and holds on to nothing.
mod raw {
    unsafe extern "C" {
        pub fn vj_pair_large(
            v1x: f64,
            v1y: f64,
            v1_bulge: f64,
            v2x: f64,
            v2y: f64,
            v2_bulge: f64,
            u1x: f64,
            u1y: f64,
            u1_bulge: f64,
            u2x: f64,
            u2y: f64,
            u2_bulge: f64,
            epsilon: f64,
            results: *mut u64,
            results_room: usize,
            out: *mut f64,
            room: usize,
        ) -> u64;
        pub fn vj_mutual_large(
            first: *const f64,
            first_len: usize,
            first_closed: bool,
            second: *const f64,
            second_len: usize,
            second_closed: bool,
            epsilon: f64,
            indices: *mut u64,
            indices_room: usize,
            points: *mut f64,
            points_room: usize,
            counts: *mut u64,
            counts_room: usize,
        ) -> u64;
        pub fn vj_self_large(
            path: *const f64,
            len: usize,
            closed: bool,
            epsilon: f64,
            indices: *mut u64,
            indices_room: usize,
            points: *mut f64,
            points_room: usize,
            counts: *mut u64,
            counts_room: usize,
        ) -> u64;
        pub fn vj_mutual_page_large(
            first: *const f64,
            first_len: usize,
            first_closed: bool,
            second: *const f64,
            second_len: usize,
            second_closed: bool,
            epsilon: f64,
            position: u64,
            budget: u64,
            indices: *mut u64,
            indices_room: usize,
            points: *mut f64,
            points_room: usize,
            counts: *mut u64,
            counts_room: usize,
        ) -> u64;
        pub fn vj_self_page_large(
            path: *const f64,
            len: usize,
            closed: bool,
            epsilon: f64,
            position: u64,
            budget: u64,
            indices: *mut u64,
            indices_room: usize,
            points: *mut f64,
            points_room: usize,
            counts: *mut u64,
            counts_room: usize,
        ) -> u64;
        pub fn vj_mutual_boxed_large(
            first: *const f64,
            first_len: usize,
            first_closed: bool,
            second: *const f64,
            second_len: usize,
            second_closed: bool,
            epsilon: f64,
            boxes: *mut f64,
            boxes_room: usize,
            indices: *mut u64,
            indices_room: usize,
            points: *mut f64,
            points_room: usize,
            counts: *mut u64,
            counts_room: usize,
        ) -> u64;
        pub fn vj_self_boxed_large(
            path: *const f64,
            len: usize,
            closed: bool,
            epsilon: f64,
            boxes: *mut f64,
            boxes_room: usize,
            indices: *mut u64,
            indices_room: usize,
            points: *mut f64,
            points_room: usize,
            counts: *mut u64,
            counts_room: usize,
        ) -> u64;
        pub fn vj_mutual_counted_large(
            first: *const f64,
            first_len: usize,
            first_closed: bool,
            second: *const f64,
            second_len: usize,
            second_closed: bool,
            epsilon: f64,
            indices: *mut u64,
            indices_room: usize,
            points: *mut f64,
            points_room: usize,
            counts: *mut u64,
            counts_room: usize,
            report: *mut u64,
            report_room: usize,
        ) -> u64;
    }
}

// SAFETY, of each call below: start and length are those of a slice that is lent while the call runs.

/// Four vertices, each x, y and bulge, and an epsilon: three words and four floats for each result.
pub fn vj_pair_large(n: [f64; 13], results: &mut [u64], out: &mut [f64]) -> u64 {
    let [a, b, c, d, e, f, g, h, i, j, k, l, epsilon] = n;
    let (words, words_room) = (results.as_mut_ptr(), results.len());
    let (start, room) = (out.as_mut_ptr(), out.len());
    unsafe {
        raw::vj_pair_large(
            a, b, c, d, e, f, g, h, i, j, k, l, epsilon, words, words_room, start, room,
        )
    }
}

/// Two paths, each with a flag that says whether it is closed, and an epsilon.
pub fn vj_mutual_large(
    first: (&[f64], bool),
    second: (&[f64], bool),
    epsilon: f64,
    rows: Rows,
) -> u64 {
    let Rows {
        indices,
        points,
        counts,
    } = rows;
    unsafe {
        raw::vj_mutual_large(
            first.0.as_ptr(),
            first.0.len(),
            first.1,
            second.0.as_ptr(),
            second.0.len(),
            second.1,
            epsilon,
            indices.as_mut_ptr(),
            indices.len(),
            points.as_mut_ptr(),
            points.len(),
            counts.as_mut_ptr(),
            counts.len(),
        )
    }
}

/// A path with a flag that says whether it is closed, and an epsilon.
pub fn vj_self_large(path: (&[f64], bool), epsilon: f64, rows: Rows) -> u64 {
    let Rows {
        indices,
        points,
        counts,
    } = rows;
    unsafe {
        raw::vj_self_large(
            path.0.as_ptr(),
            path.0.len(),
            path.1,
            epsilon,
            indices.as_mut_ptr(),
            indices.len(),
            points.as_mut_ptr(),
            points.len(),
            counts.as_mut_ptr(),
            counts.len(),
        )
    }
}

/// A page of `vj_mutual_large`'s listing.
pub fn vj_mutual_page_large(
    first: (&[f64], bool),
    second: (&[f64], bool),
    epsilon: f64,
    page: Span,
    rows: Rows,
) -> u64 {
    let Rows {
        indices,
        points,
        counts,
    } = rows;
    unsafe {
        raw::vj_mutual_page_large(
            first.0.as_ptr(),
            first.0.len(),
            first.1,
            second.0.as_ptr(),
            second.0.len(),
            second.1,
            epsilon,
            page.position,
            page.budget,
            indices.as_mut_ptr(),
            indices.len(),
            points.as_mut_ptr(),
            points.len(),
            counts.as_mut_ptr(),
            counts.len(),
        )
    }
}

/// A page of `vj_self_large`'s listing.
pub fn vj_self_page_large(path: (&[f64], bool), epsilon: f64, page: Span, rows: Rows) -> u64 {
    let Rows {
        indices,
        points,
        counts,
    } = rows;
    unsafe {
        raw::vj_self_page_large(
            path.0.as_ptr(),
            path.0.len(),
            path.1,
            epsilon,
            page.position,
            page.budget,
            indices.as_mut_ptr(),
            indices.len(),
            points.as_mut_ptr(),
            points.len(),
            counts.as_mut_ptr(),
            counts.len(),
        )
    }
}

/// The boxed listing of two paths: its index goes into the boxes, four floats each.
pub fn vj_mutual_boxed_large(
    first: (&[f64], bool),
    second: (&[f64], bool),
    epsilon: f64,
    boxes: &mut [f64],
    rows: Rows,
) -> u64 {
    let Rows {
        indices,
        points,
        counts,
    } = rows;
    unsafe {
        raw::vj_mutual_boxed_large(
            first.0.as_ptr(),
            first.0.len(),
            first.1,
            second.0.as_ptr(),
            second.0.len(),
            second.1,
            epsilon,
            boxes.as_mut_ptr(),
            boxes.len(),
            indices.as_mut_ptr(),
            indices.len(),
            points.as_mut_ptr(),
            points.len(),
            counts.as_mut_ptr(),
            counts.len(),
        )
    }
}

/// The boxed listing of one path by itself.
pub fn vj_self_boxed_large(
    path: (&[f64], bool),
    epsilon: f64,
    boxes: &mut [f64],
    rows: Rows,
) -> u64 {
    let Rows {
        indices,
        points,
        counts,
    } = rows;
    unsafe {
        raw::vj_self_boxed_large(
            path.0.as_ptr(),
            path.0.len(),
            path.1,
            epsilon,
            boxes.as_mut_ptr(),
            boxes.len(),
            indices.as_mut_ptr(),
            indices.len(),
            points.as_mut_ptr(),
            points.len(),
            counts.as_mut_ptr(),
            counts.len(),
        )
    }
}

/// The counted listing of two paths: it also adds to the report.
pub fn vj_mutual_counted_large(
    first: (&[f64], bool),
    second: (&[f64], bool),
    epsilon: f64,
    rows: Rows,
    report: &mut [u64],
) -> u64 {
    let Rows {
        indices,
        points,
        counts,
    } = rows;
    unsafe {
        raw::vj_mutual_counted_large(
            first.0.as_ptr(),
            first.0.len(),
            first.1,
            second.0.as_ptr(),
            second.0.len(),
            second.1,
            epsilon,
            indices.as_mut_ptr(),
            indices.len(),
            points.as_mut_ptr(),
            points.len(),
            counts.as_mut_ptr(),
            counts.len(),
            report.as_mut_ptr(),
            report.len(),
        )
    }
}
