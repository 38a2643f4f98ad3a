//! The proved library, as `include/vonjekona.h` declares it.
//!
//! Each call is safe: it takes and gives numbers, accepts any of them, and always returns.

#[cfg(feature = "rust-text")]
pub mod large;

unsafe extern "C" {
    pub safe fn vj_abs(x: f64) -> f64;
    pub safe fn vj_min(x: f64, y: f64) -> f64;
    pub safe fn vj_max(x: f64, y: f64) -> f64;
    pub safe fn vj_sqrt(x: f64) -> f64;

    pub safe fn vj_abs_bits(b: u64) -> u64;
    pub safe fn vj_min_bits(a: u64, b: u64) -> u64;
    pub safe fn vj_max_bits(a: u64, b: u64) -> u64;
    pub safe fn vj_sqrt_bits(b: u64) -> u64;
}

// A lent slice goes in as its start and its length. The call writes nothing beyond these and holds on to nothing.
#[cfg_attr(not(feature = "rust-text"), allow(dead_code))]
mod raw {
    unsafe extern "C" {
        pub fn vj_line_line_intr(
            v1x: f64,
            v1y: f64,
            v2x: f64,
            v2y: f64,
            u1x: f64,
            u1y: f64,
            u2x: f64,
            u2y: f64,
            epsilon: f64,
            out: *mut f64,
            room: usize,
        ) -> u64;
        pub fn vj_line_circle_intr(
            p0x: f64,
            p0y: f64,
            p1x: f64,
            p1y: f64,
            radius: f64,
            cx: f64,
            cy: f64,
            epsilon: f64,
            out: *mut f64,
            room: usize,
        ) -> u64;
        pub fn vj_circle_circle_intr(
            radius1: f64,
            c1x: f64,
            c1y: f64,
            radius2: f64,
            c2x: f64,
            c2y: f64,
            epsilon: f64,
            out: *mut f64,
            room: usize,
        ) -> u64;
        pub fn vj_pair(
            v1x: f64,
            v1y: f64,
            v1_bulge: f64,
            v2x: f64,
            v2y: f64,
            v2_bulge: f64,
            u1x: f64,
            u1y: f64,
            u1_bulge: f64,
            u2x: f64,
            u2y: f64,
            u2_bulge: f64,
            epsilon: f64,
            out: *mut f64,
            room: usize,
        ) -> u64;
        pub fn vj_pair_findings(
            v1x: f64,
            v1y: f64,
            v1_bulge: f64,
            v2x: f64,
            v2y: f64,
            v2_bulge: f64,
            u1x: f64,
            u1y: f64,
            u1_bulge: f64,
            u2x: f64,
            u2y: f64,
            u2_bulge: f64,
            epsilon: f64,
            out: *mut f64,
            room: usize,
            findings: *mut u64,
            findings_room: usize,
        ) -> u64;
        pub fn vj_mutual(
            first: *const f64,
            first_len: usize,
            first_closed: bool,
            second: *const f64,
            second_len: usize,
            second_closed: bool,
            epsilon: f64,
            indices: *mut u64,
            indices_room: usize,
            points: *mut f64,
            points_room: usize,
            counts: *mut u64,
            counts_room: usize,
        ) -> u64;
        pub fn vj_self(
            path: *const f64,
            len: usize,
            closed: bool,
            epsilon: f64,
            indices: *mut u64,
            indices_room: usize,
            points: *mut f64,
            points_room: usize,
            counts: *mut u64,
            counts_room: usize,
        ) -> u64;
        pub fn vj_mutual_page(
            first: *const f64,
            first_len: usize,
            first_closed: bool,
            second: *const f64,
            second_len: usize,
            second_closed: bool,
            epsilon: f64,
            position: u64,
            budget: u64,
            indices: *mut u64,
            indices_room: usize,
            points: *mut f64,
            points_room: usize,
            counts: *mut u64,
            counts_room: usize,
        ) -> u64;
        pub fn vj_self_page(
            path: *const f64,
            len: usize,
            closed: bool,
            epsilon: f64,
            position: u64,
            budget: u64,
            indices: *mut u64,
            indices_room: usize,
            points: *mut f64,
            points_room: usize,
            counts: *mut u64,
            counts_room: usize,
        ) -> u64;
        pub fn vj_mutual_boxed(
            first: *const f64,
            first_len: usize,
            first_closed: bool,
            second: *const f64,
            second_len: usize,
            second_closed: bool,
            epsilon: f64,
            boxes: *mut f64,
            boxes_room: usize,
            indices: *mut u64,
            indices_room: usize,
            points: *mut f64,
            points_room: usize,
            counts: *mut u64,
            counts_room: usize,
        ) -> u64;
        pub fn vj_self_boxed(
            path: *const f64,
            len: usize,
            closed: bool,
            epsilon: f64,
            boxes: *mut f64,
            boxes_room: usize,
            indices: *mut u64,
            indices_room: usize,
            points: *mut f64,
            points_room: usize,
            counts: *mut u64,
            counts_room: usize,
        ) -> u64;
        pub fn vj_mutual_counted(
            first: *const f64,
            first_len: usize,
            first_closed: bool,
            second: *const f64,
            second_len: usize,
            second_closed: bool,
            epsilon: f64,
            indices: *mut u64,
            indices_room: usize,
            points: *mut f64,
            points_room: usize,
            counts: *mut u64,
            counts_room: usize,
            report: *mut u64,
            report_room: usize,
        ) -> u64;
        pub fn vj_join(
            into: *mut u64,
            into_room: usize,
            other: *const u64,
            other_len: usize,
        ) -> u64;
        pub fn vj_dxf_import(
            text: *const u8,
            len: usize,
            path: *mut f64,
            path_room: usize,
            told: *mut u64,
            told_room: usize,
        ) -> u64;
        pub fn vj_dxf_export(
            path: *const f64,
            len: usize,
            closed: bool,
            text: *mut u8,
            text_room: usize,
            told: *mut u64,
            told_room: usize,
        ) -> u64;
        pub fn vj_dxf_import_large(
            text: *const u8,
            len: usize,
            path: *mut f64,
            path_room: usize,
            told: *mut u64,
            told_room: usize,
        ) -> u64;
        pub fn vj_dxf_export_large(
            path: *const f64,
            len: usize,
            closed: bool,
            text: *mut u8,
            text_room: usize,
            told: *mut u64,
            told_room: usize,
        ) -> u64;
    }
}

// SAFETY, of each call below: start and length are those of a slice that is lent while the call runs.

/// Two lines' ends, x before y, and an epsilon.
#[cfg(feature = "rust-text")]
pub fn vj_line_line_intr(n: [f64; 9], out: &mut [f64]) -> u64 {
    let [a, b, c, d, e, f, g, h, epsilon] = n;
    let (start, room) = (out.as_mut_ptr(), out.len());
    unsafe { raw::vj_line_line_intr(a, b, c, d, e, f, g, h, epsilon, start, room) }
}

/// A line's ends, a circle's radius and centre, and an epsilon.
#[cfg(feature = "rust-text")]
pub fn vj_line_circle_intr(n: [f64; 8], out: &mut [f64]) -> u64 {
    let [a, b, c, d, radius, x, y, epsilon] = n;
    let (start, room) = (out.as_mut_ptr(), out.len());
    unsafe { raw::vj_line_circle_intr(a, b, c, d, radius, x, y, epsilon, start, room) }
}

/// Two circles, each radius and centre, and an epsilon.
#[cfg(feature = "rust-text")]
pub fn vj_circle_circle_intr(n: [f64; 7], out: &mut [f64]) -> u64 {
    let [radius1, a, b, radius2, c, d, epsilon] = n;
    let (start, room) = (out.as_mut_ptr(), out.len());
    unsafe { raw::vj_circle_circle_intr(radius1, a, b, radius2, c, d, epsilon, start, room) }
}

/// Four vertices, each x, y and bulge, and an epsilon.
pub fn vj_pair(n: [f64; 13], out: &mut [f64]) -> u64 {
    let [a, b, c, d, e, f, g, h, i, j, k, l, epsilon] = n;
    let (start, room) = (out.as_mut_ptr(), out.len());
    unsafe { raw::vj_pair(a, b, c, d, e, f, g, h, i, j, k, l, epsilon, start, room) }
}

/// The same, with what was found of each computed point in a second slice.
#[cfg(feature = "rust-text")]
pub fn vj_pair_findings(n: [f64; 13], out: &mut [f64], findings: &mut [u64]) -> u64 {
    let [a, b, c, d, e, f, g, h, i, j, k, l, epsilon] = n;
    let (start, room) = (out.as_mut_ptr(), out.len());
    let (found, found_room) = (findings.as_mut_ptr(), findings.len());
    unsafe {
        raw::vj_pair_findings(
            a, b, c, d, e, f, g, h, i, j, k, l, epsilon, start, room, found, found_room,
        )
    }
}

/// What a listing writes into: three whole numbers a row, four floats a row, and its counts.
#[cfg(feature = "rust-text")]
pub struct Rows<'a> {
    pub indices: &'a mut [u64],
    pub points: &'a mut [f64],
    pub counts: &'a mut [u64],
}

/// Two paths, each with a flag that says whether it is closed, and an epsilon.
#[cfg(feature = "rust-text")]
pub fn vj_mutual(first: (&[f64], bool), second: (&[f64], bool), epsilon: f64, rows: Rows) -> u64 {
    let Rows {
        indices,
        points,
        counts,
    } = rows;
    unsafe {
        raw::vj_mutual(
            first.0.as_ptr(),
            first.0.len(),
            first.1,
            second.0.as_ptr(),
            second.0.len(),
            second.1,
            epsilon,
            indices.as_mut_ptr(),
            indices.len(),
            points.as_mut_ptr(),
            points.len(),
            counts.as_mut_ptr(),
            counts.len(),
        )
    }
}

/// A path with a flag that says whether it is closed, and an epsilon.
#[cfg(feature = "rust-text")]
pub fn vj_self(path: (&[f64], bool), epsilon: f64, rows: Rows) -> u64 {
    let Rows {
        indices,
        points,
        counts,
    } = rows;
    unsafe {
        raw::vj_self(
            path.0.as_ptr(),
            path.0.len(),
            path.1,
            epsilon,
            indices.as_mut_ptr(),
            indices.len(),
            points.as_mut_ptr(),
            points.len(),
            counts.as_mut_ptr(),
            counts.len(),
        )
    }
}

/// Where a page starts, and how many pairs it may pass.
#[cfg(feature = "rust-text")]
#[derive(Clone, Copy, Debug, PartialEq)]
pub struct Span {
    pub position: u64,
    pub budget: u64,
}

/// A page of `vj_mutual`'s listing.
#[cfg(feature = "rust-text")]
pub fn vj_mutual_page(
    first: (&[f64], bool),
    second: (&[f64], bool),
    epsilon: f64,
    page: Span,
    rows: Rows,
) -> u64 {
    let Rows {
        indices,
        points,
        counts,
    } = rows;
    unsafe {
        raw::vj_mutual_page(
            first.0.as_ptr(),
            first.0.len(),
            first.1,
            second.0.as_ptr(),
            second.0.len(),
            second.1,
            epsilon,
            page.position,
            page.budget,
            indices.as_mut_ptr(),
            indices.len(),
            points.as_mut_ptr(),
            points.len(),
            counts.as_mut_ptr(),
            counts.len(),
        )
    }
}

/// A page of `vj_self`'s listing.
#[cfg(feature = "rust-text")]
pub fn vj_self_page(path: (&[f64], bool), epsilon: f64, page: Span, rows: Rows) -> u64 {
    let Rows {
        indices,
        points,
        counts,
    } = rows;
    unsafe {
        raw::vj_self_page(
            path.0.as_ptr(),
            path.0.len(),
            path.1,
            epsilon,
            page.position,
            page.budget,
            indices.as_mut_ptr(),
            indices.len(),
            points.as_mut_ptr(),
            points.len(),
            counts.as_mut_ptr(),
            counts.len(),
        )
    }
}

/// The boxed listing of two paths: its index goes into the boxes, four floats each.
#[cfg(feature = "rust-text")]
pub fn vj_mutual_boxed(
    first: (&[f64], bool),
    second: (&[f64], bool),
    epsilon: f64,
    boxes: &mut [f64],
    rows: Rows,
) -> u64 {
    let Rows {
        indices,
        points,
        counts,
    } = rows;
    unsafe {
        raw::vj_mutual_boxed(
            first.0.as_ptr(),
            first.0.len(),
            first.1,
            second.0.as_ptr(),
            second.0.len(),
            second.1,
            epsilon,
            boxes.as_mut_ptr(),
            boxes.len(),
            indices.as_mut_ptr(),
            indices.len(),
            points.as_mut_ptr(),
            points.len(),
            counts.as_mut_ptr(),
            counts.len(),
        )
    }
}

/// The boxed listing of one path by itself.
#[cfg(feature = "rust-text")]
pub fn vj_self_boxed(path: (&[f64], bool), epsilon: f64, boxes: &mut [f64], rows: Rows) -> u64 {
    let Rows {
        indices,
        points,
        counts,
    } = rows;
    unsafe {
        raw::vj_self_boxed(
            path.0.as_ptr(),
            path.0.len(),
            path.1,
            epsilon,
            boxes.as_mut_ptr(),
            boxes.len(),
            indices.as_mut_ptr(),
            indices.len(),
            points.as_mut_ptr(),
            points.len(),
            counts.as_mut_ptr(),
            counts.len(),
        )
    }
}

/// The counted listing of two paths: it also adds to the report.
#[cfg(feature = "rust-text")]
pub fn vj_mutual_counted(
    first: (&[f64], bool),
    second: (&[f64], bool),
    epsilon: f64,
    rows: Rows,
    report: &mut [u64],
) -> u64 {
    let Rows {
        indices,
        points,
        counts,
    } = rows;
    unsafe {
        raw::vj_mutual_counted(
            first.0.as_ptr(),
            first.0.len(),
            first.1,
            second.0.as_ptr(),
            second.0.len(),
            second.1,
            epsilon,
            indices.as_mut_ptr(),
            indices.len(),
            points.as_mut_ptr(),
            points.len(),
            counts.as_mut_ptr(),
            counts.len(),
            report.as_mut_ptr(),
            report.len(),
        )
    }
}

/// Adds a report to another.
#[cfg(feature = "rust-text")]
pub fn vj_join(into: &mut [u64], other: &[u64]) -> u64 {
    unsafe { raw::vj_join(into.as_mut_ptr(), into.len(), other.as_ptr(), other.len()) }
}

/// The path of a drawing's body; tells its vertices, and whether it is closed.
pub fn vj_dxf_import(text: &[u8], path: &mut [f64], told: &mut [u64]) -> u64 {
    unsafe {
        raw::vj_dxf_import(
            text.as_ptr(),
            text.len(),
            path.as_mut_ptr(),
            path.len(),
            told.as_mut_ptr(),
            told.len(),
        )
    }
}

/// The same with large arcs.
pub fn vj_dxf_import_large(text: &[u8], path: &mut [f64], told: &mut [u64]) -> u64 {
    unsafe {
        raw::vj_dxf_import_large(
            text.as_ptr(),
            text.len(),
            path.as_mut_ptr(),
            path.len(),
            told.as_mut_ptr(),
            told.len(),
        )
    }
}

/// The body of a path; tells its bytes.
pub fn vj_dxf_export(path: (&[f64], bool), text: &mut [u8], told: &mut [u64]) -> u64 {
    unsafe {
        raw::vj_dxf_export(
            path.0.as_ptr(),
            path.0.len(),
            path.1,
            text.as_mut_ptr(),
            text.len(),
            told.as_mut_ptr(),
            told.len(),
        )
    }
}

/// The same with large arcs.
pub fn vj_dxf_export_large(path: (&[f64], bool), text: &mut [u8], told: &mut [u64]) -> u64 {
    unsafe {
        raw::vj_dxf_export_large(
            path.0.as_ptr(),
            path.0.len(),
            path.1,
            text.as_mut_ptr(),
            text.len(),
            told.as_mut_ptr(),
            told.len(),
        )
    }
}
