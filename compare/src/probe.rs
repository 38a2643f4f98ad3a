//! The functions of `plane`, the segments of a path, the filled part of rows, and the moves of layouts, as crate `probe` exports
//! them. They are only for the comparison: no header of the product declares them.

// Each call is safe: it takes and gives numbers, accepts any of them, and always returns.
unsafe extern "C" {
    pub safe fn vjp_fuzzy_eq_zero_eps(a: f64, eps: f64) -> bool;
    pub safe fn vjp_fuzzy_eq_zero(a: f64) -> bool;
    pub safe fn vjp_fuzzy_eq_eps(a: f64, b: f64, eps: f64) -> bool;
    pub safe fn vjp_fuzzy_gt_eps(a: f64, b: f64, eps: f64) -> bool;
    pub safe fn vjp_fuzzy_lt_eps(a: f64, b: f64, eps: f64) -> bool;
    pub safe fn vjp_fuzzy_in_range_eps(a: f64, min: f64, max: f64, eps: f64) -> bool;

    pub safe fn vjp_dot(x1: f64, y1: f64, x2: f64, y2: f64) -> f64;
    pub safe fn vjp_perp_dot(x1: f64, y1: f64, x2: f64, y2: f64) -> f64;
    pub safe fn vjp_length_squared(x: f64, y: f64) -> f64;
    pub safe fn vjp_length(x: f64, y: f64) -> f64;
    pub safe fn vjp_vector_fuzzy_eq_eps(x1: f64, y1: f64, x2: f64, y2: f64, eps: f64) -> bool;
    pub safe fn vjp_vector_eq(x1: f64, y1: f64, x2: f64, y2: f64) -> bool;

    pub safe fn vjp_bulge_is_zero(x: f64, y: f64, bulge: f64) -> bool;
    pub safe fn vjp_bulge_is_neg(x: f64, y: f64, bulge: f64) -> bool;

    pub safe fn vjp_dist_squared(x0: f64, y0: f64, x1: f64, y1: f64) -> f64;
    #[rustfmt::skip]
    pub safe fn vjp_parametric_from_point(
        x0: f64,
        y0: f64,
        x1: f64,
        y1: f64,
        x: f64,
        y: f64,
        epsilon: f64,
    ) -> f64;
}

// A lent slice goes in as its start and its length. The call writes nothing beyond these and holds on to nothing.
mod raw {
    unsafe extern "C" {
        pub fn vjp_add(x1: f64, y1: f64, x2: f64, y2: f64, out: *mut f64, room: usize) -> usize;
        pub fn vjp_sub(x1: f64, y1: f64, x2: f64, y2: f64, out: *mut f64, room: usize) -> usize;
        pub fn vjp_scale(x: f64, y: f64, factor: f64, out: *mut f64, room: usize) -> usize;
        pub fn vjp_perp(x: f64, y: f64, out: *mut f64, room: usize) -> usize;
        pub fn vjp_min_max(v1: f64, v2: f64, out: *mut f64, room: usize) -> usize;
        #[rustfmt::skip]
        pub fn vjp_point_from_parametric(
            x0: f64,
            y0: f64,
            x1: f64,
            y1: f64,
            t: f64,
            out: *mut f64,
            room: usize,
        ) -> usize;
        #[rustfmt::skip]
        pub fn vjp_seg_arc_radius_and_center(
            x1: f64,
            y1: f64,
            bulge1: f64,
            x2: f64,
            y2: f64,
            bulge2: f64,
            out: *mut f64,
            room: usize,
        ) -> usize;
        #[rustfmt::skip]
        pub fn vjp_segment(
            path: *const f64,
            numbers: usize,
            closed: bool,
            i: usize,
            out: *mut f64,
            room: usize,
        ) -> usize;
        #[rustfmt::skip]
        pub fn vjp_view_segment(
            path: *const f64,
            numbers: usize,
            closed: bool,
            i: usize,
            out: *mut f64,
            room: usize,
        ) -> usize;
        pub fn vjp_view_segment_count(path: *const f64, numbers: usize, closed: bool) -> usize;
        #[rustfmt::skip]
        pub fn vjp_filled(
            points: *const f64,
            numbers: usize,
            rows: usize,
            out: *mut f64,
            room: usize,
        ) -> usize;
        #[rustfmt::skip]
        pub fn vjp_pack_layout(
            text: *const u8,
            bytes: usize,
            out: *mut u8,
            room: usize,
            told: *mut u64,
            places: usize,
        ) -> u64;
        #[rustfmt::skip]
        pub fn vjp_unpack_layout(
            file: *const u8,
            bytes: usize,
            out: *mut u8,
            room: usize,
            told: *mut u64,
            places: usize,
        ) -> u64;
        pub fn vjp_read_packed(
            file: *const u8,
            bytes: usize,
            first: *mut f64,
            first_room: usize,
            second: *mut f64,
            second_room: usize,
            told: *mut u64,
            places: usize,
        ) -> u64;
        #[cfg(feature = "rust-text")]
        pub fn vjp_list_layout(input: *const u8, bytes: usize, out: *mut u8, room: usize) -> usize;
    }
}

// SAFETY, of each call below: start and length are those of a slice that is lent while the call runs.

pub fn vjp_add(x1: f64, y1: f64, x2: f64, y2: f64, out: &mut [f64]) -> usize {
    unsafe { raw::vjp_add(x1, y1, x2, y2, out.as_mut_ptr(), out.len()) }
}

pub fn vjp_sub(x1: f64, y1: f64, x2: f64, y2: f64, out: &mut [f64]) -> usize {
    unsafe { raw::vjp_sub(x1, y1, x2, y2, out.as_mut_ptr(), out.len()) }
}

pub fn vjp_scale(x: f64, y: f64, factor: f64, out: &mut [f64]) -> usize {
    unsafe { raw::vjp_scale(x, y, factor, out.as_mut_ptr(), out.len()) }
}

pub fn vjp_perp(x: f64, y: f64, out: &mut [f64]) -> usize {
    unsafe { raw::vjp_perp(x, y, out.as_mut_ptr(), out.len()) }
}

pub fn vjp_min_max(v1: f64, v2: f64, out: &mut [f64]) -> usize {
    unsafe { raw::vjp_min_max(v1, v2, out.as_mut_ptr(), out.len()) }
}

/// A segment's start and end, x before y, and a place along it.
pub fn vjp_point_from_parametric([x0, y0, x1, y1, t]: [f64; 5], out: &mut [f64]) -> usize {
    unsafe { raw::vjp_point_from_parametric(x0, y0, x1, y1, t, out.as_mut_ptr(), out.len()) }
}

/// Two vertices, each x, y and bulge.
pub fn vjp_seg_arc_radius_and_center(
    [x1, y1, bulge1, x2, y2, bulge2]: [f64; 6],
    out: &mut [f64],
) -> usize {
    let (start, room) = (out.as_mut_ptr(), out.len());
    unsafe { raw::vjp_seg_arc_radius_and_center(x1, y1, bulge1, x2, y2, bulge2, start, room) }
}

/// A path with a flag that says whether it is closed, and an index. Both vertices' numbers but their traces go into the slice,
/// and then the segment's trace.
pub fn vjp_segment(path: &[f64], closed: bool, i: usize, out: &mut [f64]) -> usize {
    let (start, room) = (out.as_mut_ptr(), out.len());
    unsafe { raw::vjp_segment(path.as_ptr(), path.len(), closed, i, start, room) }
}

/// The same for a view of the path.
pub fn vjp_view_segment(path: &[f64], closed: bool, i: usize, out: &mut [f64]) -> usize {
    let (start, room) = (out.as_mut_ptr(), out.len());
    unsafe { raw::vjp_view_segment(path.as_ptr(), path.len(), closed, i, start, room) }
}

pub fn vjp_view_segment_count(path: &[f64], closed: bool) -> usize {
    unsafe { raw::vjp_view_segment_count(path.as_ptr(), path.len(), closed) }
}

/// Float rows, and how many of them are filled.
pub fn vjp_filled(points: &[f64], rows: usize, out: &mut [f64]) -> usize {
    let (start, room) = (out.as_mut_ptr(), out.len());
    unsafe { raw::vjp_filled(points.as_ptr(), points.len(), rows, start, room) }
}

/// A text; its packed form goes into the slice, and what is told into two places.
pub fn vjp_pack_layout(text: &[u8], out: &mut [u8], told: &mut [u64]) -> u64 {
    let (start, room) = (out.as_mut_ptr(), out.len());
    let (places, count) = (told.as_mut_ptr(), told.len());
    unsafe { raw::vjp_pack_layout(text.as_ptr(), text.len(), start, room, places, count) }
}

/// A packed file; its text goes into the slice.
pub fn vjp_unpack_layout(file: &[u8], out: &mut [u8], told: &mut [u64]) -> u64 {
    let (start, room) = (out.as_mut_ptr(), out.len());
    let (places, count) = (told.as_mut_ptr(), told.len());
    unsafe { raw::vjp_unpack_layout(file.as_ptr(), file.len(), start, room, places, count) }
}

/// A packed file; the numbers of its two paths go into two slices.
pub fn vjp_read_packed(
    file: &[u8],
    first: &mut [f64],
    second: &mut [f64],
    told: &mut [u64],
) -> u64 {
    unsafe {
        raw::vjp_read_packed(
            file.as_ptr(),
            file.len(),
            first.as_mut_ptr(),
            first.len(),
            second.as_mut_ptr(),
            second.len(),
            told.as_mut_ptr(),
            told.len(),
        )
    }
}

/// An input of the program that lists; the answer goes into a slice.
#[cfg(feature = "rust-text")]
pub fn vjp_list_layout(input: &[u8], out: &mut [u8]) -> usize {
    unsafe { raw::vjp_list_layout(input.as_ptr(), input.len(), out.as_mut_ptr(), out.len()) }
}
