//! The library's calls, as `include/vonjekona.h` declares them.

/// Declares calls that have the same arguments: those with large arcs have those of the old ones.
macro_rules! calls {
    ($($($name:ident),+: $arguments:tt;)+) => {
        unsafe extern "C" {
            $($(pub(super) fn $name $arguments -> u64;)+)+
        }
    };
}

unsafe extern "C" {
    pub(crate) safe fn vj_abs(x: f64) -> f64;
    pub(crate) safe fn vj_min(x: f64, y: f64) -> f64;
    pub(crate) safe fn vj_max(x: f64, y: f64) -> f64;
    pub(crate) safe fn vj_sqrt(x: f64) -> f64;
    pub(crate) safe fn vj_abs_bits(b: u64) -> u64;
    pub(crate) safe fn vj_min_bits(a: u64, b: u64) -> u64;
    pub(crate) safe fn vj_max_bits(a: u64, b: u64) -> u64;
    pub(crate) safe fn vj_sqrt_bits(b: u64) -> u64;
}

calls! {
    vj_line_line_intr: (
        v1x: f64, v1y: f64, v2x: f64, v2y: f64, u1x: f64, u1y: f64, u2x: f64, u2y: f64,
        epsilon: f64, out: *mut f64, room: usize);

    vj_line_circle_intr: (
        p0x: f64, p0y: f64, p1x: f64, p1y: f64, radius: f64, cx: f64, cy: f64,
        epsilon: f64, out: *mut f64, room: usize);

    vj_circle_circle_intr: (
        radius1: f64, c1x: f64, c1y: f64, radius2: f64, c2x: f64, c2y: f64,
        epsilon: f64, out: *mut f64, room: usize);

    vj_pair: (
        v1x: f64, v1y: f64, v1_bulge: f64, v2x: f64, v2y: f64, v2_bulge: f64,
        u1x: f64, u1y: f64, u1_bulge: f64, u2x: f64, u2y: f64, u2_bulge: f64,
        epsilon: f64, out: *mut f64, room: usize);

    vj_pair_findings: (
        v1x: f64, v1y: f64, v1_bulge: f64, v2x: f64, v2y: f64, v2_bulge: f64,
        u1x: f64, u1y: f64, u1_bulge: f64, u2x: f64, u2y: f64, u2_bulge: f64,
        epsilon: f64, out: *mut f64, out_room: usize, findings: *mut u64, findings_room: usize);

    vj_pair_large: (
        v1x: f64, v1y: f64, v1_bulge: f64, v2x: f64, v2y: f64, v2_bulge: f64,
        u1x: f64, u1y: f64, u1_bulge: f64, u2x: f64, u2y: f64, u2_bulge: f64,
        epsilon: f64, results: *mut u64, results_room: usize, out: *mut f64, room: usize);

    vj_mutual, vj_mutual_large: (
        first: *const f64, first_len: usize, first_closed: bool,
        second: *const f64, second_len: usize, second_closed: bool, epsilon: f64,
        indices: *mut u64, indices_room: usize, points: *mut f64, points_room: usize,
        counts: *mut u64, counts_room: usize);

    vj_self, vj_self_large: (
        path: *const f64, len: usize, closed: bool, epsilon: f64,
        indices: *mut u64, indices_room: usize, points: *mut f64, points_room: usize,
        counts: *mut u64, counts_room: usize);

    vj_mutual_page, vj_mutual_page_large: (
        first: *const f64, first_len: usize, first_closed: bool,
        second: *const f64, second_len: usize, second_closed: bool, epsilon: f64,
        position: u64, budget: u64,
        indices: *mut u64, indices_room: usize, points: *mut f64, points_room: usize,
        counts: *mut u64, counts_room: usize);

    vj_self_page, vj_self_page_large: (
        path: *const f64, len: usize, closed: bool, epsilon: f64, position: u64, budget: u64,
        indices: *mut u64, indices_room: usize, points: *mut f64, points_room: usize,
        counts: *mut u64, counts_room: usize);

    vj_mutual_boxed, vj_mutual_boxed_large: (
        first: *const f64, first_len: usize, first_closed: bool,
        second: *const f64, second_len: usize, second_closed: bool, epsilon: f64,
        boxes: *mut f64, boxes_room: usize,
        indices: *mut u64, indices_room: usize, points: *mut f64, points_room: usize,
        counts: *mut u64, counts_room: usize);

    vj_self_boxed, vj_self_boxed_large: (
        path: *const f64, len: usize, closed: bool, epsilon: f64,
        boxes: *mut f64, boxes_room: usize,
        indices: *mut u64, indices_room: usize, points: *mut f64, points_room: usize,
        counts: *mut u64, counts_room: usize);

    vj_mutual_counted, vj_mutual_counted_large: (
        first: *const f64, first_len: usize, first_closed: bool,
        second: *const f64, second_len: usize, second_closed: bool, epsilon: f64,
        indices: *mut u64, indices_room: usize, points: *mut f64, points_room: usize,
        counts: *mut u64, counts_room: usize, report: *mut u64, report_room: usize);

    vj_join: (into: *mut u64, into_room: usize, other: *const u64, other_len: usize);

    vj_dxf_import, vj_dxf_import_large: (
        text: *const u8, len: usize, path: *mut f64, path_room: usize,
        told: *mut u64, told_room: usize);

    vj_dxf_export, vj_dxf_export_large: (
        path: *const f64, len: usize, closed: bool, text: *mut u8, text_room: usize,
        told: *mut u64, told_room: usize);
}
