//! Crossings for cutters: where do two cutting paths, made of lines and arcs, meet?
//!
//! These are the calls of Vonjekona's static library. Each is proved to equal definitions that
//! follow the crate cavalier_contours 0.9.0 operation by operation, and to refuse numbers that are
//! not finite or out of range. The bindings hand numbers over as they are and add no rule of their
//! own; what each call answers is said in `include/vonjekona.h`.
//!
//! A caller of cavalier_contours changes one `use` and adds a `?`:
//!
//! ```
//! // was: use cavalier_contours::polyline::{PlineSegIntr, PlineVertex, pline_seg_intr};
//! use vonjekona::polyline::{PlineSegIntr, PlineVertex, pline_seg_intr};
//!
//! # fn main() -> Result<(), vonjekona::Refusal> {
//! let v = [PlineVertex::new(0.0, 0.0, 0.0), PlineVertex::new(4.0, 4.0, 0.0)];
//! let u = [PlineVertex::new(0.0, 4.0, 0.0), PlineVertex::new(4.0, 0.0, 0.0)];
//! match pline_seg_intr(v[0], v[1], u[0], u[1], 1e-5)? {
//!     PlineSegIntr::OneIntersect { point } => assert_eq!((point.x, point.y), (2.0, 2.0)),
//!     other => panic!("{other:?}"),
//! }
//! # Ok(())
//! # }
//! ```
//!
//! | to | use |
//! |---|---|
//! | ask how two segments meet, and why | [`pline_seg_intr`], [`pair_findings`] |
//! | list whole paths | [`mutual`], [`self_listing`] |
//! | list large paths sooner | [`mutual_boxed`], [`self_boxed`]; with threads [`mutual_shared`], [`self_shared`] |
//! | list in parts | [`mutual_pages`], [`self_pages`], with a [`Budget`] of pairs or of time |
//! | count a month's layouts | [`mutual_counted`], [`Report`] |
//! | read and write drawings | [`dxf_import`], [`dxf_export`] |
//! | have arcs beyond a half circle | the same names in [`large`] |
//!
//! A [`Refusal`] is an error with a number and a place, and prints both in words.
//!
//! **Stack.** A full listing needs some 506 KiB of stack, a boxed one 643 KiB, a page 136 KiB; with
//! large arcs up to 1,860 KiB. A thread that `std` starts has 2 MiB if nothing else is said.
#![forbid(unsafe_op_in_unsafe_fn)]
#![deny(missing_docs, unsafe_code)]

mod boxed;
mod counted;
mod dxf;
#[allow(unsafe_code)]
mod ffi;
pub mod floats;
mod kernels;
pub mod large;
mod listing;
mod pages;
mod pair;
mod path;
mod refusal;
mod rows;
mod shapes;
mod shared;

pub use boxed::{Boxed, PathBox, PathBoxes, mutual_boxed, self_boxed};
pub use counted::{Report, mutual_counted};
pub use dxf::{dxf_export, dxf_import};
pub use kernels::{
    CircleCircleIntr, LineCircleIntr, LineLineIntr, circle_circle_intr, line_circle_intr,
    line_line_intr,
};
pub use listing::{Listing, mutual, self_listing};
pub use pages::{Budget, Page, Pages, mutual_pages, self_pages};
pub use pair::{Finding, Findings, PointFindings, pair_findings, pline_seg_intr};
pub use path::{Path, Vertex};
pub use refusal::{Item, Places, Refusal};
pub use rows::{AnyRow, IntoIter, Iter, LargeRow, Part, Row, Rows};
pub use shapes::{PlineSegIntr, PlineVertex, Vector2, vec2};
pub use shared::{Joined, mutual_shared, self_shared};

/// The kernels, under the names that cavalier_contours has for them.
pub mod core {
    /// Points and kernels.
    pub mod math {
        pub use crate::kernels::{
            CircleCircleIntr, LineCircleIntr, LineLineIntr, circle_circle_intr, line_circle_intr,
            line_line_intr,
        };
        pub use crate::shapes::{Vector2, vec2};
    }
}

/// The pair call, under the names that cavalier_contours has for it.
pub mod polyline {
    pub use crate::pair::pline_seg_intr;
    pub use crate::shapes::{PlineSegIntr, PlineVertex};
}
