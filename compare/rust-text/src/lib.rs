//! The Rust text of cavalier_contours 0.9.0 that is at hand, compiled unchanged, in modules with the names that it uses itself.
//!
//! `stand_ins` has what the text imports and does not contain. `polyline::with_log` has the pair function again, as a copy that
//! notes in `log` what it does; nothing else uses it.

#[cfg(test)]
#[path = "../insertions.rs"]
mod insertions;
pub mod log;
mod stand_ins;

pub mod core {
    pub mod math {
        mod base_math {
            include!(concat!(env!("RUST_TEXT"), "/src/core/math/base_math.rs"));
        }
        mod line_line_intersect {
            use crate::stand_ins::num_traits;
            include!(concat!(
                env!("RUST_TEXT"),
                "/src/core/math/line_line_intersect.rs"
            ));
        }
        mod line_circle_intersect {
            include!(concat!(
                env!("RUST_TEXT"),
                "/src/core/math/line_circle_intersect.rs"
            ));
        }
        mod circle_circle_intersect {
            include!(concat!(
                env!("RUST_TEXT"),
                "/src/core/math/circle_circle_intersect.rs"
            ));
        }

        pub use crate::stand_ins::vector2::Vector2;
        pub use base_math::*;
        pub use circle_circle_intersect::{circle_circle_intr, CircleCircleIntr};
        pub use line_circle_intersect::{line_circle_intr, LineCircleIntr};
        pub use line_line_intersect::{line_line_intr, LineLineIntr};
    }

    pub mod traits {
        pub use crate::stand_ins::fuzzy::{FuzzyEq, FuzzyOrd};
        pub use crate::stand_ins::real::Real;
    }
}

pub mod polyline {
    mod pline_seg {
        use crate::stand_ins::static_aabb2d_index;
        include!(concat!(env!("RUST_TEXT"), "/src/polyline/pline_seg.rs"));
    }
    mod pline_seg_intersect {
        include!(concat!(
            env!("RUST_TEXT"),
            "/src/polyline/pline_seg_intersect.rs"
        ));
    }

    pub mod with_log {
        use super::{pline_seg, PlineVertex};
        #[allow(unused_parens)] // some that the text has are an argument's now
        mod pline_seg_intersect {
            include!(concat!(env!("OUT_DIR"), "/pairs_with_log.rs"));
        }

        pub use pline_seg_intersect::{pline_seg_intr, PlineSegIntr};
    }

    pub use crate::stand_ins::pline_vertex::PlineVertex;
    pub use pline_seg::*;
    pub use pline_seg_intersect::*;
}
