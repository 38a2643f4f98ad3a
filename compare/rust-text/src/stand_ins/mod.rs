//! Stand-ins for what the text imports and does not contain, written from the scope's rules. A rule is quoted wherever the
//! crossing functions use it; the rest is there so that the text compiles.

pub mod fuzzy;
pub mod num_traits;
pub mod pline_vertex;
pub mod real;
pub mod static_aabb2d_index;
pub mod vector2;
