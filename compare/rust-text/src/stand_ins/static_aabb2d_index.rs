//! What the text uses of the crate `static_aabb2d_index`: a box along the axes.

#[allow(clippy::upper_case_acronyms)] // the name that the text calls it by
#[derive(Debug, Copy, Clone)]
pub struct AABB<T = f64> {
    pub min_x: T,
    pub min_y: T,
    pub max_x: T,
    pub max_y: T,
}

impl<T> AABB<T> {
    pub fn new(min_x: T, min_y: T, max_x: T, max_y: T) -> Self {
        AABB {
            min_x,
            min_y,
            max_x,
            max_y,
        }
    }
}
