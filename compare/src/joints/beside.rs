//! Epsilons beside the distance of a point from a vertex that its segments share.

use super::joint::{joints, LINKS};
use crate::inputs::values::{down, up, LARGEST_EPSILON, SMALLEST};
use crate::listings::layout::Layout;
use crate::rng::Rng;

/// The same path with three epsilons: the larger difference of a computed point from a shared vertex, in x or in y, and the two
/// floats next to it. None if no such epsilon is accepted. The point may be another one then: what came up is read from the path.
pub fn beside(layout: &Layout, rng: &mut Rng) -> Vec<Layout> {
    let mut distances = Vec::new();
    for joint in joints(layout.first.path(), layout.epsilon) {
        if joint.is_overlap() || !LINKS.contains(&joint.link) {
            continue;
        }
        for point in &joint.points {
            let offs = (0..joint.vertices.len()).map(|vertex| joint.off(*point, vertex));
            distances.extend(offs.map(|[x, y]| x.abs().max(y.abs())));
        }
    }
    let accepted = |x: &f64| (SMALLEST..=LARGEST_EPSILON).contains(x);
    distances.retain(accepted);
    if distances.is_empty() {
        return Vec::new();
    }
    let distance = rng.pick(&distances);
    let epsilons = [down(distance), distance, up(distance)];
    let with = |epsilon: f64| Layout {
        epsilon,
        ..layout.clone()
    };
    epsilons.into_iter().filter(accepted).map(with).collect()
}
