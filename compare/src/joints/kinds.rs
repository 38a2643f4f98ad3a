//! Kinds of joint that a run must have met. They are read from the path, not from how it was drawn.

use super::joint::{Joint, Link, GAPS, LINKS, SORTS};
use crate::listings::score::CLASSES;
use crate::met::Met;

/// The Rust's tolerance where no other is given.
const DEFAULT: f64 = 1e-8;

/// Of joints that are looked at.
pub fn kinds() -> Met<Joint> {
    let mut kinds = Met::new();
    of_classes(&mut kinds);
    of_edges(&mut kinds);
    of_points(&mut kinds);
    of_distances(&mut kinds);
    of_seeming(&mut kinds);
    kinds
}

/// By their traces, of all joints. Those of one trace have the classes of the others.
pub fn of_traces() -> Met<Joint> {
    let mut kinds: Met<Joint> = Met::new();
    for link in LINKS {
        for (sort, sort_name) in SORTS.iter().enumerate() {
            for would_row in [false, true] {
                let gives = if would_row { "a row" } else { "no row" };
                let name = format!("{link:?}, {sort_name}, of one trace, else {gives}");
                kinds.add(name, move |joint| {
                    let is = joint.link == link && joint.sort == sort;
                    is && joint.is_passed() && joint.would_row() == would_row
                });
            }
        }
        for trace in [1.0, 2.0, 255.0] {
            kinds.add(
                format!("{link:?}, of trace {trace}, else a row"),
                move |joint| {
                    let is = joint.link == link && joint.traces == [trace; 2];
                    is && joint.is_passed() && joint.would_row()
                },
            );
        }
        for [a, b] in [[0.0, 0.0], [0.0, -0.0], [-0.0, 0.0], [-0.0, -0.0f64]] {
            kinds.add(
                format!("{link:?}, of {a:?} and {b:?}, a row"),
                move |joint| {
                    let bits = joint.traces.map(f64::to_bits);
                    joint.link == link && bits == [a, b].map(f64::to_bits) && joint.makes_row()
                },
            );
        }
        let names = [
            ("above 0 and 0", [true, false]),
            ("0 and above 0", [false, true]),
            ("two above 0", [true, true]),
        ];
        for (name, above) in names {
            kinds.add(format!("{link:?}, of {name}, a row"), move |joint| {
                let is = joint.traces.map(|trace| trace > 0.0) == above;
                joint.link == link && is && joint.makes_row()
            });
        }
    }
    for link in [Link::Ends, Link::Across] {
        kinds.add(format!("{link:?}, of one trace"), move |joint| {
            joint.link == link && joint.is_passed()
        });
    }
    kinds
}

/// Classes that a sort of pair may have, with a row and without. A tangent joint with a row is rare, so it counts in any link.
fn classes(link: Link, sort: usize) -> &'static [(u64, bool)] {
    match (sort, link) {
        // on each other, or both so short that they are points
        (0, Link::Both) => &[(2, false), (4, true)],
        (0, _) => &[(2, false), (2, true), (4, true)],
        (3, _) => &[
            (1, false),
            (2, false),
            (2, true),
            (3, false),
            (3, true),
            (5, true),
        ],
        // both points near to one vertex is rare
        (_, Link::Closing) => &[(1, false), (2, false), (2, true), (3, true)],
        _ => &[(1, false), (2, false), (2, true), (3, false), (3, true)],
    }
}

fn of_classes(kinds: &mut Met<Joint>) {
    for (sort, sort_name) in SORTS.iter().enumerate() {
        for link in LINKS {
            for &(class, row) in classes(link, sort) {
                let gives = if row { "a row" } else { "no row" };
                let class_name = CLASSES[class as usize];
                let name = format!("{link:?}, {sort_name}, {class_name}, {gives}");
                kinds.add(name, move |joint| {
                    joint.link == link
                        && joint.sort == sort
                        && joint.class == class
                        && joint.makes_row() == row
                });
            }
        }
        if sort > 0 {
            kinds.add(format!("{sort_name}, tangent, a row"), move |joint| {
                let neighbours = LINKS.contains(&joint.link);
                neighbours && joint.sort == sort && joint.class == 1 && joint.makes_row()
            });
        }
    }
}

fn of_edges(kinds: &mut Met<Joint>) {
    for (gap, gap_name) in GAPS.iter().enumerate() {
        for (sort, sort_name) in SORTS.iter().enumerate() {
            if sort == 0 && gap == 2 {
                // rare, so any coordinate on any side will do
                kinds.add(format!("{sort_name}, {gap_name} epsilon"), move |joint| {
                    joint.sort == sort && joint.edges().iter().any(|edge| edge[2] == gap)
                });
                continue;
            }
            for (axis, above) in [(0, 0), (0, 1), (1, 0), (1, 1)] {
                let coordinate = ["x", "y"][axis];
                let side = ["below", "above"][above];
                let name =
                    format!("{sort_name}, {coordinate} {side} the vertex's, {gap_name} epsilon");
                kinds.add(name, move |joint| {
                    joint.sort == sort && joint.edges().contains(&[axis, above, gap])
                });
            }
        }
        for link in LINKS {
            kinds.add(format!("{link:?}, {gap_name} epsilon"), move |joint| {
                joint.link == link && joint.edges().iter().any(|edge| edge[2] == gap)
            });
        }
    }
}

/// Which of two points are near to which vertices.
fn of_points(kinds: &mut Met<Joint>) {
    let nears = |joint: &Joint| -> Option<[usize; 2]> {
        let each: Vec<usize> = joint.points.iter().map(|p| joint.nears(*p)).collect();
        <[usize; 2]>::try_from(each)
            .ok()
            .filter(|_| joint.class == 3)
    };
    for link in [Link::Next, Link::Closing] {
        for (name, which) in [
            ("the first of two near", [1, 0]),
            ("the second of two near", [0, 1]),
            ("both near to one vertex", [1, 1]),
        ] {
            kinds.add(format!("{link:?}, {name}"), move |joint| {
                joint.link == link && nears(joint) == Some(which)
            });
        }
    }
    for [first, second] in [[0, 0], [1, 0], [0, 2], [1, 2], [2, 1]] {
        let vertex = ["none", "vertex 1", "vertex 0"];
        let (near, near_too) = (vertex[first], vertex[second]);
        let name = format!("Both, the first near to {near}, the second to {near_too}");
        kinds.add(name, move |joint| {
            joint.link == Link::Both && nears(joint) == Some([first, second])
        });
    }
}

/// Where another distance would give another answer.
fn of_distances(kinds: &mut Met<Joint>) {
    let alone = |joint: &Joint| !joint.is_overlap() && LINKS.contains(&joint.link);
    let offs = |joint: &Joint| -> Vec<[f64; 2]> {
        let points = joint.points.iter();
        let each = points.flat_map(|point| {
            let at = 0..joint.vertices.len();
            at.map(|vertex| joint.off(*point, vertex))
                .collect::<Vec<_>>()
        });
        each.collect()
    };
    kinds.add("near, but not by the distance", move |joint| {
        let far = |[x, y]: &[f64; 2]| {
            let near = x.abs() < joint.epsilon && y.abs() < joint.epsilon;
            near && (x * x + y * y).sqrt() >= joint.epsilon
        };
        alone(joint) && joint.is_at_vertices() && offs(joint).iter().any(far)
    });
    for axis in 0..2 {
        let coordinate = ["x", "y"][axis];
        kinds.add(format!("near in {coordinate} only"), move |joint| {
            let one = |off: &[f64; 2]| {
                off[axis].abs() < joint.epsilon && off[1 - axis].abs() >= joint.epsilon
            };
            alone(joint) && !joint.is_at_vertices() && offs(joint).iter().any(one)
        });
    }
    kinds.add("near, but not by the default epsilon", move |joint| {
        alone(joint) && joint.is_at_vertices() && !joint.is_within(DEFAULT)
    });
    kinds.add("near by the default epsilon only", move |joint| {
        alone(joint) && !joint.is_at_vertices() && joint.is_within(DEFAULT)
    });
}

/// No neighbours, though they lie as such: each makes a row.
fn of_seeming(kinds: &mut Met<Joint>) {
    for link in [Link::Ends, Link::Across] {
        for (sort, name) in SORTS.iter().enumerate() {
            kinds.add(format!("{link:?}, {name}, only there"), move |joint| {
                let there = joint.link == link && joint.sort == sort;
                there && !joint.is_overlap() && joint.is_at_vertices()
            });
        }
    }
    kinds.add("open, two segments, back to the start", |joint| {
        let near = |p: &[f64; 2], start| {
            joint.nears(*p) > 0 || crate::listings::neighbours::is_near(*p, start, joint.epsilon)
        };
        let ends = joint.back.filter(|_| !joint.is_at_vertices());
        ends.is_some_and(|start| joint.class == 3 && joint.points.iter().all(|p| near(p, start)))
    });
}
