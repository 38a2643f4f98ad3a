//! The stand-in's boxes, its walk over them, and its index.

use super::{is, shown};
use crate::listings::model::{Listed, Path};
use crate::listings::stand_in::passes_over;

/// Least x, least y, greatest x, greatest y.
type Reach = [f64; 4];

/// A path's boxes.
#[derive(Clone)]
struct Part {
    segments: Vec<Reach>,
    groups: Vec<Reach>,
}

fn a_group() -> usize {
    match () {
        _ if is("15 a group") => 15,
        _ if is("17 a group") => 17,
        _ => 16,
    }
}

impl Part {
    fn new(path: Path, epsilon: f64) -> Part {
        let mut segments: Vec<Reach> = (0..path.segments())
            .map(|i| reach(path, i, epsilon))
            .collect();
        if is("the closing box is the last but one's") && path.closed && segments.len() > 2 {
            let last = segments.len() - 1;
            segments[last] = segments[last - 1];
        }
        let mut groups: Vec<Reach> = segments.chunks(a_group()).map(around).collect();
        if is("a group's box of its members of trace 0") {
            let traces: Vec<f64> = (0..segments.len()).map(|i| path.trace(i)).collect();
            let of_0 = |(members, traces): (&[Reach], &[f64])| {
                let each = members.iter().zip(traces);
                let members: Vec<Reach> =
                    each.filter(|(_, t)| **t == 0.0).map(|(m, _)| *m).collect();
                (!members.is_empty()).then(|| around(&members))
            };
            let parts = segments.chunks(a_group()).zip(traces.chunks(a_group()));
            for (group, of_0) in groups.iter_mut().zip(parts.map(of_0)) {
                *group = of_0.unwrap_or(*group);
            }
        }
        if is("a group without its last member") {
            let inner = |members: &[Reach]| around(&members[..(members.len() - 1).max(1)]);
            groups = segments.chunks(a_group()).map(inner).collect();
        }
        Part { segments, groups }
    }
}

fn reach(path: Path, i: usize, epsilon: f64) -> Reach {
    let (v1, v2) = path.segment(i);
    let arc = match v1.bulge {
        b if is("an arc above 1e-8 only") => b.abs() > 1e-8,
        b if is("an arc by any bulge") => b != 0.0,
        b if is("an arc to the left only") => b >= 1e-8,
        _ if is("an arc by the next bulge") => v2.bulge.abs() >= 1e-8,
        b => b.abs() >= 1e-8,
    };
    let (x, y) = (v2.x - v1.x, v2.y - v1.y);
    let chord = match () {
        _ if is("the chord with one rounding less") => x.mul_add(x, y * y).sqrt(),
        _ if is("the longer side for the chord") => x.abs().max(y.abs()),
        _ if is("half the chord") => (x * x + y * y).sqrt() / 2.0,
        _ => (x * x + y * y).sqrt(),
    };
    let margin = match () {
        _ if !arc => epsilon,
        _ if is("epsilon only, for arcs") => epsilon,
        _ if is("the chord only, for arcs") => chord,
        _ => chord + epsilon,
    };
    let [mut least_x, mut least_y] = [v1.x.min(v2.x) - margin, v1.y.min(v2.y) - margin];
    let [greatest_x, greatest_y] = [v1.x.max(v2.x) + margin, v1.y.max(v2.y) + margin];
    if is("two subtractions") && arc {
        least_x = v1.x.min(v2.x) - chord - epsilon;
    }
    if is("a last bit outward") {
        least_y = least_y.next_down();
    }
    if is("the least of the first end") {
        least_x = v1.x - margin;
    }
    match () {
        _ if is("both x, then both y") => [least_x, greatest_x, least_y, greatest_y],
        _ => [least_x, least_y, greatest_x, greatest_y],
    }
}

fn around(members: &[Reach]) -> Reach {
    let members = match () {
        _ if is("a group's box of its first member") => &members[..1],
        _ => members,
    };
    let all = |at: usize, of: fn(f64, f64) -> f64| {
        let numbers = members.iter().map(|member| member[at]);
        numbers.reduce(of).expect("a group has members")
    };
    [
        all(0, f64::min),
        all(1, f64::min),
        all(2, f64::max),
        all(3, f64::max),
    ]
}

/// Whether each least is at most the other's greatest.
fn met(a: &Reach, b: &Reach, group: bool) -> bool {
    let strict = match () {
        _ if is("less for at most") => [true; 4],
        _ if is("less for at most, of groups") => [group; 4],
        _ if is("less for at most, of segments") => [!group; 4],
        _ if is("less, the first's least x") => [true, false, false, false],
        _ if is("less, the first's least y") => [false, true, false, false],
        _ if is("less, the second's least x") => [false, false, true, false],
        _ if is("less, the second's least y") => [false, false, false, true],
        _ => [false; 4],
    };
    let loose = is("a last bit apart still meets") && !group;
    let sides = [(a[0], b[2]), (a[1], b[3]), (b[0], a[2]), (b[1], a[3])];
    let sides = match () {
        _ if is("boxes meet in x") => &sides[..1],
        _ if is("y is not compared downwards") => &sides[..3],
        _ => &sides[..],
    };
    let mut each = sides.iter().zip(strict);
    each.all(|(&(least, most), strict)| match () {
        _ if strict => least < most,
        _ if loose => least <= most.next_up(),
        _ => least <= most,
    })
}

/// Which pairs are looked at, in order, how many pairs those of the groups that meet have, and how many are of one trace though
/// their boxes meet.
fn walk(listed: Listed, parts: &[Part; 2]) -> (Vec<[u64; 2]>, u64, u64) {
    let [first, second] = parts;
    let (mut pairs, mut passed, mut of_one_trace) = (Vec::new(), 0, 0);
    let size = a_group();
    let last = match second.groups.len() {
        n if is("the last group dropped") && n > 1 => n - 1,
        n => n,
    };
    for (i, a) in first.segments.iter().enumerate() {
        for (h, group) in second.groups[..last].iter().enumerate() {
            if !met(&first.groups[i / size], group, true) || !met(a, group, true) {
                continue;
            }
            let end = ((h + 1) * size).min(second.segments.len());
            for j in h * size..end {
                if !is_pair(listed, i, j) {
                    continue;
                }
                passed += 1;
                let pair = [i as u64, j as u64];
                if met(a, &second.segments[j], false) || is("every pair of groups that meet") {
                    if passes_over(listed, pair, &is) {
                        of_one_trace += 1;
                    } else {
                        pairs.push(pair);
                    }
                }
            }
        }
    }
    if is("from group to group") {
        let group = |index: u64| index / size as u64;
        pairs.sort_by_key(|&[i, j]| (group(i), group(j), i, j));
    }
    (pairs, passed, of_one_trace)
}

fn is_pair(listed: Listed, i: usize, j: usize) -> bool {
    match listed {
        Listed::Mutual(..) => true,
        Listed::Own(path) => {
            let around = path.closed && i == 0 && j + 1 == path.segments();
            match () {
                _ if is("the next one is no pair") => i + 1 < j,
                _ if is("the closing pair is none") => i < j && !around,
                _ if is("a segment with itself") => i <= j,
                _ => i < j,
            }
        }
    }
}

fn index(listed: Listed, parts: &[Part; 2]) -> Vec<f64> {
    let lost = usize::from(is("the last group not in the index"));
    let mut parts = parts.clone();
    leave_out(listed, &mut parts);
    let [(a, b), (c, d)] = parts.each_ref().map(|part| {
        let groups = part.groups.len().saturating_sub(lost);
        (&part.segments[..], &part.groups[..groups])
    });
    let two = matches!(listed, Listed::Mutual(..)) || is("the one path's index twice");
    let order = match () {
        _ if !two && is("groups before segments") => vec![b, a],
        _ if !two => vec![a, b],
        _ if is("groups before segments") => vec![b, a, d, c],
        _ if is("the second's groups before its segments") => vec![a, b, d, c],
        _ if is("all segments, then all groups") => vec![a, c, b, d],
        _ if is("the second path first") => vec![c, d, a, b],
        _ => vec![a, b, c, d],
    };
    order.into_iter().flatten().flatten().copied().collect()
}

/// Leaves segments out of the index, if it has such a defect.
fn leave_out(listed: Listed, parts: &mut [Part; 2]) {
    let (first, second) = match listed {
        Listed::Mutual(first, second) => (first, second),
        Listed::Own(path) => (path, path),
    };
    let [n, m] = [first, second].map(Path::segments);
    let of_trace = |path: Path, i: usize| path.trace(i) > 0.0;
    let over = |i: usize, j: usize| {
        let pair = if matches!(listed, Listed::Own(_)) && j < i {
            [j, i]
        } else {
            [i, j]
        };
        passes_over(listed, pair.map(|index| index as u64), &is)
    };
    let own = matches!(listed, Listed::Own(_));
    let each = |i: usize, others: usize, at: usize| {
        let mut others = (0..others).filter(|j| !own || *j != i).peekable();
        let any = others.peek().is_some();
        any && others.all(|j| if at == 0 { over(i, j) } else { over(j, i) })
    };
    let kept = |at: usize, i: usize| match () {
        _ if is("segments of a trace above 0 are not in the index") => {
            !of_trace([first, second][at], i)
        }
        _ if is("segments of one trace with each other are not in the index") => {
            !each(i, [m, n][at], at)
        }
        _ => true,
    };
    for (at, part) in parts.iter_mut().enumerate() {
        let mut i = 0;
        part.segments.retain(|_| {
            i += 1;
            kept(at, i - 1)
        });
    }
}

/// The index, and what the walk finds.
pub fn found(listed: Listed, epsilon: f64) -> (Vec<f64>, Vec<[u64; 2]>, u64, u64) {
    let parts = || match listed {
        Listed::Mutual(first, second) => [first, second].map(|path| Part::new(path, epsilon)),
        Listed::Own(path) => {
            let part = Part::new(path, epsilon);
            [part.clone(), part]
        }
    };
    let used = parts();
    let (pairs, passed, of_one_trace) = walk(listed, &used);
    let index = shown(|| index(listed, &parts()));
    (index, pairs, passed, of_one_trace)
}
