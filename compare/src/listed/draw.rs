//! Layouts: random ones, and such with chosen sizes, numbers and rows.

use super::sheet::{bulge, nearest, number, of_numbers, sign, straightened, whole};
use crate::form::{Place, Sheet, BULGE, COORDINATE, MOST_VERTICES};
use crate::inputs::Vertex;
use crate::listings::draw;
use crate::listings::shapes::{crossed, on_grid};
use crate::rng::Rng;
use crate::vertex::VERTEX;

/// A way to draw a layout.
pub struct Kind {
    pub name: &'static str,
    pub draw: fn(&mut Rng) -> Sheet,
    /// Drawn once in this many rounds.
    pub rounds: u64,
    /// The refusal that must be among the answers; if none is given, a listing must be.
    pub must: Option<u64>,
}

const fn kind(name: &'static str, rounds: u64, draw: fn(&mut Rng) -> Sheet) -> Kind {
    Kind {
        name,
        draw,
        rounds,
        must: None,
    }
}

pub const KINDS: [Kind; 11] = [
    kind("the scope's own", 8, stated),
    kind("a row of each class", 1, of_each_class),
    kind("0 to 4 vertices", 1, few),
    kind("as they are cut, and others", 1, as_cut),
    kind("numbers at the limits", 1, at_limits),
    kind("on a coarse grid", 1, coarse),
    kind("any counts up to 256", 2, any_counts),
    kind("as long as can be", 4, longest),
    kind("about the epsilon", 1, about_epsilon),
    kind("a chosen number of rows", 1, chosen_rows),
    Kind {
        must: Some(5),
        ..kind("an arc of equal ends", 1, short_arc)
    },
];

/// The scope's example, and the two layouts on which the Rust and the scope's first prose differ.
fn stated(rng: &mut Rng) -> Sheet {
    match rng.below(3) {
        0 => example(),
        1 => Sheet::new(
            vec![[0, -1, 0], [-1, 1, 0]],
            vec![[0, 0, 16384], [0, -1, 0]],
        ),
        _ => Sheet::new(vec![[0, 0, 0], [1, 1, 0]], vec![[1, 0, 16384], [0, 2, 0]]),
    }
}

fn example() -> Sheet {
    Sheet::new(vec![[0, 0, 0], [4, 0, 0]], vec![[2, -2, 0], [2, 2, 0]])
}

/// A small layout, for texts that are damaged.
pub fn small(rng: &mut Rng) -> Sheet {
    match rng.below(6) {
        0 => example(),
        1 => of_each_class(rng),
        2 => at_limits(rng),
        3 => few(rng),
        4 => short_arc(rng),
        _ => {
            let size = 1 + rng.below(20) as usize;
            let path = on_grid(size, 12, rng);
            let path = straightened(whole(&path, 1.0));
            Sheet::new(path, vec![[-9, -9, 0], [9, 12, 100]])
        }
    }
}

fn of_each_class(rng: &mut Rng) -> Sheet {
    let pair = rng.pick(&draw::of_each_class());
    let size = rng.pick(&[1, 1, 3, 1000]);
    let by = [number(1000, rng), number(1000, rng)];
    let place = |vertex: Vertex| {
        let [x, y, bulge] = nearest(vertex, 1.0);
        [size * x + by[0], size * y + by[1], bulge]
    };
    Sheet::new(
        vec![place(pair.v.from), place(pair.v.to)],
        vec![place(pair.u.from), place(pair.u.to)],
    )
}

/// Few vertices; a single one has no segment.
fn few(rng: &mut Rng) -> Sheet {
    let mut path = |_| {
        let vertices = rng.below(5) as usize;
        let reach = rng.pick(&[1, 3, 100]);
        let mut next = || [number(reach, rng), number(reach, rng), bulge(rng)];
        (0..vertices).map(|_| next()).collect()
    };
    Sheet::new(path(0), path(1)).map(straightened)
}

/// Coils, meanders, pads, walks of arcs, random vertices: in whole numbers, with more or less rounding.
fn as_cut(rng: &mut Rng) -> Sheet {
    let layout = draw::draw(rng);
    let size = rng.pick(&[1.0, 2.0, 4.0, 4.0, 1000.0]);
    let path = |numbers: &[f64]| {
        let vertices = numbers.chunks_exact(VERTEX);
        let vertices = vertices.take(MOST_VERTICES as usize);
        let path: Vec<Place> = vertices
            .map(|n| of_numbers([n[0], n[1], n[2]], size))
            .collect();
        straightened(path)
    };
    Sheet::new(path(&layout.first.numbers), path(&layout.second.numbers))
}

fn at_limits(rng: &mut Rng) -> Sheet {
    let mut path = |_| {
        let vertices = rng.below(9);
        let mut near = |limit: i64| match rng.below(4) {
            0 => number(2, rng),
            1 => sign(rng) * (limit - rng.below(3) as i64),
            _ => sign(rng) * limit,
        };
        let mut next = || [near(COORDINATE), near(COORDINATE), near(BULGE)];
        (0..vertices).map(|_| next()).collect()
    };
    Sheet::new(path(0), path(1)).map(straightened)
}

/// Much touches and overlaps: there may be more rows than there is room for.
fn coarse(rng: &mut Rng) -> Sheet {
    let most = rng.pick(&[12, 24, 40, 256]);
    let reach = rng.pick(&[2, 3, 5, 12, 100]);
    let mut path = |_| {
        let vertices = 1 + rng.below(most) as usize;
        whole(&on_grid(vertices, reach, rng), 1.0)
    };
    Sheet::new(path(0), path(1)).map(straightened)
}

/// Walks of short steps over a wide sheet, which meet here and there.
fn any_counts(rng: &mut Rng) -> Sheet {
    let mut path = |_| {
        let vertices = match rng.below(4) {
            0 => MOST_VERTICES as usize - rng.below(2) as usize,
            _ => rng.below(MOST_VERTICES as u64 + 1) as usize,
        };
        let step = rng.pick(&[3, 100, 60_000]);
        let mut at = [number(step, rng), number(step, rng)];
        let mut next = || {
            at = at.map(|x| (x + number(step, rng)).clamp(-COORDINATE, COORDINATE));
            [at[0], at[1], bulge(rng)]
        };
        (0..vertices).map(|_| next()).collect()
    };
    Sheet::new(path(0), path(1)).map(straightened)
}

/// As many vertices as there may be, each number as long as it can be written: no text of the right form is longer. The paths are
/// short steps upwards beside each other, which meet here and there; now and then they are all over the place.
pub fn longest(rng: &mut Rng) -> Sheet {
    let wild = rng.one_in(4);
    let beside = rng.below(60) as i64;
    let mut path = |at: i64| {
        let mut next = |i: i64| {
            let bulge = -10_000 - rng.below(55_537) as i64;
            let x = rng.below(40) as i64;
            if wild {
                let mut any = || -1_000_000 - rng.below(48_577) as i64;
                [any(), any(), bulge]
            } else {
                [-1_040_000 + at * beside + x, -1_040_000 + 150 * i, bulge]
            }
        };
        (0..MOST_VERTICES).map(&mut next).collect()
    };
    Sheet::new(path(0), path(1)).map(straightened)
}

/// A line that ends a little more or less than the epsilon beside another line or an arc; or an arc about as flat as the epsilon,
/// and a line along its chord. Turned by quarters, in either direction.
fn about_epsilon(rng: &mut Rng) -> Sheet {
    let [first, second] = if rng.one_in(2) {
        beside_line(rng)
    } else {
        about_flat_arc(rng)
    };
    let turns = rng.below(4);
    let mut placed = |[mut from, mut to]: [Place; 2]| {
        for _ in 0..turns {
            [from, to] = [from, to].map(|[x, y, bulge]| [-y, x, bulge]);
        }
        if rng.one_in(2) {
            [from, to] = [[to[0], to[1], -from[2]], [from[0], from[1], 0]];
        }
        straightened(vec![from, to])
    };
    let (first, second) = (placed(first), placed(second));
    if rng.one_in(2) {
        Sheet::new(first, second)
    } else {
        Sheet::new(second, first)
    }
}

/// The second line ends beside the first one, at a distance of 1 / its length: the epsilon is 1/1024.
fn beside_line(rng: &mut Rng) -> [[Place; 2]; 2] {
    let long = 1024 + rng.pick(&[0, 1, 20]) * number(1, rng);
    let aside = rng.pick(&[0, 0, 1, -4]);
    let beside = [[long - 1, 1, 0], [long - 1 + aside, 5, 0]];
    [[[0, 0, 0], [long, 1, 0]], beside]
}

/// The height of an arc above its chord is half the chord times the bulge.
fn about_flat_arc(rng: &mut Rng) -> [[Place; 2]; 2] {
    let (chord, bulge) = rng.pick(&[(128, 1), (64, 2), (16, 8), (2, 64), (1024, 1), (1, 128)]);
    let chord = chord + rng.pick(&[0, 0, 1, -1]);
    let bulge = (bulge + rng.pick(&[0, 0, 1, -1])) * sign(rng);
    let other = if rng.one_in(2) {
        [[chord / 2, 0, 0], [number(5, rng), 7 * sign(rng), 0]]
    } else {
        let other = rng.pick(&[0, 0, -bulge, 2 * bulge]);
        [[number(3, rng), 0, other], [chord + number(3, rng), 0, 0]]
    };
    [[[0, 0, bulge], [chord, 0, 0]], other]
}

/// About as many rows as there is room for, or few: two meanders across each other, filled up to the most vertices or not; or
/// points or lines on each other.
fn chosen_rows(rng: &mut Rng) -> Sheet {
    match rng.below(4) {
        0 => {
            let (n, m) = rng.pick(&[(16, 32), (2, 255), (7, 73), (19, 27), (2, 128), (3, 171)]);
            let along = rng.pick(&[0, 4, 1000]);
            let path = |n: i64| (0..=n).map(|i| [i % 2 * along, 7, 0]).collect();
            Sheet::new(path(n), path(m))
        }
        _ => {
            let rows = rng.pick(&[1, 255, 256, 511, 512, 512, 513, 513, 514]);
            let across = rng.pick(&[8, 16, 17, 23]);
            let (first, second) = crossed(rows, across);
            let (mut first, mut second) = (whole(&first, 2.0), whole(&second, 2.0));
            if rng.one_in(2) {
                fill(&mut first, 1);
                fill(&mut second, 0);
            }
            let turned = |path: Vec<Place>| path.into_iter().rev().collect();
            let sheet = Sheet::new(first, second);
            // all are lines, so that no bulge goes to another vertex
            if rng.one_in(2) {
                sheet.map(turned)
            } else {
                sheet
            }
        }
    }
}

/// Continues from the last vertex, away from the other path, up to the most vertices.
fn fill(path: &mut Vec<Place>, axis: usize) {
    let mut last = path[path.len() - 1];
    let away = if last[axis] > 0 { 1 } else { -1 };
    while path.len() < MOST_VERTICES as usize {
        last[axis] += away;
        path.push(last);
    }
}

/// A vertex stands twice, the first time with an arc's bulge. Or it stands twice at the end of the path, with the bulge at the
/// last one, which is no arc.
fn short_arc(rng: &mut Rng) -> Sheet {
    let mut sheet = match rng.below(3) {
        0 => coarse(rng),
        1 => few(rng),
        _ => as_cut(rng),
    };
    let which = rng.below(2) as usize;
    let path = &mut sheet.paths[which];
    path.truncate(MOST_VERTICES as usize - 1);
    if path.is_empty() {
        path.push([5, -5, 0]);
    }
    let at = rng.below(path.len() as u64) as usize;
    let mut twice = path[at];
    twice[2] = sign(rng) * rng.pick(&[1, 16384, 27146, 65536]);
    let at = if rng.one_in(8) { path.len() } else { at };
    path.insert(at, twice);
    sheet
}
