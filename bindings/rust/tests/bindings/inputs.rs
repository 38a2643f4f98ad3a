//! Paths that several tests list.

use vonjekona::{AnyRow, Path, PlineVertex, Rows, Vertex};

pub const EPSILON: f64 = 1.0 / 1024.0;

/// The end of a line.
pub fn at(x: f64, y: f64) -> Vertex {
    Vertex::new(x, y, 0.0)
}

/// A vertex of a pair.
pub fn pv(x: f64, y: f64, bulge: f64) -> PlineVertex {
    PlineVertex::new(x, y, bulge)
}

/// Numbers that look random and are the same in every run.
pub struct Draw(u64);

impl Draw {
    pub fn new(seed: u64) -> Self {
        Draw(seed)
    }

    /// One of 0 to n - 1.
    pub fn below(&mut self, n: u64) -> u64 {
        self.0 = self.0.wrapping_mul(6364136223846793005).wrapping_add(1442695040888963407);
        (self.0 >> 33) % n
    }

    /// A whole number from -n to n.
    pub fn about(&mut self, n: u64) -> f64 {
        self.below(2 * n + 1) as f64 - n as f64
    }

    /// Lines and arcs on whole points up to `size`, of traces 0 to 3. Arcs have bulges in 64ths up
    /// to `bulge`, and no vertex is where the one before is.
    pub fn path(&mut self, vertices: usize, size: u64, bulge: f64) -> Vec<Vertex> {
        let mut path: Vec<Vertex> = Vec::new();
        while path.len() < vertices {
            let mut v = at(self.about(size), self.about(size)).with_trace(self.below(4) as f64);
            if self.below(2) == 0 {
                v.bulge = self.about(64) / 64.0 * bulge;
            }
            let same = |old: &Vertex| (old.x, old.y) == (v.x, v.y);
            if !path.first().is_some_and(same) && !path.last().is_some_and(same) {
                path.push(v);
            }
        }
        path
    }
}

/// Two zigzags of n segments each, all of which cross: n * n rows.
pub fn dense(n: usize) -> (Path<'static>, Path<'static>) {
    let side = |i: usize| if i % 2 == 0 { -10.0 } else { 10_000.0 };
    let across = (0..=n).map(|i| at(side(i), i as f64)).collect::<Vec<_>>();
    let up = (0..=n).map(|i| at(i as f64, side(i))).collect::<Vec<_>>();
    (Path::open(across), Path::open(up))
}

/// Whether rows are the same in every bit.
pub fn same_bits<R: AnyRow>(one: &Rows<R>, other: &Rows<R>) -> bool {
    one.indices() == other.indices()
        && one.points().iter().map(|n| n.to_bits()).eq(other.points().iter().map(|n| n.to_bits()))
}
