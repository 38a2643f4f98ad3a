//! Where do a coil and a pocket meet? Lists the two paths, prints each row, and then a refusal.
//!
//!     cargo run --example coil

use vonjekona::{Listing, Path, PlineSegIntr, Refusal, Vertex, mutual};

const EPSILON: f64 = 1.0 / 1024.0;

/// A coil of lines with rounded corners, wound inwards.
fn coil() -> Vec<Vertex> {
    // tan(pi / 8): a quarter circle
    let corner = f64::sqrt(2.0) - 1.0;
    let mut vertices = Vec::new();
    for turn in 0..3 {
        let (low, high) = (f64::from(turn) * 2.0, 20.0 - f64::from(turn) * 2.0);
        vertices.push(Vertex::new(low, low, 0.0));
        for (x, y, to_x, to_y) in [
            (high - 1.0, low, high, low + 1.0),
            (high, high - 1.0, high - 1.0, high),
            (low + 3.0, high, low + 2.0, high - 1.0),
        ] {
            vertices.push(Vertex::new(x, y, corner));
            vertices.push(Vertex::new(to_x, to_y, 0.0));
        }
    }
    vertices
}

/// A slot with two half circles for its ends.
fn pocket() -> Vec<Vertex> {
    vec![
        Vertex::new(9.0, -1.0, 0.0),
        Vertex::new(9.0, 3.0, -1.0),
        Vertex::new(11.0, 3.0, 0.0),
        Vertex::new(11.0, -1.0, -1.0),
    ]
}

fn show(listing: &Listing) {
    println!("{} pairs looked at, {} rows", listing.looked_at(), listing.len());
    for row in listing {
        let how = match row.met {
            PlineSegIntr::NoIntersect => unreachable!("no row"),
            PlineSegIntr::TangentIntersect { .. } => "touch",
            PlineSegIntr::OneIntersect { .. } => "meet once",
            PlineSegIntr::TwoIntersects { .. } => "meet twice",
            PlineSegIntr::OverlappingLines { .. } | PlineSegIntr::OverlappingArcs { .. } => {
                "overlap"
            }
        };
        let points: Vec<String> =
            row.met.points().map(|p| format!("({:.3}, {:.3})", p.x, p.y)).collect();
        println!("  segments {} and {} {how}: {}", row.first, row.second, points.join(" and "));
    }
}

fn main() -> Result<(), Refusal> {
    let (mut coil, pocket) = (coil(), pocket());
    show(&mutual(&Path::open(&coil), &Path::closed(&pocket), EPSILON)?);

    // one number is lost on its way here: the coil is refused, and not answered with "no crossing"
    coil[3].x = f64::NAN;
    match mutual(&Path::open(&coil), &Path::closed(&pocket), EPSILON) {
        Ok(listing) => show(&listing),
        Err(refusal) => println!("{refusal}"),
    }
    Ok(())
}
