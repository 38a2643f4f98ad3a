//! The tables of a search, as lines of a document.

use super::super::draw::KINDS;
use super::super::judge::WAYS;
use super::super::rules::largest;
use super::{Bands, Cell, Drawn, Report, BANDS, CLASSES, FINE, PAIRS};
use std::slice::SliceIndex;

impl Report {
    /// Prints the tables.
    pub fn print_tables(&self) {
        println!(
            "{}: how they were drawn | pairs | share a point | missed | reported without a shared point",
            self.name
        );
        for ((kind, _), d) in KINDS.iter().zip(&self.drawn) {
            println!(
                "| {kind} | {} | {} | {} | {} |",
                d.pairs, d.shared, d.missed, d.unshared
            );
        }
        let classes =
            |of: &[(f64, &'static str)]| of.iter().map(|c| c.1).collect::<Vec<_>>().join(" | ");
        let (fine, grid) = (classes(&CLASSES[..FINE]), classes(&CLASSES[FINE..]));
        println!(
            "missed of those that share a point, by the largest radius | epsilon {grid} | deepest"
        );
        self.each(|arcs, at| self.print_missed(arcs, at));
        println!("the same for finer epsilons, any radius | epsilon {fine} | deepest");
        self.each(|arcs, at| self.print_row(arcs, at, ..FINE, 0, BANDS, "any radius"));
        println!("the most roundings that a miss needed | epsilon {fine} | {grid}");
        for (pairs, most) in PAIRS.iter().zip(&self.most).skip(1) {
            println!(
                "| {pairs} | {} |",
                most.map(|c| format!("{c:.2}")).join(" | ")
            );
        }
        println!("share a point and may not be missed");
        for (pairs, free) in PAIRS.iter().zip(self.free) {
            println!("| {pairs} | {free} |");
        }
        println!("the least radius that was missed at epsilon 1/1024");
        self.each(|arcs, at| self.print_least(arcs, at));
        println!("the greatest distance that was reported at epsilon 1/1024");
        for (pairs, farthest) in PAIRS.iter().zip(&self.farthest) {
            if let Some((pair, far)) = farthest {
                println!("| {pairs} | {far:.6} | {} |", pair.written());
            }
        }
        println!("reported without a shared point, and the greatest distance | epsilon {grid}");
        for arcs in 0..PAIRS.len() {
            self.print_unshared(arcs);
        }
    }

    fn each(&self, print: impl Fn(usize, usize)) {
        for arcs in 0..PAIRS.len() {
            for at in 0..WAYS.len() {
                print(arcs, at);
            }
        }
    }

    /// Prints the sums, and answers how many answers were a refusal, a miss that may not be, or at too large a distance.
    pub fn print(&self) -> u64 {
        let sum = |f: fn(&Drawn) -> u64| self.drawn.iter().map(f).sum::<u64>();
        println!(
            "{}: {} pairs with arcs judged, {} share a point, {} missed by up to {:.2} and {:.2} roundings, \
             {} reported without a shared point; {} beyond what the search allows",
            self.name,
            sum(|d| d.pairs),
            sum(|d| d.shared),
            sum(|d| d.missed),
            self.most[1][FINE..].iter().fold(0.0, |a: f64, &b| a.max(b)),
            self.most[2][FINE..].iter().fold(0.0, |a: f64, &b| a.max(b)),
            sum(|d| d.unshared),
            self.broken
        );
        self.broken
    }

    /// A row for all radii below the first miss, and one for each band from there on.
    fn print_missed(&self, arcs: usize, at: usize) {
        let missed = |band: usize| {
            self.cells[arcs][at][FINE..]
                .iter()
                .any(|class| class[band].missed > 0)
        };
        let first = (0..BANDS).find(|&band| missed(band)).unwrap_or(BANDS);
        self.print_row(arcs, at, FINE.., 0, first, &format!("below 2^{first}"));
        for band in first..BANDS {
            self.print_row(arcs, at, FINE.., band, band + 1, &format!("2^{band}"));
        }
    }

    fn print_row(
        &self,
        arcs: usize,
        at: usize,
        classes: impl SliceIndex<[Bands], Output = [Bands]>,
        low: usize,
        high: usize,
        name: &str,
    ) {
        let cells: Vec<&[Cell]> = self.cells[arcs][at][classes]
            .iter()
            .map(|class| &class[low..high])
            .collect();
        let sum = |of: &[Cell], f: fn(&Cell) -> u64| of.iter().map(f).sum::<u64>();
        let shown = cells
            .iter()
            .map(|of| format!("{} of {}", sum(of, |c| c.missed), sum(of, |c| c.shared)));
        let shown = shown.collect::<Vec<_>>().join(" | ");
        let deepest = cells
            .iter()
            .flat_map(|of| of.iter())
            .map(|c| c.deepest)
            .fold(0.0, f64::max);
        if cells.iter().any(|of| sum(of, |c| c.shared) > 0) {
            println!(
                "| {}, {}, {name} | {shown} | {deepest:.1} |",
                PAIRS[arcs], WAYS[at].1
            );
        }
    }

    fn print_least(&self, arcs: usize, at: usize) {
        if let Some(pair) = self.least[arcs][at] {
            println!(
                "| {}, {} | {:.0} | {} |",
                PAIRS[arcs],
                WAYS[at].1,
                largest(&pair),
                pair.written()
            );
        }
    }

    fn print_unshared(&self, arcs: usize) {
        for band in 0..BANDS {
            let cells: Vec<Cell> = self.cells[arcs][0][FINE..]
                .iter()
                .map(|class| class[band])
                .collect();
            if cells.iter().any(|c| c.unshared > 0) {
                let shown = cells.iter().map(|c| {
                    format!(
                        "{}: {:.4}, {:.3} epsilons",
                        c.unshared, c.farthest, c.epsilons
                    )
                });
                println!(
                    "| {}, 2^{band} | {} |",
                    PAIRS[arcs],
                    shown.collect::<Vec<_>>().join(" | ")
                );
            }
        }
    }
}
