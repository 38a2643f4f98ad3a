//! The layouts that are timed, as files for other programs: a path a file, and a line a vertex with x, y and bulge. Numbers have
//! 17 digits, so that they are read back as they were. A closed path's first vertex comes again at its end.

use std::fmt::Write;
use std::fs;
use std::path::Path;

use super::{parts, Named};
use crate::listings::layout::Drawn;
use crate::vertex::VERTEX;

/// Writes NAME.first and NAME.second of each layout. Answers how many layouts there are.
pub fn write(folder: &Path) -> Result<usize, String> {
    let mut layouts = 0;
    for Named { file, layout, .. } in parts().iter().flat_map(|part| &part.layouts) {
        for (path, end) in [(&layout.first, "first"), (&layout.second, "second")] {
            let to = folder.join(format!("{file}.{end}"));
            fs::write(&to, text(path)).map_err(|why| format!("{}: {why}", to.display()))?;
        }
        layouts += 1;
    }
    Ok(layouts)
}

/// The lines of a path.
pub fn text(path: &Drawn) -> String {
    let again = if path.closed { VERTEX } else { 0 };
    let numbers = path.numbers.iter().chain(&path.numbers[..again]);
    let numbers: Vec<f64> = numbers.copied().collect();
    let mut text = String::new();
    for v in numbers.chunks(VERTEX) {
        let [x, y, bulge] = [v[0], v[1], v[2]];
        writeln!(text, "{x:.16e} {y:.16e} {bulge:.16e}").expect("a string");
    }
    text
}
