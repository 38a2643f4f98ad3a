//! The stored layouts as lent numbers: the paths of each text of the right form, and the float rows of each answer.

use std::fs;
use std::path::{Path, PathBuf};

use super::model::ROW;
use crate::vertex::VERTEX;

/// Bulges in a text are in units of 1 / this.
const BULGE: f64 = 65_536.0;
/// A text has x, y and bulge of a vertex.
const IN_A_TEXT: usize = 3;

#[derive(Default)]
pub struct Stored {
    pub paths: Vec<Vec<f64>>,
    pub rows: Vec<Vec<f64>>,
}

/// Both paths of each text of the folder, in the order of their names, and the rows of each answer. A refused text has none.
pub fn read(folder: &Path) -> Result<Stored, String> {
    let mut found = Stored::default();
    for file in files(folder).map_err(|why| format!("{}: {why}", folder.display()))? {
        let text = fs::read(&file).map_err(|why| format!("{}: {why}", file.display()))?;
        let text = String::from_utf8_lossy(&text);
        match file.extension().and_then(|end| end.to_str()) {
            Some("txt") => found.paths.extend(paths(&text).into_iter().flatten()),
            Some("out") => found.rows.extend(rows(&text)),
            _ => {}
        }
    }
    Ok(found)
}

fn files(folder: &Path) -> std::io::Result<Vec<PathBuf>> {
    let mut files = Vec::new();
    for entry in fs::read_dir(folder)? {
        files.push(entry?.path());
    }
    // packed layouts have a folder of their own
    files.retain(|file| file.is_file());
    files.sort();
    Ok(files)
}

/// The two paths, if the text is two counts and as many whole numbers as they say. Nothing else of the text matters here. A text
/// has no traces: they are counted.
fn paths(text: &str) -> Option<[Vec<f64>; 2]> {
    let words = text.split_whitespace();
    let numbers: Option<Vec<i32>> = words.map(|word| word.parse().ok()).collect();
    let numbers = numbers?;
    let (counts, places) = numbers.split_at_checked(2)?;
    let first = usize::try_from(counts[0]).ok()? * IN_A_TEXT;
    let second = usize::try_from(counts[1]).ok()? * IN_A_TEXT;
    if places.len() != first + second {
        return None;
    }
    let vertex = |v: &[i32], trace: usize| -> [f64; VERTEX] {
        let [x, y, bulge] = [v[0], v[1], v[2]].map(f64::from);
        [x, y, bulge / BULGE, trace as f64]
    };
    // each trace another than the next one's, so that a segment's is seen
    let path = |places: &[i32]| {
        let vertices = places.chunks_exact(IN_A_TEXT).enumerate();
        vertices.flat_map(|(i, v)| vertex(v, i % 256)).collect()
    };
    Some([path(&places[..first]), path(&places[first..])])
}

/// The points of each line after the first, with +0 for those that the class lacks; nothing for a refusal.
fn rows(answer: &str) -> Option<Vec<f64>> {
    if answer.starts_with("refused") {
        return None;
    }
    let row = |line: &str| -> [f64; ROW] {
        let mut points = [0.0; ROW];
        for (point, word) in points.iter_mut().zip(line.split(' ').skip(3)) {
            *point = u64::from_str_radix(word, 16).map_or(f64::NAN, f64::from_bits);
        }
        points
    };
    Some(answer.lines().skip(1).flat_map(row).collect())
}

#[cfg(test)]
mod tests {
    use super::*;

    #[test]
    fn paths_of_texts() {
        let two = paths("2 1\n0 -3 32768\n4 0 0\n1 2 -65536\n").unwrap();
        assert_eq!(
            two,
            [
                vec![0.0, -3.0, 0.5, 0.0, 4.0, 0.0, 0.0, 1.0],
                vec![1.0, 2.0, -1.0, 0.0]
            ]
        );
        assert_eq!(paths("0 0\n"), Some([vec![], vec![]]));
        for broken in [
            "",
            "1",
            "1 0\n0 0\n",
            "0 1\n0 0 0 0\n",
            "-1 0\n",
            "1 0\n0 x 0\n",
        ] {
            assert_eq!(paths(broken), None, "{broken}");
        }
    }

    #[test]
    fn rows_of_answers() {
        let answer = "pairs 2 rows 2\n0 0 one 4000000000000000 8000000000000000\n\
                      0 1 two 3ff0000000000000 0000000000000000 bff0000000000000 4008000000000000\n";
        let expected = [2.0, -0.0, 0.0, 0.0, 1.0, 0.0, -1.0, 3.0];
        assert_eq!(rows(answer).unwrap(), expected);
        assert_eq!(rows("pairs 0 rows 0\n"), Some(vec![]));
        assert_eq!(rows("refused 8\n"), None);
    }
}
