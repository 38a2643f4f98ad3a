//! The stored layouts: texts, and for each the whole output that the model gives once the text is packed, for a gate without
//! Rust.

use std::collections::BTreeSet;
use std::fs;
use std::path::{Path, PathBuf};

use super::model::{of_sheet, CLASSES};
use crate::form;

/// The refusals that a layout can get.
const REFUSALS: [u64; 2] = [5, 8];

/// Writes NAME.out for each NAME.txt of the folder that has the form, and answers how many there are. Fails if some class has no
/// row in any layout, or if some refusal that a layout can get never comes up.
pub fn write(folder: &Path) -> Result<usize, String> {
    let texts = texts(folder).map_err(|why| format!("{}: {why}", folder.display()))?;
    let mut classes = BTreeSet::new();
    let mut refusals = BTreeSet::new();
    let mut written = 0;
    for path in &texts {
        let named = |why| format!("{}: {why}", path.display());
        let Some(sheet) = form::sheet(&fs::read(path).map_err(named)?) else {
            continue;
        };
        written += 1;
        let answer = of_sheet(&sheet);
        fs::write(path.with_extension("out"), answer.printed()).map_err(named)?;
        match answer.refused() {
            Some(number) => {
                refusals.insert(number);
            }
            None => classes.extend(answer.rows().iter().map(|row| row.class as usize)),
        }
    }
    if let Some(class) = (1..CLASSES.len()).find(|class| !classes.contains(class)) {
        return Err(format!("no layout has a row of class {}", CLASSES[class]));
    }
    if let Some(number) = REFUSALS.iter().find(|number| !refusals.contains(number)) {
        return Err(format!("no layout is refused by {number}"));
    }
    Ok(written)
}

/// In the order of their names.
pub fn texts(folder: &Path) -> std::io::Result<Vec<PathBuf>> {
    let mut texts = Vec::new();
    for entry in fs::read_dir(folder)? {
        let path = entry?.path();
        if path.extension().is_some_and(|end| end == "txt") {
            texts.push(path);
        }
    }
    texts.sort();
    Ok(texts)
}
