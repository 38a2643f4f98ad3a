//! Somebody's own layouts: each text of a folder is packed, listed by the program, and compared with what the Rust answers.

use std::fs;
use std::path::Path;

use super::model::{input, of_sheet};
use super::stored::texts;
use super::verdict::{judge, Verdict};
use crate::form;
use crate::program::{Program, Way};

/// What came of the texts of a folder.
#[derive(Debug, Default, PartialEq)]
pub struct Own {
    pub same: usize,
    pub different: usize,
    pub broken: usize,
}

/// Says of each NAME.txt of the folder how the program's answer compares, one text line each.
pub fn own(folder: &Path, program: &str) -> Result<Own, String> {
    let texts = texts(folder).map_err(|why| format!("{}: {why}", folder.display()))?;
    let program = Program::new(program)?;
    let mut own = Own::default();
    for path in &texts {
        let named = |why| format!("{}: {why}", path.display());
        let text = fs::read(path).map_err(|why| named(why.to_string()))?;
        let said = match form::sheet(&text) {
            None => {
                own.broken += 1;
                "is no text of the form: pack says refused 10".to_string()
            }
            Some(sheet) => {
                let printed = program.run(&input(&sheet), Way::AtOnce).map_err(named)?;
                let expected = of_sheet(&sheet).printed();
                let first = expected.lines().next().unwrap_or_default();
                match judge(&printed.output, &expected) {
                    Verdict::Same | Verdict::SameNumbers if printed.error.is_empty() => {
                        own.same += 1;
                        format!("the same: {first}")
                    }
                    _ => {
                        own.different += 1;
                        format!("DIFFERENT: the Rust says {first}")
                    }
                }
            }
        };
        println!("{}: {said}", path.display());
    }
    Ok(own)
}
