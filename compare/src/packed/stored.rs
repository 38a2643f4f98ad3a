//! The stored packed files, for a gate without Rust: of each stored text of the form its packed form, of each other text what
//! `pack` says of it, and of each stored file that is no layout what `unpack` says of it.

use std::fs;
use std::path::{Path, PathBuf};

use super::model;

/// The folder of the packed files, in that of the texts.
const PACKED: &str = "packed";

/// How many files were written, of each sort.
#[derive(Debug, Default, PartialEq)]
pub struct Written {
    pub packed: usize,
    /// Of texts and of files that are refused.
    pub texts: usize,
    pub files: usize,
}

/// Writes packed/NAME.packed for each NAME.txt of the folder that has the form, NAME.expected for each other one, and
/// packed/NAME.expected for each packed/NAME.packed that is no layout. Fails if there are none of some sort, or if a file is left
/// over that is of none.
pub fn write(folder: &Path) -> Result<Written, String> {
    let mut written = Written::default();
    for path in files(folder, "txt")? {
        let Some(packed) = model::pack(&read(&path)?) else {
            save(&path.with_extension("expected"), b"refused 10\n")?;
            written.texts += 1;
            continue;
        };
        let to = folder.join(PACKED).join(path.file_name().expect("a file"));
        save(&to.with_extension("packed"), &packed)?;
        written.packed += 1;
    }
    for path in files(&folder.join(PACKED), "packed")? {
        match model::unpack(&read(&path)?) {
            Ok(text) => {
                let name = path.with_extension("txt");
                let of = folder.join(name.file_name().expect("a file"));
                if read(&of)? != text {
                    return Err(format!("{} is not that of the text", path.display()));
                }
            }
            Err(fault) => {
                let says = format!("refused 18 at {}\n", fault.offset);
                save(&path.with_extension("expected"), says.as_bytes())?;
                written.files += 1;
            }
        }
    }
    if [written.packed, written.texts, written.files].contains(&0) {
        return Err(format!("{}: {written:?}", folder.display()));
    }
    Ok(written)
}

fn read(path: &Path) -> Result<Vec<u8>, String> {
    fs::read(path).map_err(|why| format!("{}: {why}", path.display()))
}

fn save(path: &Path, bytes: &[u8]) -> Result<(), String> {
    fs::write(path, bytes).map_err(|why| format!("{}: {why}", path.display()))
}

/// The files of a folder with this ending, in the order of their names.
fn files(folder: &Path, ending: &str) -> Result<Vec<PathBuf>, String> {
    let named = |why| format!("{}: {why}", folder.display());
    let mut files = Vec::new();
    for entry in fs::read_dir(folder).map_err(named)? {
        let path = entry.map_err(named)?.path();
        if path.extension().is_some_and(|end| end == ending) {
            files.push(path);
        }
    }
    files.sort();
    Ok(files)
}
