//! What a file holds: one path or two, in one of four forms. The suffix tells the form; if it is none of the four, the bytes do.

use super::numbers;
use super::words;
use crate::capi::vj_dxf_import;
use crate::dxf::model::{import, unchecked, Mode, MOST_VERTICES};
use crate::form::{self, Sheet};
use crate::listings::layout::Drawn;
use crate::packed::model as packed;
use crate::vertex::VERTEX;

#[derive(Clone, Copy, Debug, PartialEq)]
enum Form {
    Text,
    Packed,
    Body,
    Numbers,
}

/// A path is listed with itself, two with one another.
#[derive(Debug)]
pub enum Held {
    Paths(Vec<Drawn>),
    Refused(Refused),
}

/// A file that is refused before anything is listed.
#[derive(Debug)]
pub struct Refused {
    /// The number and the place, in words.
    pub said: String,
    /// What a body would hold if it were not checked.
    pub paths: Option<Vec<Drawn>>,
    /// What is wrong with the refusal itself, if anything.
    pub wrong: Option<String>,
}

/// The name of the form, and what the file holds; or why it cannot be read.
pub fn held(name: &str, bytes: &[u8], closed: bool) -> Result<(&'static str, Held), String> {
    let form = by_suffix(name).or_else(|| by_bytes(bytes));
    let form = form.ok_or("neither a text, a packed file, a body nor numbers")?;
    let of_sheet = |sheet: Sheet| {
        Held::Paths(
            sheet
                .paths
                .map(|path| drawn(packed::floats(&path), closed))
                .into(),
        )
    };
    Ok(match form {
        Form::Text => ("text", form::sheet(bytes).map_or_else(no_text, of_sheet)),
        Form::Packed => (
            "packed",
            packed::sheet(bytes).map_or_else(no_layout, of_sheet),
        ),
        Form::Body => ("body", of_body(bytes)),
        Form::Numbers => {
            let paths = numbers::paths(bytes)?.into_iter();
            let paths = paths.map(|path| drawn(path, closed)).collect();
            ("numbers", Held::Paths(paths))
        }
    })
}

fn drawn(numbers: Vec<f64>, closed: bool) -> Drawn {
    Drawn { numbers, closed }
}

fn by_suffix(name: &str) -> Option<Form> {
    const SUFFIXES: [(&str, Form); 4] = [
        (".txt", Form::Text),
        (".packed", Form::Packed),
        (".body", Form::Body),
        (".numbers", Form::Numbers),
    ];
    let suffix = SUFFIXES.iter().find(|(suffix, _)| name.ends_with(suffix));
    suffix.map(|(_, form)| *form)
}

/// Few packed files are also of another form, so this one comes last.
fn by_bytes(bytes: &[u8]) -> Option<Form> {
    match () {
        _ if form::sheet(bytes).is_some() => Some(Form::Text),
        _ if unchecked(bytes).is_some() => Some(Form::Body),
        _ if numbers::paths(bytes).is_ok() => Some(Form::Numbers),
        _ if packed::sheet(bytes).is_ok() => Some(Form::Packed),
        _ => None,
    }
}

fn refused(said: String) -> Held {
    Held::Refused(Refused {
        said,
        paths: None,
        wrong: None,
    })
}

fn no_text() -> Held {
    refused(format!("10: {}", words::reason(10)))
}

fn no_layout(fault: packed::Fault) -> Held {
    refused(format!("18: byte {}: {}", fault.offset, words::reason(18)))
}

/// Our call reads the body; its word is held to the one that the request's words give.
fn of_body(bytes: &[u8]) -> Held {
    let (mut path, mut told) = (vec![0.0; VERTEX * MOST_VERTICES], [0; 2]);
    let word = vj_dxf_import(bytes, &mut path, &mut told);
    let expected = import(bytes, Mode::Half).map_or_else(|fault| fault.word(), |_| 0);
    if word == 0 && expected == 0 {
        path.truncate(VERTEX * told[0] as usize);
        return Held::Paths(vec![drawn(path, told[1] == 1)]);
    }
    let paths = unchecked(bytes).map(|body| vec![drawn(body.path(), body.closed)]);
    let wrong = (word != expected).then(|| {
        let said = |word| words::answer(word, 1);
        format!("the import: {}; expected: {}", said(word), said(expected))
    });
    let told = if expected == 0 { word } else { expected };
    Held::Refused(Refused {
        said: words::refusal(told, 1),
        paths,
        wrong,
    })
}
