//! Drawings: the body of one LWPOLYLINE entity of a DXF file.

use crate::ffi;
use crate::path::Path;
use crate::refusal::{Places, Refusal};

/// The numbers of the most vertices that a path has: an import needs no more room.
const MOST_NUMBERS: usize = 4 * 4096;

pub(crate) fn import(large: bool, text: &[u8]) -> Result<Path<'static>, Refusal> {
    let mut numbers = vec![0.0; MOST_NUMBERS];
    let mut told = [0; 2];
    let word = ffi::import(large, text, &mut numbers, &mut told);
    Refusal::check(Places::Drawing, large, word)?;
    numbers.truncate(4 * told[0] as usize);
    Ok(Path::of_numbers(numbers, told[1] == 1))
}

pub(crate) fn export(large: bool, path: &Path) -> Result<String, Refusal> {
    // the header's bound, `VJ_DXF_BYTES` or `VJ_DXF_BYTES_LARGE`; beyond the most vertices there
    // is no text
    let vertices = path.numbers().len().min(MOST_NUMBERS) / 4;
    let mut text = vec![0; 13 + if large { 52 } else { 51 } * vertices];
    let mut told = [0; 1];
    let word = ffi::export(large, path, &mut text, &mut told);
    Refusal::check(Places::Drawing, large, word)?;
    text.truncate(told[0] as usize);
    Ok(String::from_utf8(text).expect("an export writes digits, points, minuses and newlines"))
}

/// The path of a drawing: reads the body of one LWPOLYLINE entity. Every trace is 0.
///
/// The body is all that stands between the entity's name and the next entity;
/// `tools/dxf_body.py` of the repository takes one out of a file. Nothing is rounded: a number of
/// more than six digits behind the point is refused. The call needs some 129 KiB of stack.
///
/// # Errors
/// A refusal, if the text or the path is at fault: 20, 21, 22, 7, 2, 3 or 5.
///
/// ```
/// use vonjekona::{Vertex, dxf_import};
/// let body = "90\n2\n70\n0\n10\n0.5\n20\n-1\n42\n1\n10\n4\n20\n0\n";
/// let path = dxf_import(body)?;
/// assert!(!path.is_closed());
/// let vertices: Vec<Vertex> = path.vertices().collect();
/// assert_eq!(vertices, [Vertex::new(0.5, -1.0, 1.0), Vertex::new(4.0, 0.0, 0.0)]);
///
/// let refusal = dxf_import("90\n1\n70\n0\n10\n0.1234567\n").unwrap_err();
/// assert_eq!(refusal.to_string(), "refused 20: line 6 of the text has a bad code or number");
/// # Ok::<(), vonjekona::Refusal>(())
/// ```
pub fn dxf_import(body: impl AsRef<[u8]>) -> Result<Path<'static>, Refusal> {
    import(false, body.as_ref())
}

/// A path as a drawing's body. Traces are checked and not written.
///
/// An import of it gives the same x, y, bulges and flag, bit for bit. Nothing is rounded: a number
/// that six digits behind the point do not spell is refused.
///
/// # Errors
/// A refusal, if the path is at fault, or a number has no such text: 6, 7, 11, 12, 2, 3, 15, 5
/// or 23.
///
/// ```
/// use vonjekona::{Path, Vertex, dxf_export, dxf_import};
/// let path = Path::closed(vec![Vertex::new(0.1, 0.0, 0.5), Vertex::new(4.0, -2.5, 0.0)]);
/// assert_eq!(dxf_import(dxf_export(&path)?)?, path);
///
/// let third = Path::open(vec![Vertex::new(1.0 / 3.0, 0.0, 0.0)]);
/// let refusal = dxf_export(&third).unwrap_err();
/// let words = "refused 23: x of vertex 0 of the path is no number that six digits spell";
/// assert_eq!(refusal.to_string(), words);
/// # Ok::<(), vonjekona::Refusal>(())
/// ```
pub fn dxf_export(path: &Path) -> Result<String, Refusal> {
    export(false, path)
}
