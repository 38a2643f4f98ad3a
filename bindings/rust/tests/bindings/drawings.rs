//! Drawings: round trips, other programs' bodies, damage.

use std::fs;
use std::path::PathBuf;

use vonjekona::{Item, Path, Places, Vertex, dxf_export, dxf_import, large};

use crate::inputs::{Draw, at};

#[test]
fn an_export_comes_back() {
    let mut draw = Draw::new(15);
    for size in [0, 1, 2, 50, 4096] {
        let mut vertices = draw.path(size, 1_048_576, 1.0);
        vertices.iter_mut().for_each(|v| v.trace = 0.0);
        // 64ths have six digits, and no zero has a minus
        vertices.iter_mut().for_each(|v| v.bulge = (v.bulge * 64.0).round() / 64.0 + 0.0);
        let path = Path::new(&vertices, size % 4 == 2);
        let text = dxf_export(&path).unwrap();
        assert!(text.len() <= 13 + 51 * size);
        let back = dxf_import(&text).unwrap();
        assert_eq!(back.is_closed(), path.is_closed());
        let bits = |p: &Path| p.numbers().iter().map(|n| n.to_bits()).collect::<Vec<_>>();
        assert_eq!(bits(&back), bits(&path));
        assert_eq!(large::dxf_export(&path).unwrap(), text);
        assert_eq!(large::dxf_import(text.as_bytes()).unwrap(), path);
    }
}

#[test]
fn the_longest_numbers_fit() {
    let corner = Vertex::new(-1_048_575.999_999, -1_048_575.999_999, -0.999_999);
    let path = Path::open(vec![corner, at(0.0, 0.0), corner, at(1.0, 0.0)]);
    assert_eq!(dxf_import(dxf_export(&path).unwrap()).unwrap(), path);
    let wide = Path::open(vec![Vertex::new(0.0, 0.0, -15.999_999), at(8.0, 0.0)]);
    assert_eq!(large::dxf_import(large::dxf_export(&wide).unwrap()).unwrap(), wide);
    assert_eq!(dxf_export(&wide).unwrap_err().number, 3);
}

#[test]
fn what_six_digits_do_not_spell() {
    for (k, item) in [Item::X, Item::Y, Item::Bulge].into_iter().enumerate() {
        for bad in [1.0 / 128.0, -0.0, 0.1 + 0.2] {
            let mut numbers = [0.0, 1.0, 0.5, 3.0, 4.0, 4.0, 0.5, 3.0];
            numbers[4 + k] = bad;
            let refusal = dxf_export(&Path::of_numbers(&numbers, false)).unwrap_err();
            assert_eq!((refusal.number, refusal.index, refusal.item), (23, 1, item));
        }
    }
    // a trace is checked and not written
    let traced = [at(0.0, 1.0).with_trace(9.0)];
    let text = dxf_export(&Path::open(&traced)).unwrap();
    assert_eq!(dxf_import(text).unwrap().numbers(), [0.0, 1.0, 0.0, 0.0]);
    let beyond = [at(0.0, 1.0).with_trace(0.5)];
    assert_eq!(dxf_export(&Path::open(&beyond)).unwrap_err().number, 15);
}

/// The bodies of the repository's drawings, which ezdxf and LibreCAD wrote.
#[test]
fn drawings_of_other_programs() {
    let folder = PathBuf::from(env!("CARGO_MANIFEST_DIR")).join("../../drawings");
    let (mut read, mut refused) = (0, 0);
    for entry in fs::read_dir(folder).expect("the repository's drawings") {
        let body = entry.unwrap().path();
        if body.extension().is_none_or(|e| e != "body") {
            continue;
        }
        let expected = fs::read_to_string(body.with_extension("expected")).unwrap();
        let answer = match dxf_import(fs::read(&body).unwrap()) {
            Ok(path) => {
                read += 1;
                let closed = u8::from(path.is_closed());
                let mut lines = vec![format!("vertices {} closed {closed}", path.vertices().len())];
                lines.extend(path.vertices().map(|v| {
                    let [x, y, bulge] = [v.x, v.y, v.bulge].map(f64::to_bits);
                    format!("{x:016x} {y:016x} {bulge:016x}")
                }));
                lines.join("\n") + "\n"
            }
            Err(refusal) => {
                refused += 1;
                format!("refused {} at line {}\n", refusal.number, refusal.index)
            }
        };
        assert_eq!(answer, expected, "{}", body.display());
    }
    assert!(read >= 10 && refused >= 5, "{read} read, {refused} refused");
}

/// Bodies that are cut off, or have one byte changed: each is read or refused, with a place.
#[test]
fn damage() {
    let path = Path::closed(vec![Vertex::new(0.0, -1.5, 0.5), at(4.0, 0.25), at(-7.0, 12.0)]);
    let text = dxf_export(&path).unwrap().into_bytes();
    let lines = text.iter().filter(|&&b| b == b'\n').count() as u32;
    let (mut read, mut numbers) = (0, [0; 32]);
    let mut look = |bytes: &[u8]| match dxf_import(bytes) {
        Ok(_) => read += 1,
        Err(refusal) => {
            numbers[usize::from(refusal.number)] += 1;
            assert_eq!((refusal.places, refusal.owner), (Places::Drawing, 0));
            let most = if refusal.item == Item::Line { lines + 2 } else { 2 };
            assert!(refusal.index <= most, "{refusal}");
            assert!(refusal.to_string().starts_with(&format!("refused {}: ", refusal.number)));
        }
    };
    let mut whole = 0;
    for end in 0..text.len() {
        look(&text[..end]);
        whole += usize::from(dxf_import(&text[..end]).is_ok());
    }
    // the last bulge may be missing
    assert_eq!(whole, 1);
    for at in 0..text.len() {
        for byte in [b'\n', b'\r', b' ', b'-', b'.', b'0', b'1', b'9', 0, 0xff] {
            let mut bytes = text.clone();
            bytes[at] = byte;
            look(&bytes);
            bytes.remove(at);
            look(&bytes);
        }
    }
    assert!(read > 50, "{read} read");
    for number in [20, 21, 22] {
        assert!(numbers[number] > 5, "{number}: {}", numbers[number]);
    }
}
