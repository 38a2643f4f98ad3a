//! Paths as they are lent: any length, any number, borrowed or owned, open or closed.

use vonjekona::{
    Item, Path, Places, Refusal, Vertex, dxf_export, mutual, mutual_boxed, mutual_shared,
    self_listing,
};

use crate::inputs::{Draw, EPSILON, at};

#[test]
fn any_length() {
    let numbers = [0.0; 41];
    let none = Path::open(&[]);
    for len in 0..numbers.len() {
        let path = Path::of_numbers(&numbers[..len], false);
        for (owner, answer) in
            [(0, mutual(&path, &none, EPSILON)), (1, mutual(&none, &path, EPSILON))]
        {
            match answer {
                Ok(listing) => assert!(len % 4 == 0 && listing.looked_at() == 0),
                Err(refusal) => {
                    assert!(len % 4 != 0);
                    let expected = (6, owner, 0, Item::Length, Places::TwoPaths);
                    let Refusal { number, owner, index, item, places, .. } = refusal;
                    assert_eq!((number, owner, index, item, places), expected);
                }
            }
        }
    }
}

#[test]
fn the_most_vertices() {
    // all on one point, of one trace: every pair is skipped
    let here = vec![at(1.0, 1.0).with_trace(1.0); 4097];
    let (most, more) = (Path::closed(&here[1..]), Path::closed(&here));
    assert_eq!(self_listing(&most, EPSILON).unwrap().looked_at(), 0);
    for refusal in [
        self_listing(&more, EPSILON).unwrap_err(),
        mutual(&most, &more, EPSILON).unwrap_err(),
        mutual_boxed(&more, &most, EPSILON).unwrap_err(),
        mutual_shared(&most, &more, EPSILON, 2).unwrap_err(),
        dxf_export(&more).unwrap_err(),
    ] {
        assert_eq!((refusal.number, refusal.item), (7, Item::Length));
    }
}

#[test]
fn borrowed_and_owned_are_alike() {
    let vertices = Draw::new(8).path(20, 30, 1.0);
    let borrowed = Path::open(&vertices);
    assert_eq!(borrowed.numbers().as_ptr().cast(), vertices.as_ptr());
    let owned = Path::open(vertices.clone());
    assert_eq!(borrowed, owned);
    assert_eq!(borrowed.clone().into_owned(), owned);
    assert_eq!(Path::of_numbers(borrowed.numbers(), false), owned);
    assert_eq!(borrowed.vertices().collect::<Vec<_>>(), vertices);
    assert_ne!(Path::closed(&vertices), owned);
}

#[test]
fn open_and_closed() {
    let square = [at(0.0, 0.0), at(8.0, 0.0), at(8.0, 8.0), at(0.0, 8.0)];
    let line = Path::open(vec![at(-4.0, 4.0), at(4.0, 4.0)]);
    // only the last segment of the closed square is met
    assert!(mutual(&Path::open(&square), &line, EPSILON).unwrap().is_empty());
    let listing = mutual(&Path::closed(&square), &line, EPSILON).unwrap();
    assert_eq!(listing.iter().map(|r| (r.first, r.second)).collect::<Vec<_>>(), [(3, 0)]);
    // an open path that ends on its start meets itself there
    let mut ends = square.to_vec();
    ends.push(square[0]);
    assert_eq!(self_listing(&Path::open(&ends), EPSILON).unwrap().len(), 1);
    assert!(self_listing(&Path::closed(&square), EPSILON).unwrap().is_empty());
}

/// Every number of every vertex, made NaN or infinite in turn, is refused at its place.
#[test]
fn nan_and_infinity_are_refused_where_they_stand() {
    let vertices = Draw::new(9).path(7, 30, 0.5);
    let fine = Path::open(&vertices);
    let items = [Item::X, Item::Y, Item::Bulge, Item::Trace];
    for (k, bad) in (0..28).flat_map(|k| [(k, f64::NAN), (k, -f64::INFINITY)]) {
        let mut numbers = fine.numbers().to_vec();
        numbers[k] = bad;
        let lost = Path::of_numbers(numbers, false);
        let number = if bad.is_nan() { 11 } else { 12 };
        for (owner, refusal) in [
            (0, self_listing(&lost, EPSILON).unwrap_err()),
            (0, mutual(&lost, &fine, EPSILON).unwrap_err()),
            (1, mutual(&fine, &lost, EPSILON).unwrap_err()),
            (0, mutual(&lost, &lost, EPSILON).unwrap_err()),
        ] {
            assert_eq!((refusal.number, refusal.owner), (number, owner));
            assert_eq!((refusal.index, refusal.item), (k as u32 / 4, items[k % 4]));
        }
    }
}

/// Segments of the same trace above 0 are skipped, and not looked at.
#[test]
fn traces() {
    let cross = |first: f64, second: f64| {
        let a = [at(0.0, 0.0).with_trace(first), at(4.0, 4.0)];
        let b = [at(0.0, 4.0).with_trace(second), at(4.0, 0.0)];
        let listing = mutual(&Path::open(&a), &Path::open(&b), EPSILON).unwrap();
        (listing.len(), listing.looked_at())
    };
    assert_eq!(cross(0.0, 0.0), (1, 1));
    assert_eq!(cross(7.0, 7.0), (0, 0));
    assert_eq!(cross(255.0, 254.0), (1, 1));
    assert_eq!(cross(-0.0, 0.0), (1, 1));
    let beyond = Path::open(vec![Vertex::new(0.0, 0.0, 0.0).with_trace(256.0)]);
    assert_eq!(self_listing(&beyond, EPSILON).unwrap_err().number, 15);
}
