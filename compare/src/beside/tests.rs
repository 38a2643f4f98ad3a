use super::*;
use crate::capi::Rows;
use crate::listings::model::Listed;

const TEXT: &[u8] = b"2 2\n0 0 0\n4 0 0\n2 -2 0\n2 2 0\n";
const NAN: &[u8] = include_bytes!("../../accident/pocket_nan.numbers");
const RIGHT: &[u8] = include_bytes!("../../accident/pocket_right.numbers");
/// A fold: a self listing has one row.
const BODY: &[u8] = b"90\n3\n70\n0\n10\n0\n20\n0\n10\n10\n20\n0\n10\n5\n20\n0\n";

const OPTIONS: Options = Options {
    epsilon: EPSILON,
    closed: false,
};

fn of(files: &[(&str, &[u8])], ours: Ours) -> (String, u8) {
    let files = files.iter();
    let read = files.map(|(name, bytes)| (name.to_string(), Ok(bytes.to_vec())));
    of_files(read, OPTIONS, ours)
}

/// What is said of one file.
fn one(name: &str, bytes: &[u8]) -> Beside {
    of_file(name, bytes, OPTIONS, layout::ours)
        .expect("it is read")
        .1
}

fn packed(text: &[u8]) -> Vec<u8> {
    crate::packed::model::pack(text).expect("it is of the form")
}

/// The library's listing, and then a change to it.
fn changed(listed: Listed, epsilon: f64, rows: Rows, change: fn(&mut Rows)) -> u64 {
    let Rows {
        indices,
        points,
        counts,
    } = rows;
    let mut rows = Rows {
        indices,
        points,
        counts,
    };
    let lent = Rows {
        indices: rows.indices,
        points: rows.points,
        counts: rows.counts,
    };
    let word = layout::ours(listed, epsilon, lent);
    if word == 0 {
        change(&mut rows);
    }
    word
}

#[test]
fn equal_files_in_each_form() {
    let packed = packed(TEXT);
    let numbers: &[u8] = b"0 0 0\n4 0 0\n\n2 -2 0\n2 2 0\n";
    let files: [(&str, &[u8]); 4] = [
        ("a.txt", TEXT),
        ("a.packed", &packed),
        ("a.numbers", numbers),
        ("fold.body", BODY),
    ];
    let (printed, status) = of(&files, layout::ours);
    let expected = "\
file       form     pairs  rows  equal  different  refused
a.txt      text         1     1      1          0  -
a.packed   packed       1     1      1          0  -
a.numbers  numbers      1     1      1          0  -
fold.body  body         1     1      1          0  -
files 4: equal 4, different 0, refused 0, not read 0
";
    assert_eq!(printed, expected);
    assert_eq!(status, SAME);
    // the bytes tell the form if the suffix does not
    for (name, bytes) in files {
        let form = of_file("layout", bytes, OPTIONS, layout::ours)
            .expect("it is read")
            .0;
        assert!(
            form == name.split('.').nth(1).unwrap() || form == "text",
            "{name}: {form}"
        );
    }
}

/// Each defect of our listing is a difference, and so status 1.
#[test]
fn wrong_answers_are_differences() {
    let lattice: &[u8] = b"0 0 0\n0 9 0\n1 9 0\n1 0 0\n\n-1 2 0\n5 2 0\n5 3 0\n-1 3 0\n";
    let defects: [(Ours, usize, usize); 7] = [
        // a row is dropped
        (|l, e, r| changed(l, e, r, |r| r.counts[0] -= 1), 3, 1),
        // the second one twice: two have no row of ours, and one of ours is left over
        (
            |l, e, r| changed(l, e, r, |r| r.indices.copy_within(3..6, 0)),
            2,
            3,
        ),
        // a class
        (|l, e, r| changed(l, e, r, |r| r.indices[2] = 1), 3, 1),
        // a coordinate, by its last bit
        (
            |l, e, r| changed(l, e, r, |r| r.points[5] = r.points[5].next_up()),
            3,
            1,
        ),
        // a number that is not used
        (|l, e, r| changed(l, e, r, |r| r.points[3] = 1.0), 3, 1),
        // the pairs
        (|l, e, r| changed(l, e, r, |r| r.counts[1] += 1), 4, 1),
        // a refusal of what is fine
        (|_, _, _| 0x10b, 0, 4),
    ];
    assert_eq!(of(&[("a.numbers", lattice)], layout::ours).1, SAME);
    for (at, (ours, equal, different)) in defects.into_iter().enumerate() {
        let beside = of_file("a.numbers", lattice, OPTIONS, ours)
            .expect("it is read")
            .1;
        assert_eq!(
            (beside.equal, beside.different),
            (equal, different),
            "defect {at}"
        );
        assert!(!beside.notes.is_empty(), "defect {at}");
        let (printed, status) = of(&[("a.numbers", lattice)], ours);
        assert_eq!(status, DIFFERENT, "defect {at}");
        assert!(printed.ends_with("files 1: equal 0, different 1, refused 0, not read 0\n"));
    }
}

/// A row that only ours has: it is asked again with more room.
#[test]
fn rows_of_ours_only_are_differences() {
    fn ours(_: Listed, _: f64, rows: Rows) -> u64 {
        if rows.indices.len() < 3 {
            return 0x9_0108;
        }
        rows.indices[..3].copy_from_slice(&[0, 0, 2]);
        rows.counts.copy_from_slice(&[1, 1]);
        0
    }
    let apart: &[u8] = b"0 0 0\n4 0 0\n\n0 5 0\n4 5 0\n";
    let beside = of_file("a.numbers", apart, OPTIONS, ours)
        .expect("it is read")
        .1;
    assert_eq!((beside.rows, beside.equal, beside.different), (0, 0, 1));
}

/// The old check lost the crossings with the vertex; ours refuses it by its place.
#[test]
fn the_accident() {
    let right = one("pocket_right.numbers", RIGHT);
    assert_eq!((right.rows, right.equal, right.different), (4, 4, 0));
    let (printed, status) = of(&[("nan.numbers", NAN)], layout::ours);
    let expected = "\
file         form     pairs  rows  equal  different  refused
nan.numbers  numbers      -     -      -          -  11: second path, vertex 3, x: NaN
    the Rust text, which checks no number: no crossing, pairs 200 rows 0
    ours: refused 11: second path, vertex 3, x: NaN
files 1: equal 0, different 0, refused 1, not read 0
";
    assert_eq!(printed, expected);
    assert_eq!(status, SAME);
    // it must be refused, with this place
    let wrong: [Ours; 2] = [|_, _, _| 0, |_, _, _| 0x2_0101_010b];
    for ours in wrong {
        assert_eq!(of(&[("nan.numbers", NAN)], ours).1, DIFFERENT);
    }
}

/// A NaN in the place of any number is refused there, whatever the Rust text makes of it.
#[test]
fn each_number_lost() {
    let paths = numbers::paths(RIGHT).expect("it is of the form");
    for (path, at) in [(0, 41), (1, 6)]
        .into_iter()
        .flat_map(|(p, n)| (0..4 * n).map(move |at| (p, at)))
    {
        let mut paths = paths.clone();
        paths[path][at] = f64::from_bits(0xfff0_0000_0000_0001);
        let spelt = |path: &Vec<f64>| -> String {
            let line = |v: &[f64]| {
                v.iter()
                    .map(|x| format!("0x{:016x} ", x.to_bits()))
                    .collect::<String>()
                    + "\n"
            };
            path.chunks(4).map(line).collect()
        };
        let text = paths.iter().map(spelt).collect::<Vec<_>>().join("\n");
        let beside = one("a.numbers", text.as_bytes());
        let whose = ["first", "second"][path];
        let item = ["x", "y", "bulge", "trace"][at % 4];
        let said = format!("11: {whose} path, vertex {}, {item}: NaN", at / 4);
        assert_eq!(beside.refused, Some(said));
        assert_eq!(beside.different, 0);
    }
}

#[test]
fn refusals_in_words() {
    let said = |name, bytes: &[u8]| one(name, bytes).refused.expect("it is refused");
    assert_eq!(
        said("a.txt", b"2 2\n0 0 0\n"),
        "10: the text breaks its form"
    );
    assert_eq!(
        said("a.packed", &[1, 0, 0x80]),
        "18: byte 2: the packed file breaks its form"
    );
    assert_eq!(
        said("a.body", b"90\n1\n70\n0\n10\nx\n"),
        "20: line 6: a bad code or number"
    );
    assert_eq!(
        said("a.body", b"90\n1\n10\n0\n"),
        "21: line 3: a group out of place or missing"
    );
    let large: &[u8] = b"90\n2\n70\n1\n10\n0\n20\n0\n42\n1.5\n10\n1\n20\n0\n";
    assert_eq!(
        said("a.body", large),
        "3: vertex 0, bulge: above 1 in magnitude"
    );
    assert_eq!(
        said("a.numbers", b"0 0 -inf\n1 1 0\n"),
        "12: vertex 0, bulge: infinite"
    );
    assert_eq!(
        said("a.numbers", b"0 0 0\n2e6 0 0\n\n1 1 0\n"),
        "2: first path, vertex 1, x: above 1,048,576 in magnitude"
    );
    assert_eq!(
        said("a.numbers", b"0 0 0\n\n1 1 0.5\n1 1 0\n"),
        "5: second path, segment 0, chord: shorter than 2^-40, of an arc"
    );
    let wide = Options {
        epsilon: f64::NAN,
        closed: false,
    };
    let beside = of_file("a.txt", TEXT, wide, layout::ours)
        .expect("it is read")
        .1;
    assert_eq!(
        beside.refused.as_deref(),
        Some("4: epsilon: NaN, infinite, or not in 2^-40 to 1/2")
    );
}

#[test]
fn files_that_cannot_be_read() {
    let broken: [(&str, &[u8]); 8] = [
        ("a.numbers", b"0 0 0\n1 1\n"),
        ("a.numbers", b"0 0 0 0 0\n"),
        ("a.numbers", b"0 0 0x7ff8\n"),
        ("a.numbers", b"0 0 0\n\n1 1 0\n\n2 2 0\n"),
        ("a.numbers", b"\xff\n"),
        ("a.numbers", b"# nothing\n\n"),
        ("a.dxf", b"  0\nSECTION\n"),
        ("empty", b""),
    ];
    for (name, bytes) in broken {
        let (printed, status) = of(&[(name, bytes), ("b.txt", TEXT)], layout::ours);
        assert_eq!(status, UNREAD, "{printed}");
        assert!(printed.contains("not read: "), "{printed}");
        assert!(printed.ends_with("files 2: equal 1, different 0, refused 0, not read 1\n"));
    }
    let (printed, _) = of(&broken[..1], layout::ours);
    assert!(
        printed.contains("not read: line 2: no vertex: 1 1"),
        "{printed}"
    );
    assert_eq!(run(&["no/such/file.txt"]), Ok(UNREAD));
}

#[test]
fn words_of_the_command() {
    let options = |words: &[&str]| super::options(words).map(|(options, _)| options);
    assert_eq!(options(&["a.txt"]), Ok(OPTIONS));
    let all = Options {
        epsilon: 0.25,
        closed: true,
    };
    assert_eq!(
        options(&["--epsilon", "0.25", "a.txt", "--closed"]),
        Ok(all)
    );
    for wrong in [
        &[][..],
        &["--closed"],
        &["a", "--epsilon"],
        &["--epsilon", "x", "a"],
        &["--close", "a"],
    ] {
        assert!(options(wrong).is_err(), "{wrong:?}");
    }
}

/// A closed path has a segment more.
#[test]
fn closed_paths() {
    let all = Options {
        epsilon: EPSILON,
        closed: true,
    };
    let pairs = |name, bytes, options| {
        of_file(name, bytes, options, layout::ours)
            .expect("it is read")
            .1
            .pairs
    };
    let text: &[u8] = b"3 2\n0 0 0\n4 0 0\n4 4 0\n2 -2 0\n2 2 0\n";
    assert_eq!(pairs("a.txt", text, OPTIONS), 2);
    assert_eq!(pairs("a.txt", text, all), 6);
    // a body has its own flag
    assert_eq!(pairs("a.body", BODY, all), 1);
}
