//! The model on the scope's example and on layouts that one can compute by hand. They are written as texts, and packed.

use super::model::{answer, behind_line, input, paths as of_sheet};
use crate::form::{sheet, Sheet};
use crate::listings::layout::Drawn;

const EXAMPLE: &str = "2 2\n0 0 0\n4 0 0\n2 -2 0\n2 2 0\n";

/// What is printed for a text that is packed, or what `pack` says of it.
fn printed(text: &str) -> String {
    match sheet(text.as_bytes()) {
        Some(sheet) => answer(&input(&sheet)).printed(),
        None => "refused 10\n".to_string(),
    }
}

fn paths(text: &[u8]) -> Option<[Drawn; 2]> {
    sheet(text).map(|sheet| of_sheet(&sheet))
}

/// The scope's example with its bytes by hand; without its line, with others, and with a line alone.
#[test]
fn first_lines() {
    let file = [2, 2, 0, 0, 0, 8, 0, 0, 4, 3, 0, 4, 4, 0];
    let printed = |input: &[u8]| answer(input).printed();
    let expected = "pairs 1 rows 1\n0 0 one 4000000000000000 0000000000000000\n";
    assert_eq!(printed(&behind_line(&file)), expected);
    assert_eq!(printed(b"packed\n\0\0"), "pairs 0 rows 0\n");
    assert_eq!(input(&Sheet::default()), b"packed\n\0\0");
    for line in [
        "",
        "p",
        "packed",
        "packed\r\n",
        "Packed\n",
        "PACKED\n",
        " packed\n",
        "packed \n",
        "\n",
    ] {
        let input = [line.as_bytes(), &file].concat();
        assert_eq!(printed(&input), "refused 16\n", "{line:?}");
        assert_eq!(printed(line.as_bytes()), "refused 16\n", "{line:?}");
    }
    assert_eq!(printed(EXAMPLE.as_bytes()), "refused 16\n");
    assert_eq!(printed(b"packed\n"), "refused 18\n");
    assert_eq!(printed(b"packed\npacked\n"), "refused 18\n");
    assert_eq!(printed(&behind_line(&file[..13])), "refused 18\n");
    assert_eq!(printed(&behind_line(EXAMPLE.as_bytes())), "refused 18\n");
}

#[test]
fn the_scopes_example() {
    let expected = "pairs 1 rows 1\n0 0 one 4000000000000000 0000000000000000\n";
    assert_eq!(printed(EXAMPLE), expected);
}

#[test]
fn few_vertices() {
    for text in [
        "0 0\n",
        "1 0\n5 5 5\n",
        "0 1\n0 0 0\n",
        "1 1\n0 0 0\n0 0 0\n",
    ] {
        assert_eq!(printed(text), "pairs 0 rows 0\n");
    }
    assert_eq!(printed("2 1\n0 0 0\n1 0 0\n0 0 0\n"), "pairs 0 rows 0\n");
    assert_eq!(
        printed("3 2\n0 0 0\n1 0 0\n2 0 0\n0 1 0\n2 1 0\n"),
        "pairs 2 rows 0\n"
    );
}

/// Examples K, J, H, D, I: a row of each class, with the points that it has.
#[test]
fn classes() {
    const ONE: &str = "3ff0000000000000";
    const MINUS_ONE: &str = "bff0000000000000";
    const FOUR: &str = "4010000000000000";
    const ZERO: &str = "0000000000000000";
    let half = "-1 0 65536\n1 0 0\n";
    let row = |first: &str, second: &str| {
        let printed = printed(&format!("2 2\n{first}{second}"));
        // the sign of a zero is not computed by hand
        printed.replace("8000000000000000", ZERO)
    };
    let expected = |class: &str, points: &[&str]| {
        format!("pairs 1 rows 1\n0 0 {class} {}\n", points.join(" "))
    };
    let ends = [ONE, ZERO, MINUS_ONE, ZERO];
    let k = row("-2 -1 0\n2 -1 0\n", half);
    assert_eq!(k, expected("tangent", &[ZERO, MINUS_ONE]));
    let j = row("0 -2 0\n0 2 0\n", half);
    assert_eq!(j, expected("one", &[ZERO, MINUS_ONE]));
    let h = row(half, "1 0 65536\n-1 0 0\n");
    assert_eq!(h, expected("two", &ends));
    let d = row("0 0 0\n4 0 0\n", "1 0 0\n5 0 0\n");
    assert_eq!(d, expected("lines", &[ONE, ZERO, FOUR, ZERO]));
    let i = row(half, "1 0 -65536\n-1 0 0\n");
    assert_eq!(i, expected("arcs", &ends));
}

/// The two texts on which the scope's first prose and the Rust differ, with the Rust's bits.
#[test]
fn partings() {
    let parameter = printed("2 2\n0 -1 0\n-1 1 0\n0 0 16384\n0 -1 0\n");
    assert!(parameter.starts_with("pairs 1 rows 1\n0 0 two bf99999999999920 bfee66666666666e "));
    let arc = printed("2 2\n0 0 0\n1 1 0\n1 0 16384\n0 2 0\n");
    assert_eq!(
        arc,
        "pairs 1 rows 1\n0 0 one 3feb971243dc6116 3feb971243dc6116\n"
    );
}

#[test]
fn broken_forms() {
    let broken = [
        "",
        "\n",
        "0\n",
        "0 0",
        "0 0\n\n",
        "0 0\n ",
        "0 0 \n",
        " 0 0\n",
        "0  0\n",
        "0 0 0\n",
        "0\t0\n",
        "0 0\r\n",
        "00 0\n",
        "-0 0\n",
        "+0 0\n",
        "-1 0\n",
        "1 0\n",
        "0 1\n0 0 0\n0 0 0\n",
        "1 0\n0 0\n",
        "1 0\n0 0 0 0\n",
        "1 0\n0 -0 0\n",
        "1 0\n0 01 0\n",
        "1 0\n0 -01 0\n",
        "1 0\n0 - 0\n",
        "1 0\n0 --1 0\n",
        "1 0\n0 1- 0\n",
        "1 0\n0 1.0 0\n",
        "1 0\n1048577 0 0\n",
        "1 0\n0 -1048577 0\n",
        "1 0\n0 0 65537\n",
        "1 0\n0 18446744073709551616 0\n",
        "1 0\n0 \u{661} 0\n",
        "1 0\n0 0 0\0\n",
    ];
    for text in broken {
        assert!(paths(text.as_bytes()).is_none(), "{text:?}");
        assert_eq!(printed(text), "refused 10\n", "{text:?}");
    }
    // if a byte of the example is left out or stands twice, the text means something else or nothing
    let whole = paths(EXAMPLE.as_bytes());
    for at in 0..EXAMPLE.len() {
        let without = format!("{}{}", &EXAMPLE[..at], &EXAMPLE[at + 1..]);
        let twice = format!("{}{}", &EXAMPLE[..=at], &EXAMPLE[at..]);
        assert_ne!(paths(without.as_bytes()), whole);
        assert_ne!(paths(twice.as_bytes()), whole);
    }
}

#[test]
fn limits() {
    let numbers = |text: &str| {
        let [first, _] = paths(text.as_bytes()).expect("accepted");
        first.numbers
    };
    assert_eq!(
        numbers("1 0\n1048576 -1048576 65536\n"),
        [1_048_576.0, -1_048_576.0, 1.0, 0.0]
    );
    assert_eq!(numbers("1 0\n10 -200 -16384\n"), [10.0, -200.0, -0.25, 0.0]);
    let points = |n: usize, m: usize| format!("{n} {m}\n{}", "0 0 0\n".repeat(n + m));
    // points that lie on each other: every pair makes a row
    assert!(printed(&points(17, 33)).starts_with("pairs 512 rows 512\n0 0 one "));
    assert_eq!(printed(&points(28, 20)), "refused 8\n");
    assert_eq!(printed(&points(256, 256)), "refused 8\n");
    assert_eq!(printed(&points(256, 1)), "pairs 0 rows 0\n");
    assert_eq!(printed(&points(257, 1)), "refused 10\n");
    assert_eq!(printed(&points(1, 257)), "refused 10\n");
}

/// The form comes first, then short arcs, then too many rows. The last bulge of an open path belongs to no segment.
#[test]
fn order_of_refusals() {
    let points = "0 0 0\n".repeat(255);
    let many = |last: &str| format!("256 256\n{points}{last}\n{points}0 0 0\n");
    assert_eq!(printed(&many("0 0 1")), "refused 8\n");
    assert_eq!(
        printed(&many("0 0 1").replace("\n0 0 1\n", "\n0 0 -0\n")),
        "refused 10\n"
    );
    let short = format!("256 256\n0 0 1\n{points}{points}0 0 0\n");
    assert_eq!(printed(&short), "refused 5\n");
    assert_eq!(printed(&format!("{short}\n")), "refused 10\n");
    assert_eq!(printed("2 0\n7 7 1\n7 7 0\n"), "refused 5\n");
    assert_eq!(printed("0 2\n7 7 -65536\n7 7 0\n"), "refused 5\n");
    assert_eq!(printed("2 0\n7 7 0\n7 7 1\n"), "pairs 0 rows 0\n");
}
