//! Wrong functions, which the comparison must notice, and a right one, which must pass.

use super::*;

/// More than the stored layouts have.
const INPUTS: u64 = 1 << 14;

/// Numbers written as the library does.
fn give(numbers: &[f64], out: &mut [f64]) -> usize {
    if out.len() < numbers.len() {
        return 0;
    }
    out[..numbers.len()].copy_from_slice(numbers);
    numbers.len()
}

fn segment(path: &[f64], closed: bool, i: usize, out: &mut [f64]) -> usize {
    if i >= count(path, closed) {
        return 0;
    }
    let (from, to) = (4 * i, 4 * (i + 1) % path.len());
    let vertices = [&path[from..from + 3], &path[to..to + 3]].concat();
    give(&[&vertices[..], &[path[from + 3]]].concat(), out)
}

/// The same with another trace, by the path, the index and the right one.
fn with_trace(
    path: &[f64],
    closed: bool,
    i: usize,
    out: &mut [f64],
    trace: impl Fn(&[f64], usize, f64) -> f64,
) -> usize {
    let answer = segment(path, closed, i, out);
    if answer == 7 {
        out[6] = trace(path, i, out[6]);
    }
    answer
}

fn count(path: &[f64], closed: bool) -> usize {
    match model::empty(path) {
        Some(_) => 0,
        None => path.len() / 4 - usize::from(!closed),
    }
}

fn filled(points: &[f64], rows: usize, out: &mut [f64]) -> usize {
    give(&model::filled(points, rows), out)
}

const RIGHT: Ours = Ours {
    segment: [("right", segment), ("right too", segment)],
    count,
    filled,
};

fn differences(ours: &Ours) -> u64 {
    of(ours, Path::new(STORED), INPUTS, 1)
}

#[test]
fn right_functions_pass() {
    assert_eq!(differences(&RIGHT), 0);
    assert_eq!(differences(&OURS), 0);
}

#[test]
fn nothing_stored_is_told() {
    assert_eq!(Run::new(&RIGHT, 1).stored(Path::new(STORED)), 0);
    assert_eq!(Run::new(&RIGHT, 1).stored(Path::new("nowhere")), 1);
    assert_eq!(
        Run::new(&RIGHT, 1).stored(Path::new(STORED).parent().unwrap()),
        1
    );
}

#[test]
fn wrong_segments_are_told() {
    let wrong: [(&str, Ask); 19] = [
        ("always open", |path, _, i, out| {
            segment(path, false, i, out)
        }),
        ("always closed", |path, _, i, out| {
            segment(path, true, i, out)
        }),
        ("the next one", |path, closed, i, out| {
            segment(path, closed, i.wrapping_add(1), out)
        }),
        ("ends swapped", |path, closed, i, out| {
            let answer = segment(path, closed, i, out);
            if answer > 0 {
                out[..6].rotate_left(3);
            }
            answer
        }),
        (
            "back to the last one's neighbour",
            |path, closed, i, out| {
                let last = closed && path.len() >= 8 && i + 1 == path.len() / 4;
                let answer = segment(path, closed, i, out);
                if last && answer > 0 {
                    out[3..6].copy_from_slice(&path[4..7]);
                }
                answer
            },
        ),
        ("a part of a vertex passed over", |path, closed, i, out| {
            segment(&path[..path.len() / 4 * 4], closed, i, out)
        }),
        ("a vertex more allowed", |path, closed, i, out| {
            match path.len() {
                16388 if i < 4096 => {
                    let (from, to) = (&path[4 * i..4 * i + 4], &path[4 * i + 4..]);
                    give(&[&from[..3], &to[..3], &from[3..]].concat(), out)
                }
                _ => segment(path, closed, i, out),
            }
        }),
        (
            "a vertex fewer allowed",
            |path, closed, i, out| match path.len() {
                16384 => 0,
                _ => segment(path, closed, i, out),
            },
        ),
        ("one vertex makes one", |path, closed, i, out| {
            match path.len() {
                4 if closed && i == 0 => give(&[&path[..3], path].concat(), out),
                _ => segment(path, closed, i, out),
            }
        }),
        ("an index that wraps round", |path, closed, i, out| {
            segment(path, closed, i.wrapping_mul(4) / 4, out)
        }),
        ("written where there is no room", |path, closed, i, out| {
            let answer = segment(path, closed, i, out);
            if answer == 0 && !out.is_empty() && i < count(path, closed) {
                out[0] = path[4 * i];
            }
            answer
        }),
        ("a zero's sign lost", |path, closed, i, out| {
            let answer = segment(path, closed, i, out);
            out[..answer].iter_mut().for_each(|x| *x += 0.0);
            answer
        }),
        ("no trace", |path, closed, i, out| {
            segment(path, closed, i, out).min(6)
        }),
        ("the trace 0", |path, closed, i, out| {
            with_trace(path, closed, i, out, |_, _, _| 0.0)
        }),
        ("the second vertex's trace", |path, closed, i, out| {
            let next = |path: &[f64], i: usize, _| path[4 * (i + 1) % path.len() + 3];
            with_trace(path, closed, i, out, next)
        }),
        (
            "the closing one with vertex 0's trace",
            |path, closed, i, out| {
                let of_0 = |path: &[f64], i: usize, trace| match path.len() / 4 {
                    n if i + 1 == n => path[3],
                    _ => trace,
                };
                with_trace(path, closed, i, out, of_0)
            },
        ),
        ("a trace's sign lost", |path, closed, i, out| {
            with_trace(path, closed, i, out, |_, _, trace| trace + 0.0)
        }),
        ("a trace as a byte", |path, closed, i, out| {
            with_trace(path, closed, i, out, |_, _, trace| f64::from(trace as u8))
        }),
        ("both traces", |path, closed, i, out| {
            let answer = segment(path, closed, i, out);
            if answer == 7 && out.len() > 7 {
                out[7] = out[6];
                return 8;
            }
            answer
        }),
    ];
    for (name, ask) in wrong {
        for by_view in [false, true] {
            let mut ours = RIGHT;
            ours.segment[usize::from(by_view)] = (name, ask);
            assert!(differences(&ours) > 0, "{name}, by the view {by_view}");
        }
    }
}

#[test]
fn wrong_counts_are_told() {
    let wrong: [fn(&[f64], bool) -> usize; 3] = [
        |path, _| count(path, true),
        |path, closed| count(&path[..path.len().min(4 * 4096)], closed),
        |path, closed| {
            if path.len() == 4 {
                usize::from(closed)
            } else {
                count(path, closed)
            }
        },
    ];
    for count in wrong {
        assert!(differences(&Ours { count, ..RIGHT }) > 0);
    }
}

#[test]
fn wrong_parts_are_told() {
    let wrong: [Fill; 6] = [
        |points, rows, out| filled(points, rows.min(points.len() / 4), out),
        |points, rows, out| filled(points, if rows == points.len() / 4 { 0 } else { rows }, out),
        |points, rows, out| filled(points, rows.wrapping_mul(4) / 4, out),
        |points, rows, out| match points.get(..rows.saturating_mul(3)) {
            Some(part) => give(part, out),
            None => 0,
        },
        |points, rows, out| {
            filled(
                points,
                if rows == points.len().div_ceil(4) {
                    points.len() / 4
                } else {
                    rows
                },
                out,
            )
        },
        |points, rows, out| {
            let answer = filled(points, rows, out);
            if answer < out.len() {
                out[answer] = 0.0;
            }
            answer
        },
    ];
    for (at, filled) in wrong.into_iter().enumerate() {
        assert!(
            differences(&Ours { filled, ..RIGHT }) > 0,
            "wrong part {at}"
        );
    }
}
