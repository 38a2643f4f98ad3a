//! What is told of each computed point against each arc: from what the Rust did, and from the request's words.

use cavalier_contours::log::{Kernel, Rule, Swept};

use super::story::Story;

pub const OUTSIDE: u64 = 0;
pub const NEAR_CENTRE: u64 = 1;
pub const INSIDE: u64 = 2;
pub const NEAR_START: u64 = 3;
pub const NEAR_END: u64 = 4;
pub const END_POINT: u64 = 5;
pub const NOT_TESTED: u64 = 6;

pub const VALUES: [&str; 7] = [
    "outside",
    "near the centre",
    "inside",
    "near the start",
    "near the end",
    "end point",
    "not tested",
];

/// First point and v, first and u, second and v, second and u.
pub type Findings = [u64; 4];
pub const ENTRIES: [&str; 4] = ["first/v", "first/u", "second/v", "second/u"];

/// What a test of a sweep says: the first rule with a yes, or outside.
pub fn finding(swept: &Swept) -> u64 {
    match swept.rule {
        None => OUTSIDE,
        Some(Rule::Centre) => NEAR_CENTRE,
        Some(Rule::Inside) => INSIDE,
        Some(Rule::Start) => NEAR_START,
        Some(Rule::End) => NEAR_END,
    }
}

/// Whether a computed point counted: each arc of the pair was asked, and said yes.
pub fn counted(story: &Story, point: usize) -> bool {
    let said_yes = |arc: usize| story.tests[point][arc].is_some_and(|test| test.rule.is_some());
    (0..2).all(|arc| !story.arcs[arc] || said_yes(arc))
}

pub fn findings(story: &Story) -> Findings {
    let tested =
        |point: usize| story.tests[point].map(|test| test.map_or(NOT_TESTED, |t| finding(&t)));
    let end_point = || {
        story
            .arcs
            .map(|arc| if arc { END_POINT } else { NOT_TESTED })
    };
    let mut entries = [[NOT_TESTED; 2]; 2];
    match story.kernel {
        // nothing is computed that an arc is asked about
        Kernel::Lines | Kernel::LineMisses | Kernel::ArcsMiss | Kernel::OneCircle => {}
        Kernel::LineTouches | Kernel::ArcsTouch => {
            entries[0] = match story.placed[..] {
                [] => tested(0),
                _ => end_point(),
            };
        }
        Kernel::LineCrosses | Kernel::ArcsCross => {
            entries = [tested(0), tested(1)];
            match [0, 1].map(|point| counted(story, point)) {
                [true, true] => {
                    for (place, _) in &story.placed {
                        entries[*place] = end_point();
                    }
                }
                // the answer has one place for it, and ends take it
                [true, false] if !story.placed.is_empty() => entries[0] = end_point(),
                [false, true] if !story.placed.is_empty() => entries[1] = end_point(),
                _ => {}
            }
            if story.exchanged {
                entries.swap(0, 1);
            }
        }
    }
    let [[a, b], [c, d]] = entries;
    [a, b, c, d]
}
