//! A copy of the pair function that notes what it does: the text itself, with calls of `log` put in and nothing taken out.

/// What is put in, and between which two pieces of the text. The two together must be found exactly so many times.
struct Insertion {
    before: String,
    put: String,
    after: String,
    times: usize,
}

/// The copy, or the place that was not found as often as it should be.
pub fn noted(text: &str) -> Result<String, String> {
    let mut all = Vec::new();
    for insertion in insertions() {
        let Insertion {
            before,
            put,
            after,
            times,
        } = insertion;
        let place = format!("{before}{after}");
        let found: Vec<usize> = text.match_indices(&place).map(|(at, _)| at).collect();
        if found.len() != times {
            return Err(format!(
                "found {} times and not {times}: {place:?}",
                found.len()
            ));
        }
        all.extend(found.into_iter().map(|at| (at + before.len(), put.clone())));
    }
    all.sort();
    if let Some(twice) = all.windows(2).find(|two| two[0].0 == two[1].0) {
        return Err(format!("twice in one place: {twice:?}"));
    }
    let mut copy = String::new();
    let mut from = 0;
    for (at, put) in all {
        copy.push_str(&text[from..at]);
        copy.push_str(&put);
        from = at;
    }
    copy.push_str(&text[from..]);
    Ok(copy)
}

fn insertions() -> Vec<Insertion> {
    let mut all = Vec::new();
    all.extend(rules());
    all.extend(ends());
    all.extend(kernels());
    all.extend(computed());
    all.extend(answers());
    all
}

fn once(before: &str, put: impl Into<String>, after: &str) -> Insertion {
    Insertion {
        before: before.to_string(),
        put: put.into(),
        after: after.to_string(),
        times: 1,
    }
}

/// The test of a sweep: which rule says yes first, or that none does.
fn rules() -> Vec<Insertion> {
    const SWEPT: &str = "[self.center, self.start_vector, self.end_vector], point";
    let by = |rule: &str| format!("crate::log::by({SWEPT}, crate::log::Rule::{rule}, ");
    let yes = |rule: &str| format!("{}true); ", by(rule));
    vec![
        once(
            "self.epsilon_squared {\n            ",
            yes("Centre"),
            "return true;",
        ),
        once(
            "if exactly_within_sweep {\n            ",
            yes("Inside"),
            "return true;",
        ),
        once("", by("Start"), "(self.start_vector.dot(point_vector)"),
        once(
            "start_cross < self.start_fuzzy_limit)",
            ")",
            "\n            || ",
        ),
        once("|| ", by("End"), "(self.end_vector.dot(point_vector)"),
        once(
            "end_cross < self.end_fuzzy_limit)",
            format!(") || crate::log::outside({SWEPT})"),
            "\n    }",
        ),
    ]
}

/// The test whether an end lies on the other arc: what is noted in between belongs to it.
fn ends() -> Vec<Insertion> {
    vec![
        once(
            "fn point_lies_on_arc(&self, point: Vector2<T>) -> bool {\n",
            "crate::log::end(point);\n",
            "        let distance_squared",
        ),
        once(
            "",
            "crate::log::lies(",
            "distance_squared < self.radius_upper_bound_squared",
        ),
        once("&& self.sweeps(point)", ")", "\n    }"),
        once("*slot = Some(intr);", " crate::log::slot(intr);", "\n"),
    ]
}

/// Which kernel was asked, and what it found.
fn kernels() -> Vec<Insertion> {
    let kernel = |found: &str| format!(" crate::log::kernel(crate::log::Kernel::{found});");
    vec![
        once("if v_is_line && u_is_line {", kernel("Lines"), "\n"),
        once(
            "if matches!(intr_result, LineCircleIntr::NoIntersect) {",
            kernel("LineMisses"),
            "\n",
        ),
        once(
            "LineCircleIntr::TangentIntersect { t0 } => {",
            kernel("LineTouches"),
            "\n",
        ),
        once(
            "LineCircleIntr::TwoIntersects { t0, t1 } => {",
            kernel("LineCrosses"),
            "\n",
        ),
        once(
            "CircleCircleIntr::NoIntersect => ",
            format!("{{{} ", kernel("ArcsMiss")),
            "NoIntersect,",
        ),
        once("CircleCircleIntr::NoIntersect => NoIntersect", " }", ","),
        once(
            "CircleCircleIntr::TangentIntersect { point } => {",
            kernel("ArcsTouch"),
            "\n",
        ),
        once(
            "CircleCircleIntr::TwoIntersects { point1, point2 } => {",
            kernel("ArcsCross"),
            "\n",
        ),
        once(
            "CircleCircleIntr::Overlapping => {",
            kernel("OneCircle"),
            "\n",
        ),
    ]
}

/// Which computed point is tested next: on a line by its parameter, of two arcs by its number, and against which arc.
fn computed() -> Vec<Insertion> {
    let about = |point: usize, arc: usize| format!("crate::log::about({point}, {arc}) && ");
    vec![
        once(
            "let point_in_sweep = |t: T| -> Option<Vector2<T>> {",
            " crate::log::parameter(t);",
            "\n",
        ),
        once(
            "} else if ",
            about(0, 0),
            "arc1.sweeps(point) && arc2.sweeps(point) {",
        ),
        once(
            "} else if arc1.sweeps(point) && ",
            about(0, 1),
            "arc2.sweeps(point) {",
        ),
        once(
            "",
            about(0, 0),
            "arc1.sweeps(point1) && arc2.sweeps(point1);",
        ),
        once(
            "arc1.sweeps(point1) && ",
            about(0, 1),
            "arc2.sweeps(point1);",
        ),
        once(
            "",
            about(1, 0),
            "arc1.sweeps(point2) && arc2.sweeps(point2);",
        ),
        once(
            "arc1.sweeps(point2) && ",
            about(1, 1),
            "arc2.sweeps(point2);",
        ),
    ]
}

/// Where an end is put into an answer's first or second place, and where the two places are exchanged.
fn answers() -> Vec<Insertion> {
    const ROW: &str = "\n                                    ";
    let mut all = Vec::new();
    let mut end = |place: usize, times: usize, before: &str, end: &str, after: &str| {
        let put = format!("crate::log::placed({place}, ");
        let opened = once(before, put, &format!("{end}{after}"));
        let closed = once(&format!("{before}{end}"), ")", after);
        all.extend([opened, closed].map(|insertion| Insertion { times, ..insertion }));
    };
    for name in ["p0", "p1", "u1.pos()", "u2.pos()", "v1.pos()", "v2.pos()"] {
        end(0, 1, "TangentIntersect { point: ", name, " }");
    }
    end(0, 1, "OneIntersect { point: ", "p0", " }");
    end(0, 1, "OneIntersect { point: ", "p1", " }");
    end(0, 3, "OneIntersect { point: ", "end_pt", " }");
    for [first, second] in [
        ["p0", "p1"],
        ["p1", "p0"],
        ["p0", "point2"],
        ["p1", "point2"],
    ] {
        end(0, 1, &format!("{ROW}("), first, &format!(", {second})\n"));
    }
    for [first, second] in [
        ["p0", "p1"],
        ["p1", "p0"],
        ["point1", "p0"],
        ["point1", "p1"],
    ] {
        end(1, 1, &format!("{ROW}({first}, "), second, ")\n");
    }
    end(0, 1, "point1: ", "end_pt", ",\n");
    end(1, 1, "point2: ", "end_pt", ",\n");
    end(0, 4, "point1: ", "end_pt1", ",\n");
    end(1, 4, "point2: ", "end_pt2", ",\n");
    end(0, 1, "point1: ", "end_pt2", ",\n");
    end(1, 1, "point2: ", "end_pt1", ",\n");
    all.push(once(
        "",
        "crate::log::exchanged();\n",
        "TwoIntersects {\n                                point1: point2,",
    ));
    all
}

#[cfg(test)]
mod tests {
    use super::*;

    const TEXT: &str = include_str!(concat!(
        env!("RUST_TEXT"),
        "/src/polyline/pline_seg_intersect.rs"
    ));

    #[test]
    fn nothing_is_taken_out() {
        let copy = noted(TEXT).expect("every place is found");
        let mut rest = copy.chars();
        assert!(TEXT.chars().all(|c| rest.any(|other| other == c)));
    }

    /// A text in which one place is missing, or comes up once more, gets no log.
    #[test]
    fn another_text_is_refused() {
        for insertion in insertions() {
            let place = format!("{}{}", insertion.before, insertion.after);
            assert!(noted(&TEXT.replacen(&place, "", 1)).is_err(), "{place:?}");
            assert!(noted(&format!("{TEXT}{place}")).is_err(), "{place:?}");
        }
    }
}
