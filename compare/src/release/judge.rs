//! The three sentences, each as a test of an answer.

/// OverlappingArcs, of the pair call; and Overlapping, of the line kernel.
pub const ARCS: u64 = 5;
pub const OVERLAPPING: u64 = 2;

/// The class, and all four places of the answer. What the class does not need is +0.
#[derive(Clone, Copy, Debug)]
pub struct Answer {
    pub class: u64,
    pub values: [f64; 4],
}

impl Answer {
    pub fn new(class: u64, given: &[f64]) -> Answer {
        let mut values = [0.0; 4];
        values[..given.len()].copy_from_slice(given);
        Answer { class, values }
    }

    /// Whether both are of one class with the same numbers. Zeros of either sign are equal, and so are any two NaNs.
    pub fn is(&self, other: &Answer) -> bool {
        self.class == other.class && crate::numbers::same(&self.values, &other.values)
    }
}

/// The sentence that is broken, by its number less 1.
#[derive(Clone, Copy, Debug, PartialEq)]
pub enum Breach {
    NotFinite,
    NoCopy,
    OutOfRange,
}

/// Both ends of the first segment, then of the second.
pub type Ends = [[f64; 2]; 4];

/// All four places count, also those that the class does not need.
pub fn finite(answer: &Answer) -> Option<Breach> {
    let all = answer.values.iter().all(|x| x.is_finite());
    (!all).then_some(Breach::NotFinite)
}

/// The pair call's answer, or a row.
pub fn of_pair(answer: &Answer, ends: &Ends) -> Option<Breach> {
    finite(answer).or_else(|| {
        let [a, b, c, d] = answer.values;
        let copied = |point: &[f64; 2]| ends.iter().any(|end| is_copy(point, end));
        let copies = answer.class != ARCS || [[a, b], [c, d]].iter().all(copied);
        (!copies).then_some(Breach::NoCopy)
    })
}

/// The line kernel's answer.
pub fn of_lines(answer: &Answer) -> Option<Breach> {
    finite(answer).or_else(|| {
        let [first, second, ..] = answer.values;
        let within = answer.class != OVERLAPPING || first >= 0.0 && second <= 1.0;
        (!within).then_some(Breach::OutOfRange)
    })
}

/// Whether both coordinates have the bits of this end.
pub fn is_copy(point: &[f64; 2], end: &[f64; 2]) -> bool {
    point.map(f64::to_bits) == end.map(f64::to_bits)
}

#[cfg(test)]
mod tests {
    use super::*;

    const ENDS: Ends = [[1.0, 2.0], [3.0, 4.0], [0.0, 6.0], [7.0, -0.0]];

    fn arcs(values: [f64; 4]) -> Option<Breach> {
        of_pair(&Answer::new(ARCS, &values), &ENDS)
    }

    #[test]
    fn copies() {
        assert_eq!(arcs([1.0, 2.0, 3.0, 4.0]), None);
        assert_eq!(arcs([0.0, 6.0, 7.0, -0.0]), None);
        // two ends' coordinates, a zero of the other sign, a number beside one
        for values in [
            [1.0, 4.0, 3.0, 4.0],
            [1.0, 2.0, 3.0, 2.0],
            [-0.0, 6.0, 1.0, 2.0],
            [1.0, 2.0, 7.0, 0.0],
            [1f64.next_up(), 2.0, 3.0, 4.0],
        ] {
            assert_eq!(arcs(values), Some(Breach::NoCopy), "{values:?}");
            assert_eq!(of_pair(&Answer::new(3, &values), &ENDS), None);
        }
    }

    #[test]
    fn every_place_is_finite() {
        for bad in [f64::NAN, -f64::NAN, f64::INFINITY, f64::NEG_INFINITY] {
            for place in 0..4 {
                for class in 0..6 {
                    let mut answer = Answer::new(class, &[0.0, 1.0]);
                    answer.values[place] = bad;
                    assert_eq!(finite(&answer), Some(Breach::NotFinite));
                    assert_eq!(of_lines(&answer), Some(Breach::NotFinite));
                    assert_eq!(of_pair(&answer, &ENDS), Some(Breach::NotFinite));
                }
            }
        }
        assert_eq!(finite(&Answer::new(3, &[f64::MAX, f64::MIN])), None);
    }

    #[test]
    fn ranges() {
        let lines = |class, first, second| of_lines(&Answer::new(class, &[first, second]));
        let up = 1f64.next_up();
        assert_eq!(lines(OVERLAPPING, 0.0, 1.0), None);
        assert_eq!(lines(OVERLAPPING, -0.0, -7.0), None);
        assert_eq!(lines(OVERLAPPING, up, 1.0), None);
        assert_eq!(lines(OVERLAPPING, 0.0, up), Some(Breach::OutOfRange));
        let below = -f64::from_bits(1);
        assert_eq!(lines(OVERLAPPING, below, 1.0), Some(Breach::OutOfRange));
        assert_eq!(lines(1, below, up), None);
    }

    #[test]
    fn answers() {
        let one = Answer::new(1, &[0.0, 1.0]);
        assert!(one.is(&Answer::new(1, &[-0.0, 1.0])));
        assert!(!one.is(&Answer::new(2, &[0.0, 1.0])));
        assert!(!one.is(&Answer::new(1, &[0.0, 1.0, f64::NAN])));
    }
}
