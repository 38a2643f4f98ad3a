//! Kinds of input, or of chain, that a run must have met.

type Test<C> = Box<dyn Fn(&C) -> bool>;

struct Kind<C> {
    name: String,
    met: u64,
    test: Test<C>,
}

pub struct Met<C>(Vec<Kind<C>>);

impl<C> Met<C> {
    pub fn new() -> Met<C> {
        Met(Vec::new())
    }

    pub fn add(&mut self, name: impl Into<String>, test: impl Fn(&C) -> bool + 'static) {
        self.0.push(Kind {
            name: name.into(),
            met: 0,
            test: Box::new(test),
        });
    }

    pub fn count(&mut self, case: &C) {
        for kind in &mut self.0 {
            kind.met += u64::from((kind.test)(case));
        }
    }

    /// Prints how many there are, and answers those that never occurred.
    pub fn report(&self, name: &str, of: &str) -> Vec<String> {
        if let Some(rarest) = self.0.iter().min_by_key(|kind| kind.met) {
            let Kind {
                name: kind, met, ..
            } = rarest;
            println!(
                "{name}: {} kinds of {of}, the rarest ({kind}) {met} times",
                self.0.len()
            );
        }
        let unmet = self.0.iter().filter(|kind| kind.met == 0);
        unmet.map(|kind| kind.name.clone()).collect()
    }
}
