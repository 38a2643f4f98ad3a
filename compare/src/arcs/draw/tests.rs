use super::*;
use crate::arcs::judge::{share, Way};

#[test]
fn every_kind_is_within_the_form() {
    let mut rng = Rng::new(5);
    for kind in 0..KINDS.len() {
        let mut arcs = 0;
        for _ in 0..2000 {
            let p = pair(kind, &mut rng);
            assert!(valid(p.v) && valid(p.u), "{p:?}");
            assert!((LEAST_EPSILON..=0.5).contains(&p.epsilon));
            arcs += u32::from(!p.v.is_line()) + u32::from(!p.u.is_line());
        }
        match KINDS[kind].0 {
            "two lines" => assert_eq!(arcs, 0),
            name => assert!(arcs > 2000, "{name} {arcs}"),
        }
    }
}

/// Each kind often meets the case for which it is there.
#[test]
fn kinds_do_what_they_say() {
    let mut rng = Rng::new(6);
    let mut often = |name: &str, holds: fn(&Pair) -> bool| {
        let kind = KINDS.iter().position(|k| k.0 == name).expect("a kind");
        (0..1000).filter(|_| holds(&pair(kind, &mut rng))).count()
    };
    assert!(often("random", |p| share(p.v, p.u).is_some()) > 100);
    assert!(often("a common end", |p| share(p.v, p.u) == Some(Way::Corner)) > 800);
    assert!(often("a smooth joint", |p| share(p.v, p.u) == Some(Way::Joint)) > 300);
    assert!(often("at a whole point", |p| share(p.v, p.u) == Some(Way::Touch)) > 100);
    assert!(often("at a whole point", |p| share(p.v, p.u) == Some(Way::End)) > 100);
    assert!(often("nearly tangent", |p| share(p.v, p.u).is_some()) > 300);
    assert!(often("an end near the other", |p| share(p.v, p.u).is_some()) > 300);
    assert!(
        often("small against large", |p| share(p.v, p.u)
            == Some(Way::Cross))
            > 500
    );
    assert!(often("flat", |p| share(p.v, p.u) == Some(Way::Cross)) > 500);
    assert!(often("one circle", |p| share(p.v, p.u).is_some()) > 200);
    assert!(often("at the limit", |p| share(p.v, p.u).is_some()) > 100);
    let largest = |p: &Pair| p.v.radius().max(p.u.radius()) > 1e10;
    for kind in ["nearly tangent", "small against large", "flat"] {
        assert!(often(kind, largest) > 10, "{kind}");
    }
}
