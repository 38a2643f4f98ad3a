//! The float functions beside the machine's own.

use vonjekona::floats;

use crate::inputs::Draw;

fn patterns() -> Vec<u64> {
    let mut draw = Draw::new(7);
    let mut patterns =
        vec![0, 1, 1 << 63, 0x7ff0 << 48, 0xfff0 << 48, 0x7ff8 << 48, 0x7ff0 << 48 | 1];
    patterns.extend([1.0, -1.0, 2.0, f64::MAX, f64::MIN_POSITIVE, 5e-324].map(f64::to_bits));
    for _ in 0..20_000 {
        let words = [draw.below(1 << 31), draw.below(1 << 31), draw.below(1 << 31)];
        patterns.push(words[0] << 33 ^ words[1] << 16 ^ words[2]);
    }
    patterns
}

#[test]
fn roots_are_the_machine_s() {
    for b in patterns() {
        let x = f64::from_bits(b);
        let (root, expected) = (floats::sqrt(x), x.sqrt());
        assert!(
            root.to_bits() == expected.to_bits() || root.is_nan() && expected.is_nan(),
            "{b:x}"
        );
        let canonical = if expected.is_nan() { 0x7ff8 << 48 } else { expected.to_bits() };
        assert_eq!(floats::sqrt_bits(b), canonical, "{b:x}");
        assert_eq!(floats::abs_bits(b), b & !(1 << 63));
        assert!(x.is_nan() || floats::abs(x).to_bits() == x.abs().to_bits());
    }
}

#[test]
fn the_smaller_and_the_larger() {
    let patterns = patterns();
    for (&a, &b) in patterns.iter().zip(patterns.iter().rev()) {
        let (x, y) = (f64::from_bits(a), f64::from_bits(b));
        let (least, most) = (floats::min(x, y), floats::max(x, y));
        if x.is_nan() && y.is_nan() {
            assert!(least.is_nan() && most.is_nan());
            assert_eq!(
                (floats::min_bits(a, b), floats::max_bits(a, b)),
                (0x7ff8 << 48, 0x7ff8 << 48)
            );
        } else if x < y || y < x {
            let (small, large) = if x < y { (a, b) } else { (b, a) };
            assert_eq!((least.to_bits(), most.to_bits()), (small, large));
            assert_eq!((floats::min_bits(a, b), floats::max_bits(a, b)), (small, large));
        } else {
            let other = if y.is_nan() { a } else { b };
            assert_eq!((least.to_bits(), most.to_bits()), (other, other), "{a:x} {b:x}");
            assert_eq!((floats::min_bits(a, b), floats::max_bits(a, b)), (other, other));
        }
    }
    assert!(floats::min(0.0, -0.0).is_sign_negative());
    assert!(floats::max(-0.0, 0.0).is_sign_positive());
}
