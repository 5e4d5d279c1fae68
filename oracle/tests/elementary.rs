//! The written-out functions beside the platform's: near each other where both have a number.

use oracle::elementary;

/// Every f32 whose bits are a multiple of `step`.
fn every(step: usize) -> impl Iterator<Item = f32> {
    (0..=u32::MAX).step_by(step).map(f32::from_bits)
}

fn same(a: f32, b: f32) -> bool {
    a == b || (a.is_nan() && b.is_nan())
}

/// Within two last digits of `wide` rounded.
fn near(x: f32, wide: f64) -> bool {
    let nearest = wide as f32;
    same(x, nearest) || (x.to_bits() as i64 - nearest.to_bits() as i64).abs() <= 2
}

#[test]
fn least_greatest_and_clamp_are_the_platforms() {
    for a in every(77_777_777) {
        for b in every(66_666_666) {
            if !(a == 0.0 && b == 0.0) {
                assert!(same(elementary::min(a, b), a.min(b)), "{a} {b}");
                assert!(same(elementary::max(a, b), a.max(b)), "{a} {b}");
            }
            for x in every(55_555_555) {
                if a <= b {
                    assert!(
                        same(elementary::clamp(x, a, b), x.clamp(a, b)),
                        "{x} {a} {b}"
                    );
                }
            }
        }
    }
}

#[test]
fn powers_are_near() {
    for b in every(1_000_003).filter(|b| *b > 0.0) {
        for y in [-3.0f32, -0.5, 0.25, 1.0, 1.7, 2.0, 13.0] {
            assert!(
                near(elementary::pow(b, y), (b as f64).powf(y as f64)),
                "{b} {y}"
            );
        }
    }
}

#[test]
fn sines_are_near() {
    // measured against the size of the pair: 1
    for t in every(10_007).filter(|t| t.abs() <= 8.0) {
        let (s, c) = elementary::sin_cos(t);
        let (exact_s, exact_c) = (t as f64).sin_cos();
        assert!(
            (s as f64 - exact_s).abs() < 1e-7 && (c as f64 - exact_c).abs() < 1e-7,
            "{t}"
        );
        assert!(near(elementary::tan(t), (t as f64).tan()), "{t}");
    }
}

#[test]
fn arc_tangents_are_near() {
    for y in every(7_654_321).filter(|y| y.is_finite() && *y != 0.0) {
        for x in every(23_456_789).filter(|x| x.is_finite()) {
            assert!(
                near(elementary::atan2(y, x), (y as f64).atan2(x as f64)),
                "{y} {x}"
            );
        }
    }
}

#[test]
fn rules_in_order() {
    let (nan, inf) = (f32::NAN, f32::INFINITY);
    assert!(elementary::pow(nan, 0.0).is_nan() && elementary::pow(1.0, nan).is_nan());
    assert!(elementary::pow(-inf, 2.0).is_nan() && elementary::pow(-1.0, 0.0).is_nan());
    assert_eq!(elementary::pow(-0.0, 3.0).to_bits(), 0);
    assert_eq!(elementary::pow(-0.0, -3.0), inf);
    assert_eq!(
        (
            elementary::pow(0.5, inf),
            elementary::pow(0.5, -inf),
            elementary::pow(2.0, -inf)
        ),
        (0.0, inf, 0.0)
    );
    for (y, x) in [(0.0, 0.0), (-0.0, 0.0), (0.0, -0.0), (-0.0, -0.0)] {
        assert_eq!(elementary::atan2(y, x).to_bits(), 0);
    }
    assert_eq!(elementary::atan2(-0.0, -1.0), std::f32::consts::PI);
    assert!(elementary::atan2(inf, 1.0).is_nan() && elementary::atan2(1.0, nan).is_nan());
    assert!(
        elementary::sin_cos(8.0).0.is_finite()
            && elementary::sin_cos(8.000001).0.is_nan()
            && elementary::tan(-8.000001).is_nan()
    );
}
