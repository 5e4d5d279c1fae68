//! The worked examples, run on the original as it is built here.

use oracle::vec2::Vec2;
use oracle::written::path::{access as path, PathBuilder, Rect, Verb};
use oracle::written::superellipse::{access, CornerRadii, RoundSuperellipse};

const CONTROL: Vec2 = Vec2::new(1.0, 0.0);
const TARGET: Vec2 = Vec2::new(2.0, 0.0);

fn conic(control: Vec2, target: Vec2, weight: f32) -> PathBuilder {
    let mut b = PathBuilder::new();
    b.conic_to(control, target, weight);
    b
}

#[test]
fn conics_on_an_empty_builder() {
    use Verb::*;
    assert_eq!(path::verbs(&conic(CONTROL, TARGET, 1.0)), [MoveTo, QuadTo]);
    assert_eq!(path::verbs(&conic(CONTROL, TARGET, 0.0)), [MoveTo, LineTo]);
    assert_eq!(path::verbs(&conic(CONTROL, TARGET, 3.0)), [MoveTo, QuadTo]);
    assert_eq!(
        path::verbs(&conic(CONTROL, TARGET, f32::NAN)),
        [MoveTo, LineTo]
    );
    let c = conic(Vec2::ZERO, Vec2::ZERO, 3.0);
    assert_eq!((path::verbs(&c).len(), path::points(&c).len()), (65, 129));
}

#[test]
fn table_rows() {
    assert_eq!(access::n_and_xj(5.0).0, 6.430238);
    assert_eq!(access::n_and_xj(2.5).0, 2.7514899);
    assert_eq!(access::superellipse_conic_factors(3.0, 1.0).0, 0.7895);
}

#[test]
fn the_octant_at_the_square_limit() {
    let limit = 1e-3f32;
    let next = f32::from_bits(limit.to_bits() + 1);
    assert_eq!(access::compute_octant(Vec2::ZERO, 1.0, limit)[3], 0.0);
    assert!(access::compute_octant(Vec2::ZERO, 1.0, next)[3] > 2.0);
}

#[test]
fn the_square_of_ten() {
    let bounds = Rect::new(Vec2::ZERO, Vec2::splat(10.0));
    let shape = RoundSuperellipse::new(bounds, CornerRadii::uniform(Vec2::ZERO));
    let mut b = PathBuilder::new();
    shape.add_to(&mut b);
    let expected = [
        (5, 0),
        (10, 0),
        (10, 5),
        (10, 10),
        (5, 10),
        (0, 10),
        (0, 5),
        (0, 0),
        (5, 0),
        (5, 0),
    ];
    assert_eq!(
        path::points(&b),
        expected.map(|(x, y)| Vec2::new(x as f32, y as f32))
    );
    assert_eq!(path::verbs(&b).len(), 11);
    assert!(!shape.contains(Vec2::new(0.0, 10.0)) && shape.contains(Vec2::new(5.0, 5.0)));
    assert!(shape.contains(Vec2::ZERO) && !shape.contains(Vec2::splat(10.0)));
}

#[test]
fn a_shape_taken_apart_and_put_together_is_the_same() {
    let bounds = Rect::new(Vec2::ZERO, Vec2::new(100.0, 60.0));
    let shape = RoundSuperellipse::with_radius(bounds, 20.0);
    let (floats, same) = access::shape_floats(&shape);
    assert!(same && access::shape_floats(&access::shape(&floats, same)) == (floats, same));
}
