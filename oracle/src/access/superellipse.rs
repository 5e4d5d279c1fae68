//! Stands inside the original's module `superellipse`: its private functions, and its records as
//! plain floats in the order of their fields.

use super::{CornerRadii, Octant, Placement, Quadrant, Rect, RoundSuperellipse};
use crate::vec2::Vec2;

/// offset, se_a, se_n, circle_start, circle_center, circle_max_angle
pub type OctantFloats = [f32; 9];
/// offset, signed_scale, top, right
pub type QuadrantFloats = [f32; 22];

fn octant(f: &OctantFloats) -> Octant {
    Octant {
        offset: Vec2::new(f[0], f[1]),
        se_a: f[2],
        se_n: f[3],
        circle_start: Vec2::new(f[4], f[5]),
        circle_center: Vec2::new(f[6], f[7]),
        circle_max_angle: f[8],
    }
}

fn octant_floats(o: &Octant) -> OctantFloats {
    [
        o.offset.x,
        o.offset.y,
        o.se_a,
        o.se_n,
        o.circle_start.x,
        o.circle_start.y,
        o.circle_center.x,
        o.circle_center.y,
        o.circle_max_angle,
    ]
}

fn quadrant(f: &QuadrantFloats) -> Quadrant {
    Quadrant {
        offset: Vec2::new(f[0], f[1]),
        signed_scale: Vec2::new(f[2], f[3]),
        top: octant(f[4..13].try_into().unwrap()),
        right: octant(f[13..22].try_into().unwrap()),
    }
}

fn quadrant_floats(q: &Quadrant) -> QuadrantFloats {
    let mut f = [0.0; 22];
    f[..4].copy_from_slice(&[q.offset.x, q.offset.y, q.signed_scale.x, q.signed_scale.y]);
    f[4..13].copy_from_slice(&octant_floats(&q.top));
    f[13..].copy_from_slice(&octant_floats(&q.right));
    f
}

/// The quadrants top right, bottom right, bottom left, top left, and whether one stands for all.
pub fn shape(f: &[QuadrantFloats; 4], all_corners_same: bool) -> RoundSuperellipse {
    RoundSuperellipse {
        top_right: quadrant(&f[0]),
        bottom_right: quadrant(&f[1]),
        bottom_left: quadrant(&f[2]),
        top_left: quadrant(&f[3]),
        all_corners_same,
    }
}

pub fn shape_floats(s: &RoundSuperellipse) -> ([QuadrantFloats; 4], bool) {
    let quadrants = [&s.top_right, &s.bottom_right, &s.bottom_left, &s.top_left];
    (quadrants.map(quadrant_floats), s.all_corners_same)
}

/// The shape of min, max, and the radii top left, top right, bottom left, bottom right.
pub fn from_sizes(f: &[f32; 12]) -> RoundSuperellipse {
    let p = |i: usize| Vec2::new(f[i], f[i + 1]);
    let radii = CornerRadii {
        top_left: p(4),
        top_right: p(6),
        bottom_left: p(8),
        bottom_right: p(10),
    };
    RoundSuperellipse::new(Rect::new(p(0), p(2)), radii)
}

pub fn all_same(radii: &CornerRadii) -> bool {
    radii.all_same()
}

pub fn n_and_xj(ratio: f32) -> (f32, f32) {
    super::n_and_xj(ratio)
}

pub fn circle_center_through(a: Vec2, b: Vec2, r: f32) -> Vec2 {
    super::circle_center_through(a, b, r)
}

pub fn angle_between(from: Vec2, to: Vec2) -> f32 {
    super::angle_between(from, to)
}

pub fn compute_octant(center: Vec2, a: f32, radius: f32) -> OctantFloats {
    octant_floats(&super::compute_octant(center, a, radius))
}

pub fn compute_quadrant(center: Vec2, corner: Vec2, in_radii: Vec2, sign: Vec2) -> QuadrantFloats {
    quadrant_floats(&super::compute_quadrant(center, corner, in_radii, sign))
}

pub fn split(low: f32, high: f32, ratio_low: f32, ratio_high: f32) -> f32 {
    super::split(low, high, ratio_low, ratio_high)
}

pub fn octant_contains(f: &OctantFloats, p: Vec2) -> bool {
    super::octant_contains(&octant(f), p)
}

pub fn corner_contains(f: &QuadrantFloats, p: Vec2, check_quadrant: bool) -> bool {
    super::corner_contains(&quadrant(f), p, check_quadrant)
}

pub fn superellipse_conic_factors(n: f32, xj_over_a: f32) -> (f32, f32, f32) {
    super::superellipse_conic_factors(n, xj_over_a)
}

pub fn intersection(p1: Vec2, k1: f32, p2: Vec2, k2: f32) -> Vec2 {
    super::intersection(p1, k1, p2, k2)
}

/// a, c1, h, c2, j and the two weights.
pub fn superellipse_conics(f: &OctantFloats, yj_over_a: f32) -> ([Vec2; 5], f32, f32) {
    let c = super::superellipse_conics(&octant(f), yj_over_a);
    ([c.a, c.c1, c.h, c.c2, c.j], c.weight1, c.weight2)
}

pub fn circular_arc_points(f: &OctantFloats) -> [Vec2; 4] {
    super::circular_arc_points(&octant(f))
}

pub fn place(offset: Vec2, scale: Vec2, octant_offset: Vec2, flip: bool, p: Vec2) -> Vec2 {
    Placement {
        offset,
        scale,
        octant_offset,
        flip,
    }
    .apply(p)
}
