//! Shapes at which a rule of the original changes, and points on and about their outlines: the same
//! at every run.

use crate::random::Random;
use crate::vec2::Vec2;
use crate::written::superellipse::{access, RoundSuperellipse};

use crate::stream;
use crate::words::{f32_word, parse_f32, words};

/// min, max, radii top left, top right, bottom left, bottom right
pub type Shape = [f32; 12];

/// The float so many places further up.
fn stepped(x: f32, steps: i32) -> f32 {
    f32::from_bits(
        x.to_bits()
            .wrapping_add_signed(if x < 0.0 { -steps } else { steps }),
    )
}

pub fn uniform(min: [f32; 2], max: [f32; 2], radius: [f32; 2]) -> Shape {
    cornered(min, max, [radius; 4])
}

pub fn cornered(min: [f32; 2], max: [f32; 2], radii: [[f32; 2]; 4]) -> Shape {
    let mut f = [0.0; 12];
    f[..2].copy_from_slice(&min);
    f[2..4].copy_from_slice(&max);
    for (i, r) in radii.iter().enumerate() {
        f[4 + 2 * i..6 + 2 * i].copy_from_slice(r);
    }
    f
}

struct Maker {
    random: Random,
    list: Vec<Shape>,
}

impl Maker {
    fn within(&mut self, lo: f64, hi: f64) -> f32 {
        self.random.within(lo, hi) as f32
    }

    fn scaled(&mut self, lo: f64, hi: f64) -> f32 {
        self.random.scaled(lo, hi) as f32
    }

    /// Bounds as drawings have them; half of them on whole numbers.
    fn bounds(&mut self) -> [[f32; 2]; 2] {
        let mut min = [0, 1].map(|_| self.within(-2000.0, 2000.0));
        let mut size = [0, 1].map(|_| self.scaled(4.0, 800.0));
        if self.random.below(2) == 0 {
            min = min.map(f32::floor);
            size = size.map(f32::floor);
        }
        [min, [min[0] + size[0], min[1] + size[1]]]
    }

    fn radius(&mut self, most: f32) -> [f32; 2] {
        [0, 1].map(|_| self.within(0.01, most as f64))
    }

    fn shape(&mut self, radii: impl Fn(&mut Maker, f32) -> [[f32; 2]; 4]) {
        let [min, max] = self.bounds();
        let side = (max[0] - min[0]).min(max[1] - min[1]);
        let radii = radii(self, side);
        self.list.push(cornered(min, max, radii));
    }

    /// A square whose half-side has this ratio to the radius, at the origin and elsewhere.
    fn of_ratio(&mut self, ratio: f32) {
        let radius = self.within(1.0, 40.0);
        let half = ratio * radius / 2.0;
        let r = [radius; 2];
        self.list.push(uniform([-half; 2], [half; 2], r));
        self.list
            .push(uniform([0.0; 2], [2.0 * half, half * 3.0], r));
    }
}

/// As drawings have them.
fn usual(m: &mut Maker) {
    for _ in 0..80 {
        m.shape(|m, side| [[m.within(0.1, side as f64 / 2.0); 2]; 4]);
    }
    for _ in 0..50 {
        m.shape(|m, side| [m.radius(side / 2.0); 4]);
    }
    for _ in 0..80 {
        m.shape(|m, side| [0; 4].map(|_| m.radius(side / 2.0)));
    }
    for _ in 0..20 {
        m.shape(|m, side| [0; 4].map(|_| [m.within(0.1, side as f64 / 2.0); 2]));
    }
}

fn zero_radii(m: &mut Maker) {
    for zeros in 0..32u32 {
        m.shape(|m, side| {
            let mut radii = [0; 4].map(|_| m.radius(side / 2.0));
            for (i, r) in radii.iter_mut().enumerate() {
                if zeros >> i & 1 == 1 {
                    *r = [0.0; 2];
                }
                if zeros >> 4 == 1 {
                    r[i % 2] = [0.0, -0.0][i / 2];
                }
            }
            radii
        });
    }
    // the split of a side misses its end, and the corner's sign turns
    let zero = [0.0; 2];
    m.list.push(cornered(
        [1.9, 0.0],
        [11.9, 10.0],
        [zero, [0.3, 0.0], zero, zero],
    ));
    for radius in [[0.0, 0.0], [-0.0, 0.0], [0.0, 5.0], [5.0, -0.0]] {
        m.list.push(uniform([0.0; 2], [10.0; 2], radius));
    }
}

/// About the radius up to which a corner is square.
fn limits(m: &mut Maker) {
    for steps in -3..=3 {
        let r = stepped(1e-3, steps);
        m.list.push(uniform([0.0; 2], [10.0; 2], [r; 2]));
        m.list.push(uniform([-1.0; 2], [1.0; 2], [r; 2]));
        m.shape(|m, side| [[r; 2], m.radius(side / 2.0), [r; 2], [r, 5.0]]);
        m.shape(|_, _| [[r, 2.0 * r]; 4]);
    }
    for r in [2e-3, 1e-2, 1e-4, 1e-6, 1e-30, 1e-45] {
        m.shape(|_, _| [[r; 2]; 4]);
    }
}

fn great_radii(m: &mut Maker) {
    for _ in 0..24 {
        m.shape(|m, side| [m.radius(8.0 * side); 4]);
    }
    for _ in 0..16 {
        m.shape(|m, side| [0; 4].map(|_| m.radius(4.0 * side)));
    }
    m.shape(|_, _| [[16384.0; 2]; 4]);
    m.shape(|_, _| [[16384.0; 2], [0.0; 2], [16384.0; 2], [1.0; 2]]);
}

fn thin(m: &mut Maker) {
    for i in 0..24 {
        let [min, mut max] = m.bounds();
        if i % 3 != 1 {
            max[0] = min[0];
        }
        if i % 3 != 0 {
            max[1] = min[1];
        }
        let r = m.radius(10.0);
        let radii = if i < 12 {
            [r; 4]
        } else {
            [r, [0.0; 2], m.radius(3.0), [1.0; 2]]
        };
        m.list.push(cornered(min, max, radii));
    }
    for _ in 0..10 {
        let long = m.scaled(1000.0, 16000.0);
        let short = m.scaled(1e-3, 10.0);
        let r = m.scaled(2e-3, 5.0);
        m.list.push(uniform([0.0; 2], [long, short], [r; 2]));
    }
}

fn far(m: &mut Maker) {
    let limit = 16384.0;
    for r in [0.0, 1e-3, 0.5, 10.0, 1000.0, 16384.0] {
        m.list.push(uniform([-limit; 2], [limit; 2], [r; 2]));
        m.list.push(uniform([limit - 64.0; 2], [limit; 2], [r; 2]));
        m.list.push(uniform(
            [-limit; 2],
            [1.0 - limit, -16000.0],
            [r, 2.0 * r.min(8192.0)],
        ));
    }
    for _ in 0..6 {
        let radii = [0; 4].map(|_| m.radius(16384.0));
        m.list.push(cornered([-limit; 2], [limit; 2], radii));
    }
}

fn ratios(m: &mut Maker) {
    let knots = [2.0, 2.1, 2.2, 2.3, 2.4, 2.5, 3.0, 3.5, 4.0, 4.5, 5.0];
    for knot in knots {
        for steps in [-1, 0, 1] {
            m.of_ratio(stepped(knot, steps));
        }
    }
    for _ in 0..8 {
        let ratio = m.within(5.0, 9.8);
        m.of_ratio(ratio);
    }
    // the degree is above 14 from a ratio of 9.86 on
    for ratio in [9.85, 9.86, 12.0, 20.0, 100.0] {
        m.of_ratio(ratio);
    }
    for _ in 0..8 {
        let ratio = m.scaled(10.0, 400.0);
        m.of_ratio(ratio);
    }
    for r in [0.5, 0.01, 0.0015] {
        m.list.push(uniform([-8000.0; 2], [8000.0; 2], [r; 2]));
    }
    below_two(m);
}

/// Rounding alone brings a ratio below 2, where both radii reach the half-size of their axes.
fn below_two(m: &mut Maker) {
    let mut found = 0;
    while found < 16 {
        let [min, max] = m.bounds();
        let f = uniform(min, max, [1000.0; 2]);
        let half = Vec2::new((max[0] - min[0]) / 2.0, (max[1] - min[1]) / 2.0);
        let Ok(shape) = stream::shape(&f) else {
            continue;
        };
        let (quadrants, _) = access::shape_floats(&shape);
        let radius = half.x.min(half.y);
        let [top, right] = [quadrants[0][6], quadrants[0][15]];
        if top * 2.0 / radius < 2.0 || right * 2.0 / radius < 2.0 {
            m.list.push(f);
            found += 1;
        }
    }
}

pub fn shapes() -> Vec<Shape> {
    let mut m = Maker {
        random: Random(0x5ade_11e5),
        list: Vec::new(),
    };
    usual(&mut m);
    zero_radii(&mut m);
    limits(&mut m);
    great_radii(&mut m);
    thin(&mut m);
    far(&mut m);
    ratios(&mut m);
    m.list
}

/// Each cause with each float, several at once, and the last values that pass.
pub fn refused_shapes() -> Vec<Shape> {
    let good = uniform([0.0; 2], [10.0; 2], [3.0; 2]);
    let mut list = Vec::new();
    let with = |values: &[(usize, f32)]| {
        let mut f = good;
        for (i, x) in values {
            f[*i] = *x;
        }
        f
    };
    for i in 0..12 {
        for x in [
            f32::NAN,
            f32::INFINITY,
            f32::NEG_INFINITY,
            16384.002,
            -16384.002,
        ] {
            list.push(with(&[(i, x)]));
        }
    }
    for i in 4..12 {
        for x in [-1.0, -1e-45, -0.0] {
            list.push(with(&[(i, x)]));
        }
    }
    for (i, x) in [
        (2, -1.0),
        (3, -1.0),
        (0, 11.0),
        (1, 11.0),
        (2, 0.0),
        (3, -0.0),
    ] {
        list.push(with(&[(i, x)]));
    }
    list.push(with(&[(2, -1.0), (4, -1.0)]));
    list.push(with(&[(2, -1.0), (4, f32::NAN)]));
    list.push(with(&[(11, -1.0), (10, f32::INFINITY)]));
    list.push(with(&[(4, -f32::INFINITY)]));
    list.push(with(&[(0, -16384.0), (2, 16384.0), (4, 16384.0)]));
    list
}

/// The last point inside and the first outside on the way from one to the other, if the first is
/// inside and the second is not: halving until no float lies between.
fn crossing(shape: &RoundSuperellipse, from: Vec2, to: Vec2) -> Option<[Vec2; 2]> {
    if !shape.contains(from) || shape.contains(to) {
        return None;
    }
    let (mut inner, mut outer) = (from, to);
    for _ in 0..200 {
        let mid = (inner + outer) * 0.5;
        if mid == inner || mid == outer {
            break;
        }
        if shape.contains(mid) {
            inner = mid;
        } else {
            outer = mid;
        }
    }
    Some([inner, outer])
}

/// The joins of circle and superellipse and the ends of the arcs, placed as the outline has them.
fn joins(shape: &RoundSuperellipse) -> Vec<Vec2> {
    let (quadrants, same) = access::shape_floats(shape);
    let signs = [(1.0, 1.0), (1.0, -1.0), (-1.0, -1.0), (-1.0, 1.0)];
    let mut points = Vec::new();
    for (q, (x, y)) in quadrants.iter().zip(signs) {
        let offset = Vec2::new(q[0], q[1]);
        let mut scale = Vec2::new(q[2], q[3]);
        if same {
            scale = scale * Vec2::new(x, y);
        }
        for (o, flip) in [(&q[4..13], false), (&q[13..22], true)] {
            let join = Vec2::new(o[4], o[5]);
            points.push(access::place(
                offset,
                scale,
                Vec2::new(o[0], o[1]),
                flip,
                join,
            ));
        }
    }
    points
}

/// Points on and about the outline of a shape, in its corners, on its axes, inside and outside.
pub fn points(f: &Shape, random: &mut Random) -> Vec<Vec2> {
    let Ok(shape) = stream::shape(f) else {
        return vec![Vec2::ZERO];
    };
    let (min, max) = (Vec2::new(f[0], f[1]), Vec2::new(f[2], f[3]));
    let center = (min + max) / 2.0;
    let size = max - min + Vec2::splat(1.0);
    let any = |random: &mut Random, reach: f64| {
        let mut part = || random.within(-reach, reach) as f32;
        center + size * Vec2::new(part(), part())
    };
    let mut list = Vec::new();
    for _ in 0..4 {
        let outside = any(random, 1.5);
        match crossing(&shape, center, outside) {
            Some(pair) => list.extend(pair),
            None => list.extend([outside, any(random, 0.5)]),
        }
    }
    let corners = [min, max, Vec2::new(max.x, min.y), Vec2::new(min.x, max.y)];
    list.push(corners[random.below(4) as usize]);
    list.push(
        corners[random.below(4) as usize] + Vec2::splat(stepped(0.01, random.below(9) as i32)),
    );
    list.push(Vec2::new(
        center.x,
        [min.y, max.y][random.below(2) as usize],
    ));
    list.push(Vec2::new(
        [min.x, max.x][random.below(2) as usize],
        center.y,
    ));
    list.push(Vec2::new(
        center.x,
        stepped(max.y, random.below(3) as i32 - 1),
    ));
    let joins = joins(&shape);
    for _ in 0..3 {
        let p = joins[random.below(8) as usize];
        let mut step = |x: f32| stepped(x, random.below(3) as i32 - 1);
        list.push(Vec2::new(step(p.x), step(p.y)));
    }
    list.push(center);
    list.push(any(random, 0.5));
    list.push(any(random, 20.0));
    let odd = [
        f32::NAN,
        f32::INFINITY,
        f32::NEG_INFINITY,
        center.x,
        -0.0,
        f32::MAX,
    ];
    let mut pick = || odd[random.below(6) as usize];
    list.push(Vec2::new(pick(), pick()));
    list
}

/// A line for each shape: its twelve floats.
pub fn lines() -> Vec<String> {
    let all = shapes().into_iter().chain(refused_shapes());
    all.map(|f| f.map(f32_word).join(" ")).collect()
}

/// Every field of every quadrant and octant, and whether one quadrant stands for all.
fn fields(f: &Shape) -> Result<String, stream::Refusal> {
    let (quadrants, same) = access::shape_floats(&stream::shape(f)?);
    let floats: Vec<String> = quadrants.iter().flatten().map(|x| f32_word(*x)).collect();
    Ok(format!("{} {}", floats.join(" "), same as u8))
}

/// What is printed for a line: nothing where it has no word, `bad` where it is no shape.
pub fn answer(line: &[u8]) -> Option<String> {
    let bad = || Some("bad".to_string());
    let Some(words) = words(line) else {
        return bad();
    };
    if words.is_empty() {
        return None;
    }
    let floats: Option<Vec<f32>> = words.iter().map(|w| parse_f32(w)).collect();
    match floats.and_then(|f| f.try_into().ok()) {
        Some(f) => Some(fields(&f).unwrap_or_else(|refusal| refusal)),
        None => bad(),
    }
}
