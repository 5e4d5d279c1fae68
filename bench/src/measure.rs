//! How far the outline of a shape and its touch area are apart.
//!
//! Points are taken on the curves of the outline. From each, points further out should not be contained and points further in
//! should be; the distance from the outline at which the answer first is so is that sample's disagreement.

use std::collections::BTreeMap;

use oracle::random::Random;
use oracle::{panel, stream};

use crate::library::{self, Path, Shape, Sizes};
use crate::scale::{hex, Inputs};

type P = [f64; 2];

fn add(a: P, k: f64, b: P) -> P {
    [a[0] + k * b[0], a[1] + k * b[1]]
}

/// The point of a Bezier curve of up to four points at t, and its direction.
fn at(curve: &[P], t: f64) -> (P, P) {
    let mut points = [[0.0; 2]; 4];
    points[..curve.len()].copy_from_slice(curve);
    let mut direction = [0.0; 2];
    for count in (1..curve.len()).rev() {
        direction = add(points[1], -1.0, points[0]);
        for i in 0..count {
            points[i] = add(points[i], t, add(points[i + 1], -1.0, points[i]));
        }
    }
    (points[0], direction)
}

/// The curves of an outline, each with its first point.
fn curves(path: &Path) -> Vec<Vec<P>> {
    let mut points = path
        .held_floats()
        .chunks(2)
        .map(|p| [p[0] as f64, p[1] as f64]);
    let mut pen = [0.0; 2];
    let mut list = Vec::new();
    for verb in path.held_verbs() {
        let count = [1, 1, 2, 3, 0][*verb as usize];
        let mut curve = vec![pen];
        curve.extend(points.by_ref().take(count));
        pen = *curve.last().unwrap_or(&pen);
        if (1..=3).contains(verb) {
            list.push(curve);
        }
    }
    list
}

/// Above 0 if the outline turns from x to y.
fn area(curves: &[Vec<P>]) -> f64 {
    let ends = curves.iter().map(|c| (c[0], c[c.len() - 1]));
    ends.map(|(a, b)| a[0] * b[1] - a[1] * b[0]).sum()
}

/// Where the touch area ends: beyond the outline or within it.
#[derive(Clone, Copy, PartialEq)]
enum Side {
    Beyond,
    Within,
}

/// A made shape and what is measured on it.
struct Drawn {
    sizes: Sizes,
    shape: Shape,
    curves: Vec<Vec<P>>,
    turn: f64,
}

/// Why a shape is refused or not consistent, by the oracle: the library says only that it is.
fn reason(sizes: &Sizes) -> &'static str {
    match stream::shape(sizes) {
        Ok(shape) => panel::reason(sizes, &shape).expect("a reason of the oracle's too"),
        Err(_) => "refused",
    }
}

impl Drawn {
    /// Or why it is passed over.
    fn new(sizes: &Sizes, path: &mut Path) -> Result<Drawn, &'static str> {
        let mut shape = [0.0; 89];
        let made = library::shape(sizes, &mut shape) == 0;
        if !made || library::is_consistent(sizes, &shape) != 1 {
            return Err(reason(sizes));
        }
        path.clear();
        path.lent().add(&shape);
        let curves = curves(path);
        let turn = area(&curves).signum();
        Ok(Drawn {
            sizes: *sizes,
            shape,
            curves,
            turn,
        })
    }

    fn sides(&self) -> P {
        [0, 1].map(|i| self.sizes[i + 2] as f64 - self.sizes[i] as f64)
    }

    fn lesser(&self) -> f64 {
        let [w, h] = self.sides();
        w.min(h)
    }

    /// The longer side.
    fn size(&self) -> f64 {
        let [w, h] = self.sides();
        w.max(h)
    }

    /// The greatest coordinate.
    fn reach(&self) -> f64 {
        let bounds = self.sizes[..4].iter();
        bounds.fold(0.0, |most, x| most.max(x.abs() as f64))
    }

    fn contains(&self, p: P) -> bool {
        library::contains(&self.shape, p[0] as f32, p[1] as f32) == 1
    }

    /// How far in a direction, up to a limit, the answer turns.
    fn turn(&self, p: P, direction: P, inside: bool, limit: f64) -> Option<f64> {
        let turned = |d: f64| self.contains(add(p, d, direction)) != inside;
        let mut low = 0.0;
        let mut high = self.reach() * 2f64.powi(-26);
        while !turned(high) {
            low = high;
            high *= 1.5;
            if low > limit {
                return None;
            }
        }
        for _ in 0..12 {
            let mid = (low + high) / 2.0;
            if turned(mid) {
                high = mid;
            } else {
                low = mid;
            }
        }
        Some(high)
    }

    /// How far a point of the outline, contained or not, is from the edge of the touch area: along the normal, or in one of sixteen
    /// other directions if that is nearer, as where a curve is so small that rounding turns its normal.
    fn edge(&self, p: P, normal: P, side: Side) -> f64 {
        let sixteenths = (0..16).map(|k| {
            let angle = k as f64 * std::f64::consts::TAU / 16.0;
            [angle.cos(), angle.sin()]
        });
        let mut least = match side {
            Side::Beyond => 4.0 * self.size(),
            Side::Within => self.lesser() / 2.0,
        };
        for direction in std::iter::once(normal).chain(sixteenths) {
            let turn = self.turn(p, direction, side == Side::Beyond, least);
            least = least.min(turn.unwrap_or(least));
        }
        least
    }

    /// How far apart the two radii of a corner are at most, as one over the other.
    fn oval(&self) -> f64 {
        let scales = (0..4).flat_map(|q| [self.shape[22 * q + 2], self.shape[22 * q + 3]]);
        scales.fold(1.0, |most, x| most.max(x.abs() as f64))
    }
}

/// The largest disagreement on one side of the outline: in itself, and by the longer side of its shape.
#[derive(Default)]
struct Worst {
    distance: f64,
    relative: f64,
    at: String,
}

/// What was found on the shapes of one kind.
#[derive(Default)]
struct Found {
    shapes: u64,
    samples: u64,
    /// Samples from which a point halfway to the center is not contained, or one far out is.
    wrong: u64,
    beyond: Worst,
    within: Worst,
}

impl Found {
    /// So many samples of every curve.
    fn shape(&mut self, drawn: &Drawn, each: usize, random: &mut Random) {
        self.shapes += 1;
        let s = &drawn.sizes;
        let center = [0, 1].map(|i| (s[i] as f64 + s[i + 2] as f64) / 2.0);
        for curve in &drawn.curves {
            for _ in 0..each {
                let (p, direction) = at(curve, random.within(0.0, 1.0));
                let length = direction[0].hypot(direction[1]);
                if length == 0.0 {
                    continue;
                }
                let k = drawn.turn / length;
                self.sample(drawn, p, [k * direction[1], -k * direction[0]]);
                let inwards = add(center, -1.0, p);
                let far = add(p, -random.scaled(0.5, 100.0), inwards);
                if self.samples % 4 == 0 {
                    let apart = drawn.contains(far) || !drawn.contains(add(p, 0.5, inwards));
                    self.wrong += apart as u64;
                }
            }
        }
    }

    /// A sample is measured only where it exceeds what was found before.
    fn sample(&mut self, drawn: &Drawn, p: P, outwards: P) {
        self.samples += 1;
        let (side, sign, worst) = if drawn.contains(p) {
            (Side::Beyond, 1.0, &mut self.beyond)
        } else {
            (Side::Within, -1.0, &mut self.within)
        };
        let normal = outwards.map(|x| sign * x);
        let size = drawn.size();
        let known = worst.distance.min(worst.relative * size);
        if drawn.contains(add(p, known, normal)) != (side == Side::Beyond) {
            return;
        }
        let distance = drawn.edge(p, normal, side);
        if distance > worst.distance {
            worst.distance = distance;
        }
        if distance / size > worst.relative {
            worst.relative = distance / size;
            worst.at = format!("{} at {:?}", hex(&drawn.sizes), p.map(|x| x as f32));
        }
    }

    /// Whether outline and touch area are further apart than was recorded, in themselves or by the longer side, or a sample wholly.
    fn exceeds(&self, name: &str, recorded: [f64; 2]) -> bool {
        let distance = self.beyond.distance.max(self.within.distance);
        let relative = self.beyond.relative.max(self.within.relative);
        let more = distance > recorded[0] || relative > recorded[1] || self.wrong > 0;
        if more {
            let wrong = self.wrong;
            println!("{name}: {distance} and {relative}, recorded are {recorded:?}; {wrong} wholly apart");
        }
        more
    }

    fn print(&self, name: &str) {
        print!("| {name} | {} | {} ", self.shapes, self.samples);
        for worst in [&self.beyond, &self.within] {
            print!(
                "| {} | {} ",
                figure(worst.distance),
                percent(worst.relative)
            );
        }
        println!("| {} |", self.wrong);
    }
}

/// How many further shapes were passed over, and why.
type PassedOver = BTreeMap<&'static str, u64>;

/// Two significant digits, rounded up.
fn up(x: f64) -> f64 {
    if x <= 0.0 {
        return 0.0;
    }
    let unit = 10f64.powf(x.log10().floor() - 1.0);
    (x / unit).ceil() * unit
}

fn figure(x: f64) -> String {
    let x = up(x);
    let digits = (1.0 - (1.000_001 * x).max(1e-9).log10().floor()).max(0.0) as usize;
    format!("{x:.digits$}")
}

fn percent(x: f64) -> String {
    format!("{} %", figure(100.0 * x))
}

/// How far outline and touch area of a consistent shape may be apart, by the longer side (docs/SPECIFICATION.md, "Consistency").
const PROMISED: f64 = 0.003;

/// The classes of any shapes.
const CLASSES: [&str; 4] = [
    "any sizes, round corners",
    "any sizes, oval up to 1:16",
    "any sizes, oval beyond that",
    "near the bounds of the rule",
];

/// So many consistent shapes, by class: half of them of any sizes, half near the bounds of the rule.
fn any_shapes(count: u64, seed: u64) -> (Vec<Found>, [PassedOver; 2]) {
    let mut inputs = Inputs::new();
    inputs.random = Random(seed);
    let mut path = Path::with_room(1035, 2074);
    let mut classes: Vec<Found> = CLASSES.iter().map(|_| Found::default()).collect();
    let mut passed_over = [PassedOver::new(), PassedOver::new()];
    for shape in 0..count {
        let near = shape % 2 == 1;
        let drawn = loop {
            let sizes = if near {
                inputs.sizes_near()
            } else {
                inputs.good_sizes()
            };
            match Drawn::new(&sizes, &mut path) {
                Ok(drawn) => break drawn,
                Err(why) => *passed_over[near as usize].entry(why).or_default() += 1,
            }
        };
        let oval = drawn.oval();
        let class = match near {
            true => 3,
            false => [1.0, 16.0].iter().filter(|limit| oval > **limit).count(),
        };
        classes[class].shape(&drawn, 1, &mut inputs.random);
    }
    (classes, passed_over)
}

/// Width, height and radii of a button, the radii as parts of the lesser half side.
type Button = ([f64; 2], [[f64; 2]; 4]);

fn sides(r: &mut Random) -> [f64; 2] {
    [0; 2].map(|_| r.within(10.0, 200.0))
}

fn part(r: &mut Random) -> f64 {
    r.within(0.1, 0.9)
}

/// Kinds of buttons, and what a run may find them apart at most, in itself and by the longer side, near the origin and far from it: a
/// quarter more than docs/ACCURACY.md has.
const KINDS: [(&str, fn(&mut Random) -> Button, [[f64; 2]; 2]); 9] = [
    (
        "one radius",
        |r| (sides(r), [[part(r); 2]; 4]),
        [[0.12, 0.00064], [0.12, 0.00083]],
    ),
    (
        "one radius, square box",
        |r| ([r.within(10.0, 200.0); 2], [[part(r); 2]; 4]),
        [[0.12, 0.00064], [0.14, 0.00089]],
    ),
    (
        "four radii",
        |r| (sides(r), [0; 4].map(|_| [part(r); 2])),
        [[0.17, 0.00092], [0.17, 0.00097]],
    ),
    (
        "oval corners",
        |r| (sides(r), [0; 4].map(|_| [part(r), part(r)])),
        [[0.17, 0.00095], [0.2, 0.00097]],
    ),
    (
        "square corners",
        |r| (sides(r), [[0.0; 2]; 4]),
        [[3.9e-05, 2e-06], [0.00087, 5e-05]],
    ),
    (
        "two corners square",
        |r| {
            let round = [part(r); 2];
            (sides(r), [round, round, [0.0; 2], [0.0; 2]])
        },
        [[0.16, 0.0009], [0.17, 0.0009]],
    ),
    (
        "pill",
        |r| (sides(r), [[1.0; 2]; 4]),
        [[0.12, 0.00064], [0.14, 0.00065]],
    ),
    (
        "disc",
        |r| ([r.within(10.0, 200.0); 2], [[1.0; 2]; 4]),
        [[0.023, 0.00014], [0.027, 0.0006]],
    ),
    (
        "thin",
        |r| {
            let sides = [r.within(100.0, 1000.0), r.within(1.0, 4.0)];
            (sides, [[r.within(0.1, 1.0); 2]; 4])
        },
        [[0.0052, 2.4e-05], [0.009, 6.4e-05]],
    ),
];

/// The button with its least corner there, everything rounded to tenths in half of all cases.
fn sizes_at((sides, radii): Button, corner: P, tenths: bool) -> Sizes {
    let half = sides[0].min(sides[1]) / 2.0;
    let round = |x: f64| {
        if tenths {
            ((x * 10.0).round() / 10.0) as f32
        } else {
            x as f32
        }
    };
    let mut sizes = [0.0; 12];
    for i in 0..2 {
        sizes[i] = round(corner[i]);
        sizes[i + 2] = round(corner[i] + sides[i]);
        for (k, radius) in radii.iter().enumerate() {
            sizes[4 + 2 * k + i] = round(radius[i] * half);
        }
    }
    sizes
}

/// The kind of which some part company, by the first fault in docs/DIFFERENCES.md, and why they do.
const PARTING: (&str, &str) = ("two corners square", "a center lies outside");

/// So many buttons of a kind, near the origin or far from it.
fn buttons(
    make: fn(&mut Random) -> Button,
    far: bool,
    count: u64,
    seed: u64,
) -> (Found, PassedOver) {
    let mut random = Random(seed);
    let mut path = Path::with_room(1035, 2074);
    let mut found = Found::default();
    let mut passed_over = PassedOver::new();
    let (low, high) = if far { (8000.0, 15000.0) } else { (0.0, 500.0) };
    while found.shapes < count {
        let corner = [0; 2].map(|_| random.within(low, high));
        let tenths = random.below(2) == 0;
        let sizes = sizes_at(make(&mut random), corner, tenths);
        match Drawn::new(&sizes, &mut path) {
            Ok(drawn) => found.shape(&drawn, 4, &mut random),
            Err(why) => *passed_over.entry(why).or_default() += 1,
        }
    }
    (found, passed_over)
}

/// Whether other buttons were passed over than some of the one kind, of which one in fifteen are too many.
fn refuses_usual(name: &str, count: u64, passed_over: &PassedOver) -> bool {
    let (kind, why) = PARTING;
    passed_over
        .iter()
        .any(|(w, n)| name != kind || *w != why || 15 * n > count)
}

const HEAD: &str = "| shapes | number | samples | touch area beyond the outline, at most | by the longer side | within it, at most | by the longer side | wholly apart |
|---|---|---|---|---|---|---|---|";

fn print_passed_over(name: &str, passed_over: &PassedOver) {
    for (why, count) in passed_over {
        println!("| {name} | {why} | {count} |");
    }
}

/// bench measure [SHAPES [SEED]], or bench measure check: a shorter run held against the recorded figures.
pub fn run(words: &[&str]) {
    let (count, seed, each) = match *words {
        [] => (1_000_000, 11, 20_000),
        ["check"] => (40_000, 12, 2_000),
        [count] => (count.parse().expect("a number of shapes"), 11, 20_000),
        [count, seed, ..] => (
            count.parse().expect("a number of shapes"),
            seed.parse().expect("a seed"),
            20_000,
        ),
    };
    let mut more = 0;
    let mut examples = Vec::new();
    let mut passed = Vec::new();
    println!("{HEAD}");
    let (classes, [any, near]) = any_shapes(count, seed);
    passed.push(("any sizes".to_string(), any));
    passed.push(("near the bounds of the rule".to_string(), near));
    for (name, found) in CLASSES.into_iter().zip(classes) {
        found.print(name);
        more += found.exceeds(name, [f64::INFINITY, PROMISED]) as u32;
        examples.push((name.to_string(), found));
    }
    for (far, place) in ["near", "far"].into_iter().enumerate() {
        for (kind, make, recorded) in KINDS {
            let count = each.min(count);
            let (found, passed_over) = buttons(make, far == 1, count, seed);
            let name = format!("{kind}, {place}");
            found.print(&name);
            more += found.exceeds(&name, recorded[far]) as u32;
            if refuses_usual(kind, count, &passed_over) {
                println!("{name}: passed over {passed_over:?}");
                more += 1;
            }
            examples.push((name.clone(), found));
            passed.push((name, passed_over));
        }
    }
    println!("| passed over | why | number |\n|---|---|---|");
    for (name, passed_over) in passed {
        print_passed_over(&name, &passed_over);
    }
    for (name, found) in examples {
        println!(
            "{name}: beyond {}; within {}",
            found.beyond.at, found.within.at
        );
    }
    if more > 0 {
        std::process::exit(1);
    }
}
