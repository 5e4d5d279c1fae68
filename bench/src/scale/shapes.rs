//! Shapes: their fields and refusals, what they contain, their outlines.

use oracle::panel;
use oracle::shapes::points;
use oracle::stream;
use oracle::vec2::Vec2;
use oracle::written::path::{access as path_access, PathBuilder};
use oracle::written::superellipse::{access, RoundSuperellipse};

use super::{all_same, hex, kept, number, Inputs, Tally};
use crate::library::{self, Path, Shape};
use crate::others::{shape_floats, written_path};

/// The verbs and points that every outline fits in.
const ROOM: (usize, usize) = (1035, 2074);

/// The outline, whole, and what it needs.
fn outline(
    shape: &RoundSuperellipse,
    lent: &Shape,
    tally: &mut Tally,
    input: impl Fn() -> String,
) -> Path {
    let mut builder = PathBuilder::new();
    shape.add_to(&mut builder);
    let mut path = Path::with_room(ROOM.0, ROOM.1);
    let answer = path.lent().add(lent);
    let equal = answer == 0 && written_path::same(&builder, &path);
    tally.case("outlines", equal, &input);
    let counts = [
        path_access::verbs(&builder).len() as u64,
        path_access::points(&builder).len() as u64,
    ];
    let mut need = [u64::MAX; 2];
    let done = library::outline_need(lent, &mut need) == 0;
    tally.case("needs of outlines", done && need == counts, &input);
    path
}

fn ask(
    shape: &RoundSuperellipse,
    lent: &Shape,
    p: Vec2,
    tally: &mut Tally,
    input: impl Fn() -> String,
) {
    let theirs = shape.contains(p) as u32;
    let ours = library::contains(lent, p.x, p.y);
    tally.case("points asked of shapes", ours == theirs, || {
        format!("{} at {}", input(), hex(&[p.x, p.y]))
    });
}

/// A shape from twelve floats, points about it and its outline.
pub fn from_sizes(inputs: &mut Inputs, tally: &mut Tally) {
    let sizes = inputs.sizes();
    let input = || hex(&sizes);
    let before: Shape = std::array::from_fn(|_| inputs.any());
    let mut lent = before;
    let answer = library::shape(&sizes, &mut lent);
    let theirs = stream::shape(&sizes);
    let equal = answer == number(&theirs)
        && match &theirs {
            Ok(shape) => all_same(&lent, &shape_floats(shape)),
            Err(_) => kept(&lent, &before),
        };
    tally.case("shapes made", equal, input);
    let Ok(shape) = theirs else {
        tally.count("shapes refused", 1);
        return;
    };
    let consistent = library::is_consistent(&sizes, &lent);
    let theirs = panel::reason(&sizes, &shape).is_none() as u32;
    tally.case("verdicts of consistency", consistent == theirs, input);
    let path = outline(&shape, &lent, tally, input);
    let mut asked = points(&sizes, &mut inputs.random);
    for _ in 0..12 {
        let at = 2 * inputs.below(path.counts[1] as usize);
        let p = [path.floats[at], path.floats[at + 1]];
        asked.push(Vec2::new(inputs.near(p[0]), inputs.near(p[1])));
    }
    asked.push(Vec2::new(inputs.any(), inputs.any()));
    for p in asked {
        ask(&shape, &lent, p, tally, input);
    }
}

/// A shape that is not made of sizes: a made one with other floats in some places, or any floats.
pub fn of_any_floats(inputs: &mut Inputs, tally: &mut Tally) {
    let mut lent: Shape = std::array::from_fn(|_| inputs.any());
    let sizes = inputs.good_sizes();
    if !inputs.one_in(8) && library::shape(&sizes, &mut lent) == 0 {
        for _ in 0..=inputs.below(4) {
            let at = inputs.below(89);
            lent[at] = match inputs.below(4) {
                0 => inputs.special(),
                1 => inputs.any(),
                2 => -lent[at],
                _ => lent[at] * inputs.within(0.5, 2.0),
            };
        }
    }
    let quadrants = std::array::from_fn(|q| std::array::from_fn(|i| lent[22 * q + i]));
    let shape = access::shape(&quadrants, lent[88] != 0.0);
    let input = || hex(&lent);
    tally.count("shapes of any floats", 1);
    outline(&shape, &lent, tally, input);
    for _ in 0..8 {
        let p = if inputs.one_in(4) {
            Vec2::new(inputs.any(), inputs.any())
        } else {
            let mut part = |i: usize| {
                inputs.within(
                    sizes[i] as f64 - 5.0,
                    sizes[i + 2].max(sizes[i]) as f64 + 5.0,
                )
            };
            Vec2::new(part(0), part(1))
        };
        ask(&shape, &lent, p, tally, input);
    }
}
