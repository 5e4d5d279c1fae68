//! Stands inside the original's module `path`: what a test needs of PathBuilder's private fields.

use super::{FillRule, PathBuilder, Verb};
use crate::vec2::Vec2;

/// The number that stands for a verb in a lent buffer.
pub fn verb_number(v: Verb) -> u8 {
    match v {
        Verb::MoveTo => 0,
        Verb::LineTo => 1,
        Verb::QuadTo => 2,
        Verb::CubicTo => 3,
        Verb::Close => 4,
    }
}

/// A builder that holds these verbs and points, with this start and pen.
pub fn builder(verbs: Vec<Verb>, points: Vec<Vec2>, start: Vec2, pen: Vec2) -> PathBuilder {
    let held = !verbs.is_empty();
    PathBuilder {
        verbs,
        points,
        fill_rule: FillRule::default(),
        subpath_start: held.then_some(start),
        current: held.then_some(pen),
        rounded_rect: None,
    }
}

pub fn verbs(b: &PathBuilder) -> &[Verb] {
    &b.verbs
}

pub fn points(b: &PathBuilder) -> &[Vec2] {
    &b.points
}

pub fn start(b: &PathBuilder) -> Option<Vec2> {
    b.subpath_start
}

pub fn pen(b: &PathBuilder) -> Option<Vec2> {
    b.current
}

/// Back to an empty builder, with the room that it has, as a caller that builds many paths would.
pub fn clear(b: &mut PathBuilder) {
    b.verbs.clear();
    b.points.clear();
    b.subpath_start = None;
    b.current = None;
}

/// An empty builder with this much room.
pub fn with_room(verbs: usize, points: usize) -> PathBuilder {
    let mut b = PathBuilder::new();
    b.verbs.reserve(verbs);
    b.points.reserve(points);
    b
}

/// The verb that this number stands for.
pub fn verb(number: u8) -> Option<Verb> {
    use Verb::*;
    [MoveTo, LineTo, QuadTo, CubicTo, Close]
        .into_iter()
        .find(|v| verb_number(*v) == number)
}

/// A conic from a point of its own.
#[derive(Clone, Copy)]
pub struct Conic {
    pub from: Vec2,
    pub ctrl: Vec2,
    pub to: Vec2,
    pub weight: f32,
}

/// The quads, control and target, that the original makes of a conic at this depth.
fn quads(c: Conic, depth: u32) -> Vec<[Vec2; 2]> {
    let mut b = builder(vec![Verb::MoveTo], vec![c.from], c.from, c.from);
    b.push_conic(c.from, c.ctrl, c.to, c.weight, depth);
    b.points[1..].chunks(2).map(|p| [p[0], p[1]]).collect()
}

/// Both halves where the original splits the conic: one level above its greatest depth it makes one
/// quad or the quads of the two halves, so that only the halves' weight is computed here.
fn halves(c: Conic) -> Option<[Conic; 2]> {
    let [[left, mid], [right, to]] = quads(c, 5).try_into().ok()?;
    let weight = ((1.0 + c.weight) * 0.5).sqrt();
    Some([(c.from, left, mid), (mid, right, to)].map(|(from, ctrl, to)| Conic {
        from,
        ctrl,
        to,
        weight,
    }))
}

fn spans(c: Conic, depth: u32, start: u32, word: &mut u64, leaves: &mut Vec<[Vec2; 2]>) {
    match (depth > 0).then(|| halves(c)).flatten() {
        Some([left, right]) => {
            spans(left, depth - 1, start, word, leaves);
            spans(right, depth - 1, start + (1 << (depth - 1)), word, leaves);
        }
        None => {
            *word |= 1 << start;
            leaves.push([c.ctrl, c.to]);
        }
    }
}

/// The joint word: bit k where a quad starts at k of 0 to 64. The quads found on the way
/// must be those that the original makes at once.
pub fn joint_word(c: Conic) -> u64 {
    let (mut word, mut leaves) = (0, Vec::new());
    spans(c, 6, 0, &mut word, &mut leaves);
    let bits = |l: &[[Vec2; 2]]| -> Vec<u32> {
        let floats = l.iter().flatten().flat_map(|p| [p.x, p.y]);
        floats
            .map(|x| if x.is_nan() { u32::MAX } else { x.to_bits() })
            .collect()
    };
    assert_eq!(bits(&leaves), bits(&quads(c, 0)));
    word
}
