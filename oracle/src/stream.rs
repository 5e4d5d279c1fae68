//! A stream over lent buffers: the original's builder makes what a call adds; the limits of the
//! buffers, the refusals, the reader and the box, which the original lacks, are written out here by
//! docs/SPECIFICATION.md.

use crate::vec2::Vec2;
use crate::written::path::access::{self, Conic};
use crate::written::path::{PathBuilder, Verb};
use crate::written::superellipse::{access::from_sizes, RoundSuperellipse};

use crate::words::f32_word;

/// A refusal, as it is printed.
pub type Refusal = String;

#[derive(Clone, Copy)]
pub struct Record {
    pub verbs: usize,
    pub points: usize,
    pub start: Vec2,
    pub pen: Vec2,
}

#[derive(Clone)]
pub struct Stream {
    pub record: Record,
    pub verbs: Vec<u8>,
    pub floats: Vec<f32>,
}

#[derive(Clone, Copy)]
pub enum Call {
    Move(Vec2),
    Line(Vec2),
    Quad(Vec2, Vec2),
    Conic(Vec2, Vec2, f32),
    Cubic(Vec2, Vec2, Vec2),
    Close,
    /// min, max, radii top left, top right, bottom left, bottom right
    Outline([f32; 12]),
}

/// A segment read, or End, and the next cursor.
pub struct Reading {
    pub segment: Option<(Verb, Vec<Vec2>)>,
    pub next: [usize; 2],
}

pub fn point_words(p: Vec2) -> String {
    format!("{} {}", f32_word(p.x), f32_word(p.y))
}

/// The refusals of a shape's min, max and radii: 2 for a float that is not finite or over 16,384 in
/// magnitude, 3 for a radius below zero, 4 for a maximum below its minimum.
pub fn limits(f: &[f32; 12]) -> Result<(), Refusal> {
    let refused = |n: u32| Err(format!("refused {n}"));
    if f.iter().any(|x| !x.is_finite() || x.abs() > 16384.0) {
        return refused(2);
    }
    if f[4..].iter().any(|x| *x < 0.0) {
        return refused(3);
    }
    if f[2] < f[0] || f[3] < f[1] {
        return refused(4);
    }
    Ok(())
}

/// The shape of min, max and the radii, or its refusal.
pub fn shape(f: &[f32; 12]) -> Result<RoundSuperellipse, Refusal> {
    limits(f).map(|()| from_sizes(f))
}

impl Record {
    pub fn new(verbs: usize, points: usize) -> Record {
        Record {
            verbs,
            points,
            start: Vec2::ZERO,
            pen: Vec2::ZERO,
        }
    }
}

impl Stream {
    pub fn fresh(verbs: usize, floats: usize) -> Stream {
        Stream {
            record: Record::new(0, 0),
            verbs: vec![0; verbs],
            floats: vec![0.0; floats],
        }
    }

    fn point(&self, at: usize) -> Vec2 {
        Vec2::new(self.floats[2 * at], self.floats[2 * at + 1])
    }

    /// Refusal 1: more verbs or points than the buffers have, or points and no verb.
    fn record_fits(&self) -> Result<(), Refusal> {
        let r = &self.record;
        let bad = r.verbs > self.verbs.len()
            || r.points > self.floats.len() / 2
            || (r.verbs == 0 && r.points > 0);
        if bad {
            Err("refused 1".to_string())
        } else {
            Ok(())
        }
    }

    /// The original's builder in this stream's state.
    fn builder(&self) -> PathBuilder {
        let r = &self.record;
        let held = self.verbs[..r.verbs].iter();
        access::builder(
            held.map(|v| access::verb(*v).unwrap()).collect(),
            (0..r.points).map(|i| self.point(i)).collect(),
            r.start,
            r.pen,
        )
    }

    fn take(&mut self, b: &PathBuilder) {
        for (place, v) in self.verbs.iter_mut().zip(access::verbs(b)) {
            *place = access::verb_number(*v);
        }
        for (place, p) in self.floats.chunks_exact_mut(2).zip(access::points(b)) {
            place.copy_from_slice(&[p.x, p.y]);
        }
        self.record = Record {
            verbs: access::verbs(b).len(),
            points: access::points(b).len(),
            start: access::start(b).unwrap_or(self.record.start),
            pen: access::pen(b).unwrap_or(self.record.pen),
        };
    }

    /// A building call; a conic answers its joint word.
    pub fn build(&mut self, call: Call) -> Result<Option<u64>, Refusal> {
        let outline = match call {
            Call::Outline(f) => Some(shape(&f)?),
            _ => None,
        };
        self.record_fits()?;
        let mut b = self.builder();
        match call {
            Call::Move(p) => drop(b.move_to(p)),
            Call::Line(p) => drop(b.line_to(p)),
            Call::Quad(c, p) => drop(b.quad_to(c, p)),
            Call::Conic(c, p, w) => drop(b.conic_to(c, p, w)),
            Call::Cubic(c, d, p) => drop(b.cubic_to(c, d, p)),
            Call::Close => drop(b.close()),
            Call::Outline(_) => {}
        }
        if let Some(shape) = outline {
            shape.add_to(&mut b);
        }
        let (verbs, points) = (access::verbs(&b).len(), access::points(&b).len());
        if verbs > self.verbs.len() || points > self.floats.len() / 2 {
            return Err("refused 5".to_string());
        }
        let from = if self.record.verbs == 0 {
            Vec2::ZERO
        } else {
            self.record.pen
        };
        self.take(&b);
        Ok(match call {
            Call::Conic(ctrl, to, weight) => Some(match access::verbs(&b).last() {
                Some(Verb::LineTo) => 0,
                _ => access::joint_word(Conic {
                    from,
                    ctrl,
                    to,
                    weight,
                }),
            }),
            _ => None,
        })
    }

    pub fn read(&self, [verb, point]: [usize; 2]) -> Result<Reading, Refusal> {
        self.record_fits()?;
        if verb >= self.record.verbs {
            return Ok(Reading {
                segment: None,
                next: [verb, point],
            });
        }
        let malformed = || format!("refused 6 at {verb}");
        let v = access::verb(self.verbs[verb]).ok_or_else(malformed)?;
        let count = v.point_count();
        if self.record.points.saturating_sub(point) < count {
            return Err(malformed());
        }
        let points = (0..count).map(|i| self.point(point + i)).collect();
        Ok(Reading {
            segment: Some((v, points)),
            next: [verb + 1, point + count],
        })
    }

    /// The segments from cursor (0, 0), and the refusal that ends them.
    pub fn segments(&self) -> (Vec<(Verb, Vec<Vec2>)>, Option<Refusal>) {
        let (mut cursor, mut list) = ([0, 0], Vec::new());
        loop {
            match self.read(cursor) {
                Err(refusal) => return (list, Some(refusal)),
                Ok(Reading { segment: None, .. }) => return (list, None),
                Ok(Reading {
                    segment: Some(s),
                    next,
                }) => {
                    list.push(s);
                    cursor = next;
                }
            }
        }
    }

    /// The least box; of equal values the earlier stays.
    pub fn bounds(&self) -> Result<Option<[f32; 4]>, Refusal> {
        let (segments, refusal) = self.segments();
        if let Some(refusal) = refusal {
            return Err(refusal);
        }
        let mut found: Option<[f32; 4]> = None;
        for p in segments.iter().flat_map(|(_, points)| points) {
            if !p.is_finite() {
                continue;
            }
            let b = found.get_or_insert([p.x, p.y, p.x, p.y]);
            for (i, value) in [p.x, p.y].into_iter().enumerate() {
                if value < b[i] {
                    b[i] = value;
                }
                if value > b[i + 2] {
                    b[i + 2] = value;
                }
            }
        }
        Ok(found)
    }
}

pub fn segment_words(verb: Verb, points: &[Vec2]) -> String {
    let name = match verb {
        Verb::MoveTo => "move",
        Verb::LineTo => "line",
        Verb::QuadTo => "quad",
        Verb::CubicTo => "cubic",
        Verb::Close => "close",
    };
    let mut text = name.to_string();
    for p in points {
        text += " ";
        text += &point_words(*p);
    }
    text
}
