use std::fmt;

use crate::memory::{lengthen, reserve};
use crate::RoundSuperellipse;
use crate::{raw, CheckedPath, CheckedSegments, Error, Need, Path, PathRecord, Point, Rect};

/// Where a builder writes.
enum Buffers<'a> {
    /// Lengthened as calls need it, up to the limit if there is one.
    Owned {
        verbs: Vec<u8>,
        points: Vec<f32>,
        limit: Option<Need>,
    },
    Lent {
        verbs: &'a mut [u8],
        points: &'a mut [f32],
    },
}

/// Builds a path by seven calls: in memory of its own, which grows or not, or in memory that is
/// lent. A call that is refused has changed nothing.
///
/// A builder begins with an empty path or with one that was found good, so what it holds can be read
/// without an error. A clone has memory of its own, for as much as the builder had room for, also
/// where that was lent; like any clone it ends the program where there is no memory for it.
///
/// ```
/// use shackletongue::{CornerRadii, Error, PathBuilder, Rect, RoundSuperellipse, Segment};
///
/// let bounds = Rect::new((0.0, 0.0), (10.0, 10.0));
/// let square = RoundSuperellipse::new(bounds, CornerRadii::uniform(0.0))?;
/// let mut path = PathBuilder::new();
/// path.add(&square)?;
/// assert_eq!((path.record().verbs, path.record().points), (11, 10));
/// assert_eq!(path.segments().next(), Some(Segment::Move((5.0, 0.0).into())));
/// assert_eq!(path.bounding_box(), Some(bounds));
///
/// let (mut verbs, mut points) = ([0; 10], [0.0; 20]);
/// let mut lent = PathBuilder::lent(&mut verbs, &mut points);
/// assert_eq!(lent.add(&square), Err(Error::NoRoom));
/// assert!(lent.is_empty());
/// # Ok::<(), Error>(())
/// ```
pub struct PathBuilder<'a> {
    counts: raw::Counts,
    places: raw::Places,
    buffers: Buffers<'a>,
}

impl PathBuilder<'static> {
    /// An empty path in memory that grows by need.
    #[must_use]
    pub const fn new() -> PathBuilder<'static> {
        PathBuilder::empty(Buffers::Owned {
            verbs: Vec::new(),
            points: Vec::new(),
            limit: None,
        })
    }

    /// An empty path in memory of its own for so many verbs and points, and no more. The memory is
    /// there from the start, but no more of it is touched than twice what the path takes.
    ///
    /// # Errors
    ///
    /// [`Error::NoRoom`] where there is not so much memory.
    pub fn fixed(room: Need) -> Result<PathBuilder<'static>, Error> {
        let (mut verbs, mut points) = (Vec::new(), Vec::new());
        reserve(&mut verbs, room.verbs)?;
        reserve(&mut points, room.points.saturating_mul(2))?;
        Ok(PathBuilder::empty(Buffers::Owned {
            verbs,
            points,
            limit: Some(room),
        }))
    }
}

impl<'a> PathBuilder<'a> {
    const fn empty(buffers: Buffers<'a>) -> PathBuilder<'a> {
        PathBuilder {
            counts: PathRecord::EMPTY.counts(),
            places: PathRecord::EMPTY.places(),
            buffers,
        }
    }

    /// An empty path in lent memory: a byte per verb, two floats per point.
    #[must_use]
    pub const fn lent(verbs: &'a mut [u8], points: &'a mut [f32]) -> PathBuilder<'a> {
        PathBuilder::empty(Buffers::Lent { verbs, points })
    }

    /// A path that was begun in lent memory and is continued there: it is read to its end first.
    ///
    /// ```
    /// use shackletongue::{Error, PathBuilder, PathRecord};
    ///
    /// let (mut verbs, mut points) = ([0; 4], [0.0; 8]);
    /// let mut path = PathBuilder::lent(&mut verbs, &mut points);
    /// path.move_to((1.0, 2.0))?;
    /// let record = path.record();
    ///
    /// let mut path = PathBuilder::resume(record, &mut verbs, &mut points)?;
    /// path.line_to((3.0, 4.0))?;
    /// assert_eq!(path.to_svg()?, "M1 2L3 4");
    ///
    /// let bad = PathRecord { verbs: 5, ..record };
    /// let refused = PathBuilder::resume(bad, &mut verbs, &mut points);
    /// assert_eq!(refused.err(), Some(Error::BadRecord));
    /// # Ok::<(), Error>(())
    /// ```
    ///
    /// # Errors
    ///
    /// [`Error::BadRecord`] where the record does not suit the memory, [`Error::Malformed`] where
    /// the memory does not hold such a path.
    pub fn resume(
        record: PathRecord,
        verbs: &'a mut [u8],
        points: &'a mut [f32],
    ) -> Result<PathBuilder<'a>, Error> {
        Path::new(record, verbs, points).check()?;
        Ok(PathBuilder {
            counts: record.counts(),
            places: record.places(),
            buffers: Buffers::Lent { verbs, points },
        })
    }

    /// Starts a contour.
    ///
    /// # Errors
    ///
    /// This and the other building calls: [`Error::NoRoom`]. Where memory grows this is for want of
    /// memory.
    pub fn move_to(&mut self, to: impl Into<Point>) -> Result<(), Error> {
        let to = to.into();
        self.build(|_| PLAIN, |lent| lent.move_to(to.x, to.y))
    }

    /// A line. On an empty path, as the curves, it first adds a move to (0, 0).
    ///
    /// # Errors
    ///
    /// As [`move_to`](PathBuilder::move_to).
    pub fn line_to(&mut self, to: impl Into<Point>) -> Result<(), Error> {
        let to = to.into();
        self.build(|_| PLAIN, |lent| lent.line_to(to.x, to.y))
    }

    /// A quadratic curve.
    ///
    /// # Errors
    ///
    /// As [`move_to`](PathBuilder::move_to).
    pub fn quad_to(
        &mut self,
        control: impl Into<Point>,
        to: impl Into<Point>,
    ) -> Result<(), Error> {
        let (c, to) = (control.into(), to.into());
        self.build(|_| PLAIN, |lent| lent.quad_to(c.x, c.y, to.x, to.y))
    }

    /// A conic section, lowered to 1 to 64 quads; a line where the weight is not finite or at most
    /// 0, or a point is not finite. The answer is the joint word: the conic is 0 to 64, and bit k
    /// is set where a quad starts at k; it is 0 for a line.
    ///
    /// ```
    /// # use shackletongue::{Error, PathBuilder};
    /// let mut path = PathBuilder::new();
    /// assert_eq!(path.conic_to((1.0, 0.0), (2.0, 0.0), 1.0)?, 1);
    /// assert_eq!(path.conic_to((1.0, 0.0), (2.0, 0.0), f32::NAN)?, 0);
    /// # Ok::<(), Error>(())
    /// ```
    ///
    /// # Errors
    ///
    /// As [`move_to`](PathBuilder::move_to).
    pub fn conic_to(
        &mut self,
        control: impl Into<Point>,
        to: impl Into<Point>,
        weight: f32,
    ) -> Result<u64, Error> {
        let (c, to) = (control.into(), to.into());
        self.build(
            |path| path.conic_need(c, to, weight),
            |lent| lent.conic_to(c.x, c.y, to.x, to.y, weight),
        )?;
        Ok(self.counts[2])
    }

    /// A cubic curve.
    ///
    /// # Errors
    ///
    /// As [`move_to`](PathBuilder::move_to).
    pub fn cubic_to(
        &mut self,
        control_1: impl Into<Point>,
        control_2: impl Into<Point>,
        to: impl Into<Point>,
    ) -> Result<(), Error> {
        let (a, b, to) = (control_1.into(), control_2.into(), to.into());
        self.build(
            |_| PLAIN,
            |lent| lent.cubic_to(a.x, a.y, b.x, b.y, to.x, to.y),
        )
    }

    /// Back to the contour's start. On an empty path it adds nothing.
    ///
    /// # Errors
    ///
    /// As [`move_to`](PathBuilder::move_to).
    pub fn close(&mut self) -> Result<(), Error> {
        self.build(|_| PLAIN, |lent| lent.close())
    }

    /// The outline of a shape, as a closed contour of its own, whole or not at all.
    ///
    /// # Errors
    ///
    /// As [`move_to`](PathBuilder::move_to).
    pub fn add(&mut self, shape: &RoundSuperellipse) -> Result<(), Error> {
        self.build(|_| shape.outline_need(), |lent| lent.add(shape.as_floats()))
    }

    /// How much [`conic_to`](PathBuilder::conic_to) would add here.
    #[must_use]
    pub fn conic_need(&self, control: impl Into<Point>, to: impl Into<Point>, weight: f32) -> Need {
        let (c, to) = (control.into(), to.into());
        let mut need = [0; 2];
        let conic = [c.x, c.y, to.x, to.y, weight];
        raw::conic_need(&self.counts, &self.places, conic, &mut need);
        Need::from_raw(need)
    }

    /// Empties the path; the memory is kept.
    pub fn clear(&mut self) {
        self.counts = PathRecord::EMPTY.counts();
        self.places = PathRecord::EMPTY.places();
    }

    /// The record: how much is held, and where the pen is.
    #[must_use]
    pub const fn record(&self) -> PathRecord {
        PathRecord::from_raw(&self.counts, &self.places)
    }

    /// Whether it holds no segments.
    #[must_use]
    pub const fn is_empty(&self) -> bool {
        self.record().verbs == 0
    }

    /// How much room there is, held and free; where memory grows, how much there is of it.
    #[must_use]
    pub fn room(&self) -> Need {
        let (verbs, points) = match &self.buffers {
            Buffers::Owned {
                limit: Some(room), ..
            } => return *room,
            Buffers::Owned { verbs, points, .. } => (verbs.len(), points.len()),
            Buffers::Lent { verbs, points } => (verbs.len(), points.len()),
        };
        Need {
            verbs,
            points: points / 2,
        }
    }

    /// The path, to be read.
    #[must_use]
    pub fn path(&self) -> CheckedPath<'_> {
        let (verbs, points): (&[u8], &[f32]) = match &self.buffers {
            Buffers::Owned { verbs, points, .. } => (verbs, points),
            Buffers::Lent { verbs, points } => (verbs, points),
        };
        CheckedPath::of_builder(Path::from_raw(self.counts, self.places, verbs, points))
    }

    /// The segments, from the first on.
    pub fn segments(&self) -> CheckedSegments<'_> {
        self.path().segments()
    }

    /// The box round all points; see [`Path::bounding_box`].
    #[must_use]
    pub fn bounding_box(&self) -> Option<Rect> {
        self.path().bounding_box()
    }

    /// The path as SVG path data; see [`Path::to_svg`].
    ///
    /// # Errors
    ///
    /// [`Error::NotFinite`] or [`Error::NoRoom`].
    pub fn to_svg(&self) -> Result<String, Error> {
        self.path().to_svg()
    }

    /// Makes a call; where it lacks room and the memory grows, makes it again with what it needs.
    fn build(
        &mut self,
        need: impl FnOnce(&Self) -> Need,
        call: impl Fn(&mut raw::Lent<'_>) -> u32,
    ) -> Result<(), Error> {
        let answer = Error::check(call(&mut self.lend()), 0);
        if answer != Err(Error::NoRoom) || !self.grow(need(self))? {
            return answer;
        }
        Error::check(call(&mut self.lend()), 0)
    }

    fn lend(&mut self) -> raw::Lent<'_> {
        let (verbs, points): (&mut [u8], &mut [f32]) = match &mut self.buffers {
            Buffers::Owned { verbs, points, .. } => (verbs, points),
            Buffers::Lent { verbs, points } => (verbs, points),
        };
        raw::Lent {
            counts: &mut self.counts,
            places: &mut self.places,
            verbs,
            points,
        }
    }

    /// Makes room for this much more, as far as the limit lets it; answers whether there is more
    /// room than before.
    fn grow(&mut self, need: Need) -> Result<bool, Error> {
        let held = self.record();
        let Buffers::Owned {
            verbs,
            points,
            limit,
        } = &mut self.buffers
        else {
            return Ok(false);
        };
        let limit = limit.unwrap_or(Need {
            verbs: usize::MAX,
            points: usize::MAX,
        });
        let more_verbs = grow(verbs, held.verbs.saturating_add(need.verbs), limit.verbs)?;
        let floats = held.points.saturating_add(need.points).saturating_mul(2);
        let more_points = grow(points, floats, limit.points.saturating_mul(2))?;
        Ok(more_verbs || more_points)
    }
}

/// Lengthens a buffer to as much as is wanted, and at least to twice its length, but not over the
/// limit; answers whether it has become longer.
fn grow<T: Clone + Default>(
    buffer: &mut Vec<T>,
    wanted: usize,
    limit: usize,
) -> Result<bool, Error> {
    let (len, wanted) = (buffer.len(), wanted.min(limit));
    if wanted <= len {
        return Ok(false);
    }
    let twice = len.saturating_mul(2).clamp(wanted, limit);
    // Where there is no memory for twice as much there may be for what is wanted.
    lengthen(buffer, twice).or_else(|_| lengthen(buffer, wanted))?;
    Ok(true)
}

/// No call needs more but a conic and an outline: a move and a cubic.
const PLAIN: Need = Need {
    verbs: 2,
    points: 4,
};

impl Clone for PathBuilder<'_> {
    fn clone(&self) -> Self {
        let path = self.path();
        PathBuilder {
            counts: self.counts,
            places: self.places,
            buffers: Buffers::Owned {
                verbs: path.verbs().to_vec(),
                points: path.points().to_vec(),
                limit: match &self.buffers {
                    Buffers::Owned { limit, .. } => *limit,
                    Buffers::Lent { .. } => Some(self.room()),
                },
            },
        }
    }
}

impl Default for PathBuilder<'_> {
    fn default() -> Self {
        PathBuilder::new()
    }
}

impl fmt::Debug for PathBuilder<'_> {
    fn fmt(&self, f: &mut fmt::Formatter<'_>) -> fmt::Result {
        f.debug_struct("PathBuilder")
            .field("record", &self.record())
            .field("room", &self.room())
            .finish_non_exhaustive()
    }
}
