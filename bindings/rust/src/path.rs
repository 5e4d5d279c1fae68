use std::fmt::{self, Write as _};
use std::iter::FusedIterator;

use crate::memory::Text;
use crate::{raw, Error, Point, Rect};

/// How much room a call takes.
#[derive(Clone, Copy, Debug, Default, PartialEq, Eq, Hash)]
pub struct Need {
    /// Places of the verb buffer.
    pub verbs: usize,
    /// Points: pairs of floats of the point buffer.
    pub points: usize,
}

impl Need {
    pub(crate) const fn from_raw([verbs, points]: raw::Need) -> Need {
        Need {
            verbs: verbs as usize,
            points: points as usize,
        }
    }
}

/// The record of a path: how much its buffers hold, and where the pen is.
#[derive(Clone, Copy, Debug, Default, PartialEq)]
pub struct PathRecord {
    /// How many verbs are held.
    pub verbs: usize,
    /// How many points are held.
    pub points: usize,
    /// Where the contour starts; it means nothing while no verb is held.
    pub start: Point,
    /// Where the pen is; it means nothing while no verb is held.
    pub pen: Point,
}

impl PathRecord {
    pub(crate) const EMPTY: PathRecord = PathRecord {
        verbs: 0,
        points: 0,
        start: Point::new(0.0, 0.0),
        pen: Point::new(0.0, 0.0),
    };

    pub(crate) const fn counts(self) -> raw::Counts {
        [self.verbs as u64, self.points as u64, 0]
    }

    pub(crate) const fn places(self) -> raw::Places {
        [self.start.x, self.start.y, self.pen.x, self.pen.y]
    }

    pub(crate) const fn from_raw(counts: &raw::Counts, places: &raw::Places) -> PathRecord {
        let [verbs, points, _] = *counts;
        let [start_x, start_y, pen_x, pen_y] = *places;
        PathRecord {
            verbs: verbs as usize,
            points: points as usize,
            start: Point::new(start_x, start_y),
            pen: Point::new(pen_x, pen_y),
        }
    }
}

/// A part of a path.
///
/// Written out it is a command of SVG path data, each number with as many digits as it takes to read
/// the same float back, or with as many behind the point as the format asks for. SVG has no word for
/// a NaN or an infinity: a 0 and the greatest float stand in for them, so that what is printed can
/// be read. [`Path::to_svg`] refuses them.
///
/// ```
/// use shackletongue::{Point, Segment};
///
/// let line = Segment::Line(Point::new(0.1, -2.5));
/// assert_eq!(line.to_string(), "L0.1 -2.5");
/// assert_eq!(format!("{line:.2}"), "L0.10 -2.50");
/// assert_eq!(Segment::Move(Point::new(f32::NAN, 1.0)).to_string(), "M0 1");
/// ```
#[derive(Clone, Copy, Debug, PartialEq)]
pub enum Segment {
    /// A contour starts here.
    Move(Point),
    /// A line to the point.
    Line(Point),
    /// A quadratic curve: control, target.
    Quad(Point, Point),
    /// A cubic curve: two controls, target.
    Cubic(Point, Point, Point),
    /// Back to the contour's start.
    Close,
}

impl Segment {
    /// Whether no coordinate is a NaN or infinite.
    #[must_use]
    pub const fn is_finite(&self) -> bool {
        match self {
            Segment::Move(p) | Segment::Line(p) => p.is_finite(),
            Segment::Quad(p, q) => p.is_finite() && q.is_finite(),
            Segment::Cubic(p, q, r) => p.is_finite() && q.is_finite() && r.is_finite(),
            Segment::Close => true,
        }
    }
}

impl fmt::Display for Segment {
    fn fmt(&self, f: &mut fmt::Formatter<'_>) -> fmt::Result {
        match self {
            Segment::Move(p) => command(f, "M", &[*p]),
            Segment::Line(p) => command(f, "L", &[*p]),
            Segment::Quad(p, q) => command(f, "Q", &[*p, *q]),
            Segment::Cubic(p, q, r) => command(f, "C", &[*p, *q, *r]),
            Segment::Close => command(f, "Z", &[]),
        }
    }
}

/// A command with its points.
fn command(f: &mut fmt::Formatter<'_>, letter: &str, points: &[Point]) -> fmt::Result {
    f.write_str(letter)?;
    for (i, x) in points.iter().flat_map(|p| [p.x, p.y]).enumerate() {
        if i > 0 {
            f.write_str(" ")?;
        }
        let x = if x.is_nan() {
            0.0
        } else {
            x.clamp(f32::MIN, f32::MAX)
        };
        match f.precision() {
            Some(digits) => write!(f, "{x:.digits$}")?,
            None => write!(f, "{x}")?,
        }
    }
    Ok(())
}

/// A path to be read: a record over buffers that may hold anything. Nothing is tested until it is
/// read or [checked](Path::check).
///
/// Two paths are equal if they hold as many verbs and points, and these are the same, each float bit
/// by bit: a NaN equals itself, and 0 is not -0. Start, pen and what lies in the buffers behind the
/// path do not count.
#[derive(Clone, Copy)]
pub struct Path<'a> {
    counts: raw::Counts,
    places: raw::Places,
    verbs: &'a [u8],
    points: &'a [f32],
}

impl<'a> Path<'a> {
    /// The path of this record in these buffers: a byte per verb (0 move, 1 line, 2 quad, 3 cubic,
    /// 4 close), two floats per point.
    ///
    /// ```
    /// use shackletongue::{Error, Path, PathRecord};
    ///
    /// let record = PathRecord { verbs: 2, points: 1, ..PathRecord::default() };
    /// let path = Path::new(record, &[0, 9], &[1.0, 2.0]);
    /// let mut segments = path.segments();
    /// assert_eq!(segments.next().unwrap()?.to_string(), "M1 2");
    /// assert_eq!(segments.next(), Some(Err(Error::Malformed { verb: 1 })));
    /// assert_eq!(segments.next(), None);
    /// assert_eq!(path.check(), Err(Error::Malformed { verb: 1 }));
    /// # Ok::<(), Error>(())
    /// ```
    #[must_use]
    pub const fn new(record: PathRecord, verbs: &'a [u8], points: &'a [f32]) -> Path<'a> {
        Path {
            counts: record.counts(),
            places: record.places(),
            verbs,
            points,
        }
    }

    pub(crate) const fn from_raw(
        counts: raw::Counts,
        places: raw::Places,
        verbs: &'a [u8],
        points: &'a [f32],
    ) -> Path<'a> {
        Path {
            counts,
            places,
            verbs,
            points,
        }
    }

    /// Its record.
    #[must_use]
    pub const fn record(&self) -> PathRecord {
        PathRecord::from_raw(&self.counts, &self.places)
    }

    /// Whether its record counts no verbs.
    #[must_use]
    pub const fn is_empty(&self) -> bool {
        self.record().verbs == 0
    }

    /// The verbs that are held; none where the record counts more than there are.
    #[must_use]
    pub fn verbs(&self) -> &'a [u8] {
        self.verbs.get(..self.record().verbs).unwrap_or_default()
    }

    /// The floats of the points that are held, x and y in turn; none where the record counts more
    /// than there are.
    #[must_use]
    pub fn points(&self) -> &'a [f32] {
        let floats = self.record().points.saturating_mul(2);
        self.points.get(..floats).unwrap_or_default()
    }

    /// Its segments, from the first on. An error ends them.
    pub const fn segments(&self) -> Segments<'a> {
        Segments {
            path: *self,
            cursor: [0; 2],
            ended: false,
        }
    }

    /// The path as one that was read to its end without an error: its segments are no results.
    ///
    /// # Errors
    ///
    /// [`Error::BadRecord`] or [`Error::Malformed`].
    pub fn check(&self) -> Result<CheckedPath<'a>, Error> {
        self.bounding_box()?;
        Ok(CheckedPath(*self))
    }

    /// The least box round the points of all segments, controls included; points that are not
    /// finite are passed over, and where none is left there is no box.
    ///
    /// # Errors
    ///
    /// As [`check`](Path::check).
    pub fn bounding_box(&self) -> Result<Option<Rect>, Error> {
        /// The number of an empty box.
        const NONE: u32 = 101;
        let (mut rect, mut place) = ([0.0; 4], [0]);
        let number = self.held().bounding_box(&mut rect, &mut place);
        if number == NONE {
            return Ok(None);
        }
        Error::check(number, place[0])?;
        let [min_x, min_y, max_x, max_y] = rect;
        Ok(Some(Rect::new((min_x, min_y), (max_x, max_y))))
    }

    /// The path as SVG path data, every float with all its digits; nothing of an empty path.
    ///
    /// A path that does not begin with a move, which no builder makes, is drawn from (0, 0), as
    /// building calls on an empty path are.
    ///
    /// # Errors
    ///
    /// As [`check`](Path::check), then [`Error::NotFinite`] where a coordinate is a NaN or infinite:
    /// SVG has no word for it, and what a picture without it shows would not be the path.
    /// [`Error::NoRoom`] where there is not so much memory.
    pub fn to_svg(&self) -> Result<String, Error> {
        self.check()?.to_svg()
    }

    const fn held(&self) -> raw::Held<'_> {
        raw::Held {
            counts: &self.counts,
            places: &self.places,
            verbs: self.verbs,
            points: self.points,
        }
    }
}

impl PartialEq for Path<'_> {
    fn eq(&self, other: &Path<'_>) -> bool {
        let counts = |path: &Path<'_>| (path.record().verbs, path.record().points);
        let bits = |float: &f32| float.to_bits();
        counts(self) == counts(other)
            && self.verbs() == other.verbs()
            && self
                .points()
                .iter()
                .map(bits)
                .eq(other.points().iter().map(bits))
    }
}

impl Eq for Path<'_> {}

impl fmt::Debug for Path<'_> {
    fn fmt(&self, f: &mut fmt::Formatter<'_>) -> fmt::Result {
        f.debug_struct("Path")
            .field("record", &self.record())
            .finish_non_exhaustive()
    }
}

impl<'a> IntoIterator for Path<'a> {
    type Item = Result<Segment, Error>;
    type IntoIter = Segments<'a>;

    fn into_iter(self) -> Segments<'a> {
        self.segments()
    }
}

/// The segments of a path that was not checked. An error is the last item.
#[derive(Clone, Debug)]
#[must_use]
pub struct Segments<'a> {
    path: Path<'a>,
    cursor: [u64; 2],
    ended: bool,
}

impl Segments<'_> {
    /// The verbs that are still to be read, if the record suits the buffers.
    fn left(&self) -> usize {
        let [read, _] = self.cursor;
        self.path.verbs().len().saturating_sub(read as usize)
    }
}

impl Iterator for Segments<'_> {
    type Item = Result<Segment, Error>;

    fn next(&mut self) -> Option<Self::Item> {
        if self.ended {
            return None;
        }
        let [verb, point] = self.cursor;
        let (mut cursor, mut floats) = ([verb, point, 0], [0.0; 6]);
        let number = self.path.held().read(&mut cursor, &mut floats);
        if let Err(error) = Error::check(number, verb) {
            self.ended = true;
            return Some(Err(error));
        }
        let [verb, point, kind] = cursor;
        self.cursor = [verb, point];
        let [a, b, c, d, e, f] = floats;
        let (p, q, r) = (Point::new(a, b), Point::new(c, d), Point::new(e, f));
        Some(Ok(match kind {
            0 => Segment::Move(p),
            1 => Segment::Line(p),
            2 => Segment::Quad(p, q),
            3 => Segment::Cubic(p, q, r),
            4 => Segment::Close,
            _ => {
                self.ended = true;
                return None;
            }
        }))
    }

    fn size_hint(&self) -> (usize, Option<usize>) {
        // A bad record gives one error, whatever it counts.
        (0, Some(if self.ended { 0 } else { self.left().max(1) }))
    }
}

impl FusedIterator for Segments<'_> {}

/// A path that was read to its end without an error: one that [`Path::check`] found good, or one
/// that a builder holds.
///
/// Equality is that of [`Path`].
///
/// ```
/// use shackletongue::{Error, PathBuilder, Segment};
///
/// let mut path = PathBuilder::new();
/// path.line_to((3.0, 4.0))?;
/// let path = path.path();
/// let lengths: Vec<_> = path.segments().map(|segment| segment.to_string().len()).collect();
/// assert_eq!(lengths, [4, 4]);
/// assert_eq!(path.to_svg()?, "M0 0L3 4");
/// # Ok::<(), Error>(())
/// ```
#[derive(Clone, Copy, PartialEq, Eq)]
pub struct CheckedPath<'a>(Path<'a>);

impl<'a> CheckedPath<'a> {
    /// The path that a builder holds: only the library's calls have written it.
    pub(crate) const fn of_builder(path: Path<'a>) -> CheckedPath<'a> {
        CheckedPath(path)
    }

    /// Its record.
    #[must_use]
    pub const fn record(&self) -> PathRecord {
        self.0.record()
    }

    /// Whether it holds no segments.
    #[must_use]
    pub const fn is_empty(&self) -> bool {
        self.0.is_empty()
    }

    /// The verbs, a byte each; see [`Path::new`].
    #[must_use]
    pub fn verbs(&self) -> &'a [u8] {
        self.0.verbs()
    }

    /// The floats of the points, x and y in turn.
    #[must_use]
    pub fn points(&self) -> &'a [f32] {
        self.0.points()
    }

    /// Whether no coordinate is a NaN or infinite.
    #[must_use]
    pub fn is_finite(&self) -> bool {
        self.segments().all(|segment| segment.is_finite())
    }

    /// Its segments, from the first on.
    pub const fn segments(&self) -> CheckedSegments<'a> {
        CheckedSegments(self.0.segments())
    }

    /// The box round all points; see [`Path::bounding_box`].
    #[must_use]
    pub fn bounding_box(&self) -> Option<Rect> {
        // It was found good, so an error does not come.
        self.0.bounding_box().ok().flatten()
    }

    /// The path as SVG path data; see [`Path::to_svg`].
    ///
    /// # Errors
    ///
    /// [`Error::NotFinite`] or [`Error::NoRoom`].
    pub fn to_svg(&self) -> Result<String, Error> {
        let mut data = Text::default();
        for (verb, segment) in self.segments().enumerate() {
            if !segment.is_finite() {
                return Err(Error::NotFinite { verb });
            }
            let opened = verb > 0 || matches!(segment, Segment::Move(_));
            let opening = if opened { "" } else { "M0 0" };
            write!(data, "{opening}{segment}").map_err(|_| Error::NoRoom)?;
        }
        Ok(data.0)
    }
}

impl fmt::Debug for CheckedPath<'_> {
    fn fmt(&self, f: &mut fmt::Formatter<'_>) -> fmt::Result {
        f.debug_struct("CheckedPath")
            .field("record", &self.record())
            .finish_non_exhaustive()
    }
}

impl<'a> From<CheckedPath<'a>> for Path<'a> {
    fn from(path: CheckedPath<'a>) -> Path<'a> {
        path.0
    }
}

impl<'a> TryFrom<Path<'a>> for CheckedPath<'a> {
    type Error = Error;

    fn try_from(path: Path<'a>) -> Result<CheckedPath<'a>, Error> {
        path.check()
    }
}

impl<'a> IntoIterator for CheckedPath<'a> {
    type Item = Segment;
    type IntoIter = CheckedSegments<'a>;

    fn into_iter(self) -> CheckedSegments<'a> {
        self.segments()
    }
}

/// The segments of a checked path.
#[derive(Clone, Debug)]
#[must_use]
pub struct CheckedSegments<'a>(Segments<'a>);

impl Iterator for CheckedSegments<'_> {
    type Item = Segment;

    fn next(&mut self) -> Option<Segment> {
        // The path was found good, so an error does not come.
        self.0.next()?.ok()
    }

    fn size_hint(&self) -> (usize, Option<usize>) {
        (self.0.left(), Some(self.0.left()))
    }
}

impl ExactSizeIterator for CheckedSegments<'_> {}

impl FusedIterator for CheckedSegments<'_> {}
