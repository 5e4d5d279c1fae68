// The operators are those of floats, which neither overflow nor divide by 0 to a panic.
#![allow(clippy::arithmetic_side_effects)]

use std::fmt;
use std::ops::{Add, AddAssign, Div, DivAssign, Mul, MulAssign, Neg, Sub, SubAssign};

/// A point of the plane, or the way from one point to another. y grows downwards.
///
/// ```
/// use shackletongue::Point;
///
/// let (a, b) = (Point::new(1.0, 2.0), Point::new(4.0, 6.0));
/// assert_eq!((b - a) * 0.5, Point::new(1.5, 2.0));
/// assert_eq!(-a / 2.0 + b, Point::from([3.5, 5.0]));
/// assert_eq!(a.to_string(), "(1, 2)");
/// assert_eq!(format!("{b:.1}"), "(4.0, 6.0)");
/// ```
#[derive(Clone, Copy, Debug, Default, PartialEq)]
pub struct Point {
    /// To the right.
    pub x: f32,
    /// Downwards.
    pub y: f32,
}

impl Point {
    /// The point at x, y.
    #[must_use]
    pub const fn new(x: f32, y: f32) -> Point {
        Point { x, y }
    }

    /// Whether neither component is a NaN or infinite.
    #[must_use]
    pub const fn is_finite(self) -> bool {
        self.x.is_finite() && self.y.is_finite()
    }
}

impl fmt::Display for Point {
    /// `(x, y)`; what the format asks for is asked of each component.
    fn fmt(&self, f: &mut fmt::Formatter<'_>) -> fmt::Result {
        f.write_str("(")?;
        self.x.fmt(f)?;
        f.write_str(", ")?;
        self.y.fmt(f)?;
        f.write_str(")")
    }
}

impl From<(f32, f32)> for Point {
    fn from((x, y): (f32, f32)) -> Point {
        Point { x, y }
    }
}

impl From<[f32; 2]> for Point {
    fn from([x, y]: [f32; 2]) -> Point {
        Point { x, y }
    }
}

impl From<Point> for (f32, f32) {
    fn from(p: Point) -> (f32, f32) {
        (p.x, p.y)
    }
}

impl From<Point> for [f32; 2] {
    fn from(p: Point) -> [f32; 2] {
        [p.x, p.y]
    }
}

impl Add for Point {
    type Output = Point;

    fn add(self, other: Point) -> Point {
        Point::new(self.x + other.x, self.y + other.y)
    }
}

impl Sub for Point {
    type Output = Point;

    fn sub(self, other: Point) -> Point {
        Point::new(self.x - other.x, self.y - other.y)
    }
}

impl Neg for Point {
    type Output = Point;

    fn neg(self) -> Point {
        Point::new(-self.x, -self.y)
    }
}

impl Mul<f32> for Point {
    type Output = Point;

    fn mul(self, factor: f32) -> Point {
        Point::new(self.x * factor, self.y * factor)
    }
}

impl Mul<Point> for f32 {
    type Output = Point;

    fn mul(self, point: Point) -> Point {
        point * self
    }
}

impl Div<f32> for Point {
    type Output = Point;

    fn div(self, divisor: f32) -> Point {
        Point::new(self.x / divisor, self.y / divisor)
    }
}

impl AddAssign for Point {
    fn add_assign(&mut self, other: Point) {
        *self = *self + other;
    }
}

impl SubAssign for Point {
    fn sub_assign(&mut self, other: Point) {
        *self = *self - other;
    }
}

impl MulAssign<f32> for Point {
    fn mul_assign(&mut self, factor: f32) {
        *self = *self * factor;
    }
}

impl DivAssign<f32> for Point {
    fn div_assign(&mut self, divisor: f32) {
        *self = *self / divisor;
    }
}

/// A rectangle: the bounds of a shape, or the box round a path.
///
/// ```
/// use shackletongue::{Point, Rect};
///
/// let rect = Rect::new((1.0, 2.0), (5.0, 10.0));
/// assert_eq!((rect.width(), rect.height()), (4.0, 8.0));
/// assert_eq!(rect.center(), Point::new(3.0, 6.0));
/// assert!(rect.contains((5.0, 10.0)) && !rect.contains((5.1, 10.0)));
/// assert!(!rect.is_empty());
/// ```
#[derive(Clone, Copy, Debug, Default, PartialEq)]
pub struct Rect {
    /// The top left corner.
    pub min: Point,
    /// The bottom right corner.
    pub max: Point,
}

impl Rect {
    /// The rectangle between two corners, which are taken as they are.
    #[must_use]
    pub fn new(min: impl Into<Point>, max: impl Into<Point>) -> Rect {
        Rect {
            min: min.into(),
            max: max.into(),
        }
    }

    /// From the left side to the right one; below 0 where these are exchanged.
    #[must_use]
    pub const fn width(&self) -> f32 {
        self.max.x - self.min.x
    }

    /// From the top to the bottom; below 0 where these are exchanged.
    #[must_use]
    pub const fn height(&self) -> f32 {
        self.max.y - self.min.y
    }

    /// The middle. The halves are added, so that it is finite where the corners are.
    #[must_use]
    pub fn center(&self) -> Point {
        self.min * 0.5 + self.max * 0.5
    }

    /// Whether the point lies within or on the border: the box round a path contains every point of
    /// the path.
    #[must_use]
    pub fn contains(&self, point: impl Into<Point>) -> bool {
        let Point { x, y } = point.into();
        self.min.x <= x && x <= self.max.x && self.min.y <= y && y <= self.max.y
    }

    /// Whether it has no area: its corners are exchanged, lie on one line or are NaNs. A rectangle
    /// without area may still contain the points of its border.
    #[must_use]
    pub fn is_empty(&self) -> bool {
        !(self.min.x < self.max.x && self.min.y < self.max.y)
    }

    /// The least rectangle that holds both.
    #[must_use]
    pub fn union(&self, other: Rect) -> Rect {
        Rect {
            min: Point::new(self.min.x.min(other.min.x), self.min.y.min(other.min.y)),
            max: Point::new(self.max.x.max(other.max.x), self.max.y.max(other.max.y)),
        }
    }
}
