use std::fmt;

use crate::{raw, Error, Need, PathBuilder, Point, Rect};

/// The radii of a shape's corners, each in x and in y.
#[derive(Clone, Copy, Debug, Default, PartialEq)]
pub struct CornerRadii {
    /// At min x, min y.
    pub top_left: Point,
    /// At max x, min y.
    pub top_right: Point,
    /// At min x, max y.
    pub bottom_left: Point,
    /// At max x, max y.
    pub bottom_right: Point,
}

impl CornerRadii {
    /// The same radius in x and y at every corner.
    #[must_use]
    pub const fn uniform(radius: f32) -> CornerRadii {
        let corner = Point::new(radius, radius);
        CornerRadii {
            top_left: corner,
            top_right: corner,
            bottom_left: corner,
            bottom_right: corner,
        }
    }
}

/// A rounded superellipse ("squircle"), solved once: it is asked and drawn as often as is liked.
///
/// Two are equal if they were made of equal bounds and radii.
///
/// ```
/// use shackletongue::{CornerRadii, Error, Point, Rect, RoundSuperellipse};
///
/// let bounds = Rect::new((0.0, 0.0), (10.0, 10.0));
/// let shape = RoundSuperellipse::new(bounds, CornerRadii::uniform(3.0))?;
/// assert!(shape.contains(Point::new(5.0, 5.0)));
/// assert!(!shape.contains(Point::new(0.1, 0.1)));
/// assert!(shape.is_consistent());
/// assert!(shape.to_path()?.to_svg()?.starts_with("M5 0Q"));
///
/// let refused = RoundSuperellipse::new(bounds, CornerRadii::uniform(-1.0));
/// assert_eq!(refused, Err(Error::NegativeRadius));
/// # Ok::<(), Error>(())
/// ```
#[derive(Clone, Copy)]
pub struct RoundSuperellipse {
    sizes: raw::Sizes,
    shape: raw::Shape,
}

impl RoundSuperellipse {
    /// Solves the shape of these bounds and radii.
    ///
    /// # Errors
    ///
    /// [`Error::BeyondLimit`], [`Error::NegativeRadius`] or [`Error::Inverted`], the first that
    /// applies.
    pub fn new(bounds: Rect, radii: CornerRadii) -> Result<RoundSuperellipse, Error> {
        let sizes = sizes_of(bounds, radii);
        let mut shape = [0.0; 89];
        Error::check(raw::shape(&sizes, &mut shape), 0)?;
        Ok(RoundSuperellipse { sizes, shape })
    }

    /// The bounds that it was made of.
    #[must_use]
    pub const fn bounds(&self) -> Rect {
        bounds_of(&self.sizes)
    }

    /// The radii that it was made of.
    #[must_use]
    pub const fn radii(&self) -> CornerRadii {
        radii_of(&self.sizes)
    }

    /// Whether the touch area contains the point. A NaN is judged by IEEE comparison.
    #[must_use]
    pub fn contains(&self, point: impl Into<Point>) -> bool {
        let point = point.into();
        raw::contains(&self.shape, point.x, point.y) == 1
    }

    /// Whether outline and touch area are consistent: no corner looks the wrong way, the middle is
    /// inside, the sides are not too small where they lie, no corner is too oval, and the outline
    /// keeps to the bounds. Then the two are at most 0.3 % of the longer side apart, as measured.
    /// Ask before you cut brass: the program `inspect` says which it is, and
    /// docs/SPECIFICATION.md, "Consistency", what helps.
    #[must_use]
    pub fn is_consistent(&self) -> bool {
        raw::is_consistent(&self.sizes, &self.shape) == 1
    }

    /// How many verbs and points [`PathBuilder::add`](crate::PathBuilder::add) adds: at most 1,035
    /// and 2,074.
    #[must_use]
    pub fn outline_need(&self) -> Need {
        let mut need = [0; 2];
        raw::outline_need(&self.shape, &mut need);
        Need::from_raw(need)
    }

    /// Its outline as a path of its own.
    ///
    /// # Errors
    ///
    /// [`Error::NoRoom`] where there is no memory for it.
    pub fn to_path(&self) -> Result<PathBuilder<'static>, Error> {
        let mut path = PathBuilder::new();
        path.add(self)?;
        Ok(path)
    }

    /// The solved shape as the library keeps it; include/shackletongue.h has the layout.
    #[must_use]
    pub const fn as_floats(&self) -> &[f32; 89] {
        &self.shape
    }
}

impl PartialEq for RoundSuperellipse {
    fn eq(&self, other: &RoundSuperellipse) -> bool {
        // They are finite, and the solved shape, which may hold NaNs, follows from them.
        self.sizes == other.sizes
    }
}

impl Eq for RoundSuperellipse {}

impl fmt::Debug for RoundSuperellipse {
    fn fmt(&self, f: &mut fmt::Formatter<'_>) -> fmt::Result {
        f.debug_struct("RoundSuperellipse")
            .field("bounds", &self.bounds())
            .field("radii", &self.radii())
            .finish_non_exhaustive()
    }
}

/// A button as a panel file has it: its shape may be refused.
#[derive(Clone, Copy, Debug, Default, PartialEq)]
pub struct Button {
    /// The bounds.
    pub bounds: Rect,
    /// The radii of the corners.
    pub radii: CornerRadii,
}

impl Button {
    pub(crate) const fn from_sizes(sizes: &raw::Sizes) -> Button {
        Button {
            bounds: bounds_of(sizes),
            radii: radii_of(sizes),
        }
    }

    pub(crate) const fn sizes(&self) -> raw::Sizes {
        sizes_of(self.bounds, self.radii)
    }

    /// Its shape.
    ///
    /// # Errors
    ///
    /// As [`RoundSuperellipse::new`].
    pub fn shape(&self) -> Result<RoundSuperellipse, Error> {
        RoundSuperellipse::new(self.bounds, self.radii)
    }

    /// Its record, as it stands in a panel file.
    ///
    /// ```
    /// use shackletongue::{Button, Error, Panel, Record};
    ///
    /// let button = Button::default();
    /// let file = button.to_bytes();
    /// assert_eq!(file[..4], [48, 0, 1, 0]);
    /// assert_eq!(Panel::new(&file)?.records().next(), Some(Record::Button(button)));
    /// # Ok::<(), Error>(())
    /// ```
    #[must_use]
    pub fn to_bytes(&self) -> [u8; 52] {
        let mut record = [0; 52];
        // A button fills them, so this is not refused.
        raw::put_record(&mut record, &mut [0, raw::BUTTON], &self.sizes());
        record
    }
}

impl From<RoundSuperellipse> for Button {
    fn from(shape: RoundSuperellipse) -> Button {
        Button::from_sizes(&shape.sizes)
    }
}

impl TryFrom<Button> for RoundSuperellipse {
    type Error = Error;

    fn try_from(button: Button) -> Result<RoundSuperellipse, Error> {
        button.shape()
    }
}

const fn sizes_of(bounds: Rect, radii: CornerRadii) -> raw::Sizes {
    let (Rect { min, max }, r) = (bounds, radii);
    [
        min.x,
        min.y,
        max.x,
        max.y,
        r.top_left.x,
        r.top_left.y,
        r.top_right.x,
        r.top_right.y,
        r.bottom_left.x,
        r.bottom_left.y,
        r.bottom_right.x,
        r.bottom_right.y,
    ]
}

const fn bounds_of(sizes: &raw::Sizes) -> Rect {
    let [min_x, min_y, max_x, max_y, ..] = *sizes;
    Rect {
        min: Point::new(min_x, min_y),
        max: Point::new(max_x, max_y),
    }
}

const fn radii_of(sizes: &raw::Sizes) -> CornerRadii {
    let [_, _, _, _, tl_x, tl_y, tr_x, tr_y, bl_x, bl_y, br_x, br_y] = *sizes;
    CornerRadii {
        top_left: Point::new(tl_x, tl_y),
        top_right: Point::new(tr_x, tr_y),
        bottom_left: Point::new(bl_x, bl_y),
        bottom_right: Point::new(br_x, br_y),
    }
}
