use std::fmt;
use std::iter::FusedIterator;

use crate::memory::{lengthen, reserve};
use crate::{raw, Button, Error, Point};

/// A record of a panel file.
#[derive(Clone, Copy, Debug, PartialEq)]
pub enum Record {
    /// Kind 1: a button.
    Button(Button),
    /// Kind 2: a touch.
    Touch(Point),
}

impl From<Button> for Record {
    fn from(button: Button) -> Record {
        Record::Button(button)
    }
}

/// A panel file that was found good. Two are equal if their bytes are.
///
/// ```
/// use shackletongue::{Error, Panel};
///
/// // a square button from (0, 0) to (10, 10), then a touch at (0, 0)
/// let mut file = vec![48, 0, 1, 0];
/// for float in [0.0_f32, 0.0, 10.0, 10.0] {
///     file.extend(float.to_le_bytes());
/// }
/// file.extend([0; 32]);
/// file.extend([8, 0, 2, 0, 0, 0, 0, 0, 0, 0, 0, 0]);
///
/// let panel = Panel::new(&file)?;
/// assert_eq!(panel.records().count(), 2);
/// assert_eq!(panel.touch((5.0, 5.0)), Some(0));
/// assert_eq!(panel.touch((10.0, 10.0)), None);
/// assert_eq!(panel.touch_all()?, [Some(0)]);
///
/// file.pop();
/// assert_eq!(Panel::new(&file), Err(Error::BrokenFile { offset: 52 }));
/// # Ok::<(), Error>(())
/// ```
#[derive(Clone, Copy, PartialEq, Eq, Hash)]
pub struct Panel<'a> {
    file: &'a [u8],
}

impl<'a> Panel<'a> {
    /// The panel of this file, once every record is found good.
    ///
    /// # Errors
    ///
    /// [`Error::BrokenFile`].
    pub fn new(file: &'a [u8]) -> Result<Panel<'a>, Error> {
        let mut offset = 0;
        while let Some((_, next)) = record_at(file, offset)? {
            offset = next;
        }
        Ok(Panel { file })
    }

    /// The bytes of the file.
    #[must_use]
    pub const fn file(&self) -> &'a [u8] {
        self.file
    }

    /// Whether it has no records.
    #[must_use]
    pub const fn is_empty(&self) -> bool {
        self.file.is_empty()
    }

    /// The records, in file order.
    pub const fn records(&self) -> Records<'a> {
        Records {
            panel: *self,
            offset: 0,
        }
    }

    /// The buttons, in file order: a touch answers with an index of these.
    pub fn buttons(&self) -> impl Iterator<Item = Button> + Clone + 'a {
        self.records().filter_map(|record| match record {
            Record::Button(button) => Some(button),
            Record::Touch(_) => None,
        })
    }

    /// The touches, in file order.
    pub fn touches(&self) -> impl Iterator<Item = Point> + Clone + 'a {
        self.records().filter_map(|record| match record {
            Record::Button(_) => None,
            Record::Touch(point) => Some(point),
        })
    }

    /// The index of the button on top, the last in file order, of those that contain the point; one
    /// whose shape is refused contains nothing.
    #[must_use]
    pub fn touch(&self, point: impl Into<Point>) -> Option<usize> {
        let point = point.into();
        let mut place = [0];
        let number = raw::touch(self.file, point.x, point.y, &mut place);
        let [index] = place;
        (number == 0).then_some(index as usize)
    }

    /// [`touch`](Panel::touch) for each of the file's touches, in file order; each shape is made
    /// once.
    ///
    /// # Errors
    ///
    /// [`Error::NoRoom`] where there is no memory for the answers.
    pub fn touch_all(&self) -> Result<Vec<Option<usize>>, Error> {
        // On the heap, since the library takes most of what a small thread has of stack.
        let (mut results, mut answers) = (Vec::new(), Vec::new());
        lengthen(&mut results, raw::RESULTS)?;
        let mut count = [0];
        if let Ok(results) = results.as_mut_slice().try_into() {
            // The file is good, so this is not refused.
            raw::touch_all(self.file, results, &mut count);
        }
        let [count] = count;
        let found = results.iter().take(count as usize);
        reserve(&mut answers, found.len())?;
        answers.extend(found.map(|&index| (index != raw::NOWHERE).then_some(index as usize)));
        Ok(answers)
    }
}

impl fmt::Debug for Panel<'_> {
    fn fmt(&self, f: &mut fmt::Formatter<'_>) -> fmt::Result {
        f.debug_struct("Panel")
            .field("buttons", &self.buttons().count())
            .field("touches", &self.touches().count())
            .finish_non_exhaustive()
    }
}

impl<'a> TryFrom<&'a [u8]> for Panel<'a> {
    type Error = Error;

    fn try_from(file: &'a [u8]) -> Result<Panel<'a>, Error> {
        Panel::new(file)
    }
}

impl AsRef<[u8]> for Panel<'_> {
    fn as_ref(&self) -> &[u8] {
        self.file
    }
}

impl<'a> IntoIterator for Panel<'a> {
    type Item = Record;
    type IntoIter = Records<'a>;

    fn into_iter(self) -> Records<'a> {
        self.records()
    }
}

/// The records of a panel, in file order.
#[derive(Clone, Debug)]
#[must_use]
pub struct Records<'a> {
    panel: Panel<'a>,
    offset: u64,
}

impl Iterator for Records<'_> {
    type Item = Record;

    fn next(&mut self) -> Option<Record> {
        // The file was found good when the panel was made, so an error does not come.
        let (record, next) = record_at(self.panel.file, self.offset).ok()??;
        self.offset = next;
        Some(record)
    }
}

impl FusedIterator for Records<'_> {}

/// The record at an offset and the offset of the next; none at the end of the file.
fn record_at(file: &[u8], offset: u64) -> Result<Option<(Record, u64)>, Error> {
    let (mut place, mut floats) = ([offset, 0], [0.0; 12]);
    let number = raw::record(file, &mut place, &mut floats);
    let [next, kind] = place;
    Error::check(number, next)?;
    let [x, y, ..] = floats;
    Ok(match kind {
        raw::BUTTON => Some((Record::Button(Button::from_sizes(&floats)), next)),
        raw::TOUCH => Some((Record::Touch(Point::new(x, y)), next)),
        _ => None,
    })
}

/// Writes a panel file, record by record. A record that is refused has changed nothing. Of a NaN
/// neither sign nor payload need come back.
///
/// ```
/// use shackletongue::{Button, CornerRadii, Error, Panel, PanelBuilder, Rect};
///
/// let mut panel = PanelBuilder::new();
/// panel.add_button(Button {
///     bounds: Rect::new((0.0, 0.0), (40.0, 24.0)),
///     radii: CornerRadii::uniform(8.0),
/// })?;
/// panel.add_touch((20.0, 12.0))?;
/// assert_eq!(panel.panel().touch_all()?, [Some(0)]);
///
/// let file = panel.as_bytes(); // to be written to a file
/// assert_eq!(Panel::new(file)?, panel.panel());
/// # Ok::<(), Error>(())
/// ```
#[derive(Clone, Default, PartialEq, Eq)]
pub struct PanelBuilder {
    file: Vec<u8>,
}

impl PanelBuilder {
    /// A panel without records.
    #[must_use]
    pub const fn new() -> PanelBuilder {
        PanelBuilder { file: Vec::new() }
    }

    /// Puts a button behind what there is. Its shape is not made: it may be one that is refused.
    ///
    /// # Errors
    ///
    /// This and the other two: [`Error::NoRoom`] where the file would pass 65,536 bytes, or where
    /// there is no memory.
    pub fn add_button(&mut self, button: impl Into<Button>) -> Result<(), Error> {
        self.put(raw::BUTTON, &button.into().sizes())
    }

    /// Puts a touch behind what there is.
    ///
    /// # Errors
    ///
    /// As [`add_button`](PanelBuilder::add_button).
    pub fn add_touch(&mut self, point: impl Into<Point>) -> Result<(), Error> {
        let Point { x, y } = point.into();
        self.put(
            raw::TOUCH,
            &[x, y, 0.0, 0.0, 0.0, 0.0, 0.0, 0.0, 0.0, 0.0, 0.0, 0.0],
        )
    }

    /// Puts a record of either kind behind what there is.
    ///
    /// # Errors
    ///
    /// As [`add_button`](PanelBuilder::add_button).
    pub fn add(&mut self, record: Record) -> Result<(), Error> {
        match record {
            Record::Button(button) => self.add_button(button),
            Record::Touch(point) => self.add_touch(point),
        }
    }

    /// Whether there is no record.
    #[must_use]
    pub fn is_empty(&self) -> bool {
        self.file.is_empty()
    }

    /// The panel, to be read.
    #[must_use]
    pub fn panel(&self) -> Panel<'_> {
        // Whole records only, and no more than a file may have: it is good.
        Panel { file: &self.file }
    }

    /// The bytes of the file.
    #[must_use]
    pub fn as_bytes(&self) -> &[u8] {
        &self.file
    }

    /// The bytes of the file, without a copy.
    #[must_use]
    pub fn into_bytes(self) -> Vec<u8> {
        self.file
    }

    /// Puts a record of this kind behind what there is.
    fn put(&mut self, kind: u64, floats: &raw::Sizes) -> Result<(), Error> {
        /// A button's record, which is the longer one.
        const LONGEST: usize = 52;
        let end = self.file.len();
        // More than is needed, so that not every record moves the file.
        self.file.try_reserve(LONGEST).map_err(|_| Error::NoRoom)?;
        lengthen(&mut self.file, end.saturating_add(LONGEST))?;
        let mut place = [end as u64, kind];
        let number = raw::put_record(&mut self.file, &mut place, floats);
        // The end of what was written; of nothing where it was refused.
        let [end, _] = place;
        self.file.truncate(end as usize);
        Error::check(number, end)
    }
}

impl fmt::Debug for PanelBuilder {
    fn fmt(&self, f: &mut fmt::Formatter<'_>) -> fmt::Result {
        f.debug_tuple("PanelBuilder").field(&self.panel()).finish()
    }
}

impl From<Panel<'_>> for PanelBuilder {
    /// A panel that begins with these records.
    fn from(panel: Panel<'_>) -> PanelBuilder {
        PanelBuilder {
            file: panel.file.to_vec(),
        }
    }
}
