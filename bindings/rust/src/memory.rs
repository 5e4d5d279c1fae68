//! Memory that may be refused: [`Error::NoRoom`] where another call would end the program.

use std::fmt;

use crate::Error;

/// Keeps memory for so many elements more, which is not touched yet.
pub fn reserve<T>(buffer: &mut Vec<T>, more: usize) -> Result<(), Error> {
    buffer.try_reserve_exact(more).map_err(|_| Error::NoRoom)
}

/// Lengthens a buffer to `len` elements; one that is longer stays.
pub fn lengthen<T: Clone + Default>(buffer: &mut Vec<T>, len: usize) -> Result<(), Error> {
    reserve(buffer, len.saturating_sub(buffer.len()))?;
    buffer.resize(len.max(buffer.len()), T::default());
    Ok(())
}

/// A text that grows only as far as there is memory.
#[derive(Default)]
pub struct Text(pub String);

impl fmt::Write for Text {
    fn write_str(&mut self, s: &str) -> fmt::Result {
        self.0.try_reserve(s.len()).map_err(|_| fmt::Error)?;
        self.0.push_str(s);
        Ok(())
    }
}
