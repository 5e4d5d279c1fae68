use std::fmt;

use crate::raw;

/// Why a call was refused. A refused call has changed nothing.
///
/// As text it says what is wrong, in the library's words, then what to do:
///
/// ```
/// use shackletongue::Error;
///
/// let said = Error::NegativeRadius.to_string();
/// assert_eq!(said, "a radius is below zero: give every radius as 0 or more");
/// ```
#[derive(Clone, Copy, Debug, PartialEq, Eq, Hash)]
#[non_exhaustive]
pub enum Error {
    /// 1: a path's record counts more verbs or points than its buffers have, or points and no verb.
    BadRecord,
    /// 2: a bound or radius is not finite, or over 16,384 in magnitude.
    BeyondLimit,
    /// 3: a radius is below zero.
    NegativeRadius,
    /// 4: the maximum of the bounds is below their minimum, in x or in y.
    Inverted,
    /// 5: the call needs more than is free: verbs or points, bytes of a panel file, or memory.
    NoRoom,
    /// 6: a verb over 4, or fewer points than the verb takes.
    Malformed {
        /// The index of the verb.
        verb: usize,
    },
    /// 7: a panel file is cut short, is over 65,536 bytes, or has a record of unknown kind or wrong
    /// length.
    BrokenFile {
        /// The offset of the first such record; 0 for a file that is too long.
        offset: usize,
    },
    /// A coordinate that SVG cannot write: it is a NaN or infinite. This refusal is the crate's own
    /// and has no number.
    NotFinite {
        /// The index of the first verb that has such a coordinate.
        verb: usize,
    },
    /// A number that this crate does not know: the library linked is of another version.
    Unknown(u32),
}

impl Error {
    /// The refusal's number, as include/shackletongue.h has it.
    #[must_use]
    pub const fn number(self) -> Option<u32> {
        Some(match self {
            Error::BadRecord => 1,
            Error::BeyondLimit => 2,
            Error::NegativeRadius => 3,
            Error::Inverted => 4,
            Error::NoRoom => 5,
            Error::Malformed { .. } => 6,
            Error::BrokenFile { .. } => 7,
            Error::NotFinite { .. } => return None,
            Error::Unknown(number) => number,
        })
    }

    /// What is wrong, without the place and without what to do: the library's text of the number.
    #[must_use]
    pub const fn reason(self) -> &'static str {
        match self {
            Error::BadRecord => "the record does not suit the buffers",
            Error::BeyondLimit => "a bound or a radius is not finite, or over 16384 in magnitude",
            Error::NegativeRadius => "a radius is below zero",
            Error::Inverted => "max is below min on an axis",
            Error::NoRoom => "no room in the buffers",
            Error::Malformed { .. } => "a verb cannot be read",
            Error::BrokenFile { .. } => "the panel file is broken",
            Error::NotFinite { .. } => "a coordinate is a NaN or infinite",
            Error::Unknown(_) => "the library answered a number that this crate does not know",
        }
    }

    /// What to do about it.
    const fn advice(self) -> &'static str {
        match self {
            Error::BadRecord => "pass the record that was left by the calls that filled them",
            Error::BeyondLimit => "mend the number, or draw at a smaller scale",
            Error::NegativeRadius => "give every radius as 0 or more",
            Error::Inverted => "exchange min and max on that axis",
            Error::NoRoom => "give more room, or put less in; a panel file has at most 65536 bytes",
            Error::Malformed { .. } => "pass the verbs and points that the calls have written",
            Error::BrokenFile { .. } => {
                "write it anew, with whole buttons and touches and at most 65536 bytes"
            }
            Error::NotFinite { .. } => {
                "leave the path out of the picture; `is_consistent` finds shapes that draw one"
            }
            Error::Unknown(_) => "link the library of the crate's version",
        }
    }

    /// What a call that returned this number answers; `place` is where, for 6 and 7.
    pub(crate) fn check(number: u32, place: u64) -> Result<(), Error> {
        // A place is an index or an offset into a slice, so it fits.
        let place = usize::try_from(place).unwrap_or(usize::MAX);
        Err(match number {
            0 => return Ok(()),
            1 => Error::BadRecord,
            2 => Error::BeyondLimit,
            3 => Error::NegativeRadius,
            4 => Error::Inverted,
            5 => Error::NoRoom,
            6 => Error::Malformed { verb: place },
            7 => Error::BrokenFile { offset: place },
            _ => Error::Unknown(number),
        })
    }
}

impl fmt::Display for Error {
    fn fmt(&self, f: &mut fmt::Formatter<'_>) -> fmt::Result {
        f.write_str(self.reason())?;
        match self {
            Error::Malformed { verb } | Error::NotFinite { verb } => write!(f, ", verb {verb}")?,
            Error::BrokenFile { offset } => write!(f, " at offset {offset}")?,
            Error::Unknown(number) => {
                write!(f, ", {number}")?;
                if let Some(text) = library_text(*number, &mut [0; 64]) {
                    write!(f, " ({text})")?;
                }
            }
            _ => {}
        }
        write!(f, ": {}", self.advice())
    }
}

impl std::error::Error for Error {}

/// The library's text of a number, if it has one: ASCII with zeros behind it.
fn library_text(number: u32, buffer: &mut raw::Text) -> Option<&str> {
    if raw::refusal_text(number, buffer) != 0 {
        return None;
    }
    let text = buffer.split(|&byte| byte == 0).next()?;
    std::str::from_utf8(text).ok()
}

#[cfg(test)]
#[allow(clippy::unwrap_used)]
mod tests {
    use super::*;

    #[test]
    fn reasons_are_the_library_s() {
        for number in 1..=7 {
            let error = Error::check(number, 0).unwrap_err();
            assert_eq!(error.number(), Some(number));
            assert_eq!(library_text(number, &mut [0; 64]), Some(error.reason()));
        }
        for number in [0, 8, 99, 102, u32::MAX] {
            assert_eq!(library_text(number, &mut [0; 64]), None);
        }
    }

    #[test]
    fn an_unknown_number_has_the_library_s_text() {
        let mut buffer = [0; 64];
        let text = library_text(100, &mut buffer).unwrap();
        let said = Error::Unknown(100).to_string();
        assert!(said.contains(&format!("100 ({text})")), "{said}");
        let said = Error::Unknown(9).to_string();
        assert!(said.contains("does not know, 9: link"), "{said}");
    }
}
