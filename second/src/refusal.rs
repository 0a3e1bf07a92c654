//! The refusals of 01, and those of 02 that its requests have brought so far.

use std::fmt;

/// Why a text is refused; the discriminant is the documents' number.
#[derive(Clone, Copy, Debug, PartialEq, Eq)]
#[repr(u8)]
pub enum Reason {
    Size = 1,
    LineEnds = 2,
    Byte = 3,
    Length = 4,
    Form = 5,
    AccountCheck = 6,
    Model = 7,
    Parts = 8,
    ReferenceCheck = 9,
    Type = 10,
    Date = 11,
    Orders = 12,
    Sum = 13,
    Unfinished = 14,
    Room = 15,
    Marks = 16,
    Lines = 17,
    Sheet = 20,
    Field = 28,
    Overfull = 29,
}

#[derive(Clone, Copy, Debug, PartialEq, Eq)]
pub struct Refusal {
    pub reason: Reason,
    /// The line of a wage file or a sheet; 0 for a slip and for a line that stands
    /// alone.
    pub line: usize,
    /// The field of a slip or line; 0 for a text that stands alone.
    pub field: usize,
    /// The needed number for `Reason::Room`, otherwise a byte: the offending
    /// one for `Reason::Byte`, else the first of the field.
    pub detail: usize,
}

impl Refusal {
    pub const fn at(reason: Reason, detail: usize) -> Self {
        Refusal {
            reason,
            line: 0,
            field: 0,
            detail,
        }
    }

    /// What was refused alone, as a field that begins at this byte.
    pub const fn in_field(self, field: usize, start: usize) -> Self {
        Refusal {
            field,
            detail: start + self.detail,
            ..self
        }
    }

    /// What was refused in a line that stood alone, as the line of a file or sheet.
    pub const fn in_line(self, line: usize) -> Self {
        Refusal { line, ..self }
    }

    pub const fn number(&self) -> u8 {
        self.reason as u8
    }
}

impl From<Reason> for Refusal {
    fn from(reason: Reason) -> Self {
        Refusal::at(reason, 0)
    }
}

impl fmt::Display for Refusal {
    fn fmt(&self, f: &mut fmt::Formatter<'_>) -> fmt::Result {
        match self.reason {
            Reason::Room => write!(f, "refused 15 needed {}", self.detail),
            _ => write!(
                f,
                "refused {} line {} field {} byte {}",
                self.number(),
                self.line,
                self.field,
                self.detail
            ),
        }
    }
}

/// 3 at the first byte that is not permitted.
pub fn only(text: &[u8], permitted: impl Fn(u8) -> bool) -> Result<(), Refusal> {
    match text.iter().position(|&b| !permitted(b)) {
        Some(place) => Err(Refusal::at(Reason::Byte, place)),
        None => Ok(()),
    }
}
