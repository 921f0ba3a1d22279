//! Why a call did nothing: the statuses of the library, numbers that stand for one thing in all versions, and errors that have them.

use std::{fmt, io};

use crate::header::nbt_status_text;
use crate::room::{text_of, written};
use crate::{Result, Status};

/// Why a call did nothing, and where the fault stands. Its text is the library's words and the place, as in
/// `bad text 4`; of a status that this version of the crate doesn't know it has the number, as in
/// `status 130: unknown status`.
#[derive(Clone, Copy, Debug, PartialEq, Eq, Hash)]
#[cfg_attr(feature = "serde", derive(serde::Serialize))]
pub struct Error {
    status: Status,
    number: u32,
    at: Option<usize>,
}

impl Error {
    /// The error of a status that the library answered, and of the place that it wrote.
    pub(crate) fn new(number: u32, at: usize) -> Error {
        let status = Status::from_number(number);
        Error { status, number, at: status.has_place().then_some(at) }
    }

    /// Want of memory.
    pub(crate) const NO_MEMORY: Error = Error { status: Status::NoMemory, number: Status::NoMemory as u32, at: None };

    /// A number that no packet has for its type.
    pub(crate) const UNKNOWN_TYPE: Error =
        Error { status: Status::UnknownType, number: Status::UnknownType as u32, at: None };

    /// Why the call did nothing.
    pub fn status(self) -> Status {
        self.status
    }

    /// The number of the status, as the library answered it: a newer one may answer a number that this version of the
    /// crate doesn't know, whose status is [`Status::UnknownStatus`].
    pub fn number(self) -> u32 {
        self.number
    }

    /// Where the fault stands, in bytes from the start of the input that has it, counted from 0; `None` where it has no
    /// place. Of [`Status::More`] it is no place, but what [`Error::missing`] answers.
    pub fn at(self) -> Option<usize> {
        self.at
    }

    /// How many bytes of a packet are missing, at least, where it isn't there whole yet; `None` of any other status than
    /// [`Status::More`].
    pub fn missing(self) -> Option<usize> {
        self.at.filter(|_| self.status == Status::More)
    }
}

impl fmt::Display for Error {
    fn fmt(&self, out: &mut fmt::Formatter<'_>) -> fmt::Result {
        if self.number != self.status.number() {
            let words = words(self.number).unwrap_or_else(|_| self.status.to_string());
            return write!(out, "status {}: {words}", self.number);
        }
        match self.at {
            Some(at) => write!(out, "{} {at}", self.status),
            None => write!(out, "{}", self.status),
        }
    }
}

impl std::error::Error for Error {}

/// `OutOfMemory` where memory ran out, `InvalidInput` where what is to be written is at fault, `Other` of a status that
/// this version of the crate doesn't know, and else `InvalidData`. The error within is this one.
impl From<Error> for io::Error {
    fn from(error: Error) -> io::Error {
        let kind = match error.number {
            2 => io::ErrorKind::OutOfMemory,
            10..=15 | 60..=62 | 100..=101 => io::ErrorKind::InvalidInput,
            _ if error.status == Status::UnknownStatus => io::ErrorKind::Other,
            _ => io::ErrorKind::InvalidData,
        };
        io::Error::new(kind, error)
    }
}

impl Status {
    /// The number of `enum nbt_status`.
    pub fn number(self) -> u32 {
        self as u32
    }

    /// The status with this number.
    fn from_number(number: u32) -> Status {
        let known = Status::ALL.into_iter().find(|it| it.number() == number);
        known.unwrap_or(Status::UnknownStatus)
    }
}

/// The status with this number; an error that keeps the number, where none has it.
impl TryFrom<u32> for Status {
    type Error = Error;

    fn try_from(number: u32) -> Result<Status> {
        let known = Status::ALL.into_iter().find(|it| it.number() == number);
        known.ok_or_else(|| Error::new(number, 0))
    }
}

/// The library's words for a number.
fn words(number: u32) -> Result<String> {
    written!(nbt_status_text(number)).map(text_of)
}

impl fmt::Display for Status {
    fn fmt(&self, out: &mut fmt::Formatter<'_>) -> fmt::Result {
        out.pad(&words(self.number()).map_err(|_| fmt::Error)?)
    }
}
