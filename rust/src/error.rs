use crate::{sys, Why};
use std::fmt;
use std::io;

/// The smallest number of a text's refusal.
const FIRST_OF_TEXT: u32 = 101;

/// The kind of an [`Error`].
#[derive(Clone, Copy, PartialEq, Eq, Debug)]
#[non_exhaustive]
pub enum ErrorKind {
    /// The module is not valid, not of the profile, or past a limit of the options.
    Module,
    /// The text writes no module of the profile.
    Text,
    /// Memory was refused: nothing is known about the input.
    Memory,
    /// The linked library is of another version: it does not know what this crate asks for.
    Library,
}

/// Why a call failed: a refusal with its name and offset, refused memory, or another version of the library.
#[derive(Clone, Copy, PartialEq, Eq)]
pub struct Error {
    kind: ErrorKind,
    why: Why,
    at: u64,
}

impl Error {
    /// Makes the error of an answer whose status is not `VALID`.
    pub(crate) fn of(status: u32, number: u32, at: u64) -> Error {
        let kind = match status {
            sys::REFUSED if number >= FIRST_OF_TEXT => ErrorKind::Text,
            sys::REFUSED => ErrorKind::Module,
            sys::MEMORY => return Error::memory(),
            _ => return Error::library(),
        };
        let why = Why::of(number);
        Error { kind, why, at }
    }

    pub(crate) fn memory() -> Error {
        Error {
            kind: ErrorKind::Memory,
            why: Why::Memory,
            at: 0,
        }
    }

    pub(crate) fn library() -> Error {
        Error {
            kind: ErrorKind::Library,
            why: Why::Library,
            at: 0,
        }
    }

    /// The kind of this error.
    pub fn kind(&self) -> ErrorKind {
        self.kind
    }

    /// The reason of this error, with its sentence.
    pub fn why(&self) -> Why {
        self.why
    }

    /// The name of the refusal, such as `BadOpcode`, or `Memory` if memory was refused. [`Why::explain`] has its
    /// sentence.
    pub fn name(&self) -> &str {
        self.why.name()
    }

    /// The offset of a refusal; `None` for another kind of error.
    ///
    /// For a binary it is the number of bytes read up to and including the deciding one. For a text it is the number of
    /// bytes before the deciding token. If [`build`](crate::build) refuses the module that a text writes, it is an
    /// offset in that module's canonical binary.
    pub fn offset(&self) -> Option<u64> {
        matches!(self.kind, ErrorKind::Module | ErrorKind::Text).then_some(self.at)
    }

    /// The older name of [`Error::offset`]. A [`Place`](crate::Place) is something else.
    pub fn place(&self) -> Option<u64> {
        self.offset()
    }
}

impl fmt::Display for Error {
    fn fmt(&self, f: &mut fmt::Formatter<'_>) -> fmt::Result {
        match self.kind {
            ErrorKind::Module => write!(f, "refused at {}: {}", self.at, self.why),
            ErrorKind::Text => write!(f, "text refused at {}: {}", self.at, self.why),
            ErrorKind::Memory => f.write_str("out of memory"),
            ErrorKind::Library => f.write_str("the linked libwmod is not of this crate's version"),
        }
    }
}

impl fmt::Debug for Error {
    fn fmt(&self, f: &mut fmt::Formatter<'_>) -> fmt::Result {
        write!(f, "Error({self})")
    }
}

impl std::error::Error for Error {}

/// The [`io::Error`] holds the error, so that it passes through readers and writers.
impl From<Error> for io::Error {
    fn from(error: Error) -> io::Error {
        let kind = match error.kind {
            ErrorKind::Module | ErrorKind::Text => io::ErrorKind::InvalidData,
            ErrorKind::Memory => io::ErrorKind::OutOfMemory,
            ErrorKind::Library => io::ErrorKind::Unsupported,
        };
        io::Error::new(kind, error)
    }
}
