//! Why a call was refused.

use std::ffi::{c_int, CStr};
use std::fmt;

use crate::library;
use crate::Key;

/// Why a call was refused. It changed nothing, but that the runs of a load stay that were added before the refused one.
///
/// The names are those of the statuses in `tiuvrokk.h`, but for two that no call of this crate answers, since a store is open
/// for as long as it lives and no pointer is null.
#[derive(Clone, Copy, Debug, PartialEq, Eq)]
#[non_exhaustive]
pub enum Error {
    /// The key has no record.
    Absent,
    /// This key has a record already.
    Exists(Key),
    /// This transaction holds a lock that is in the way.
    Busy(u64),
    /// The transaction is not active any more.
    NoTransaction,
    /// The transaction has no savepoint.
    NoMark,
    /// So many transactions are active as may be.
    TooManyTransactions,
    /// The transaction holds so many locks as it may: one of a range covers more keys.
    TooManyLocks,
    /// So many operations of the transaction were answered as may be.
    TooManyOperations,
    /// So many loads were made as may be.
    TooManyRuns,
    /// The records don't rise strictly by key, or there are none.
    NotRising,
    /// A number of rows, records or entries is out of bounds.
    BadLimit,
    /// Memory was refused.
    NoMemory,
    /// A key is longer than 32 bytes, or lies outside of its struct. In a text it is that of this line; elsewhere it is 0.
    BadKey(u64),
    /// A value is longer than 64 bytes, or lies outside of its struct. In a text it is that of this line; elsewhere it is 0.
    BadValue(u64),
    /// The first key of a range is above its last.
    BadRange,
    /// This key stands twice in what is to be loaded.
    Twice(Key),
    /// This line of a text has no TAB behind its key.
    BadLine(u64),
    /// The library answered a status that this crate doesn't know.
    Unknown(c_int),
}

/// What a call told beside its status.
#[derive(Clone, Copy, Default)]
pub(crate) struct Told {
    pub(crate) number: u64,
    pub(crate) key: Key,
    pub(crate) line: u64,
}

/// Fails where a status refuses.
pub(crate) fn check(status: c_int, told: Told) -> Result<(), Error> {
    Err(match status {
        0 => return Ok(()),
        1 => Error::Absent,
        2 => Error::Exists(told.key),
        3 => Error::Busy(told.number),
        4 => Error::NoTransaction,
        5 => Error::NoMark,
        9 => Error::TooManyTransactions,
        10 => Error::TooManyLocks,
        11 => Error::TooManyOperations,
        12 => Error::TooManyRuns,
        13 => Error::NotRising,
        14 => Error::BadLimit,
        15 => Error::NoMemory,
        19 => Error::BadKey(told.line),
        20 => Error::BadValue(told.line),
        21 => Error::BadRange,
        24 => Error::Twice(told.key),
        25 => Error::BadLine(told.line),
        other => Error::Unknown(other),
    })
}

impl Error {
    /// The status of `tiuvrokk.h`.
    pub fn status(&self) -> i32 {
        match *self {
            Error::Absent => 1,
            Error::Exists(_) => 2,
            Error::Busy(_) => 3,
            Error::NoTransaction => 4,
            Error::NoMark => 5,
            Error::TooManyTransactions => 9,
            Error::TooManyLocks => 10,
            Error::TooManyOperations => 11,
            Error::TooManyRuns => 12,
            Error::NotRising => 13,
            Error::BadLimit => 14,
            Error::NoMemory => 15,
            Error::BadKey(_) => 19,
            Error::BadValue(_) => 20,
            Error::BadRange => 21,
            Error::Twice(_) => 24,
            Error::BadLine(_) => 25,
            Error::Unknown(status) => status,
        }
    }
}

impl fmt::Display for Error {
    fn fmt(&self, f: &mut fmt::Formatter<'_>) -> fmt::Result {
        // SAFETY: the library gives a constant text for each number.
        let text = unsafe { CStr::from_ptr(library::tvk_text(self.status())) };
        f.write_str(&text.to_string_lossy())?;
        match self {
            Error::Busy(holder) => write!(f, ": transaction {holder}"),
            Error::Exists(key) | Error::Twice(key) => write!(f, ": {key:?}"),
            Error::BadLine(line) => write!(f, ": line {line}"),
            Error::BadKey(line) | Error::BadValue(line) if *line > 0 => write!(f, ": line {line}"),
            _ => Ok(()),
        }
    }
}

impl std::error::Error for Error {}

/// A load that was refused: why, and how many records were added before, which stay.
#[derive(Clone, Copy, Debug, PartialEq, Eq)]
pub struct LoadError {
    /// Why it was refused.
    pub error: Error,
    /// How many records stand in the runs before the refused one.
    pub loaded: u64,
}

impl fmt::Display for LoadError {
    fn fmt(&self, f: &mut fmt::Formatter<'_>) -> fmt::Result {
        write!(f, "{}, behind {} records that were added", self.error, self.loaded)
    }
}

impl std::error::Error for LoadError {
    fn source(&self) -> Option<&(dyn std::error::Error + 'static)> {
        Some(&self.error)
    }
}

impl From<LoadError> for Error {
    fn from(refused: LoadError) -> Error {
        refused.error
    }
}
