//! Why there are no figures.

use am_record::NoMemory;
use std::io;

#[derive(Clone, Copy, Debug, PartialEq, Eq)]
pub(crate) enum Fault {
    /// Memory was refused.
    NoMemory,
    /// The clock can't be read, or nothing can be printed.
    Outside,
    /// What was timed didn't answer as the map does.
    Differs,
}

impl From<NoMemory> for Fault {
    fn from(_: NoMemory) -> Fault {
        Fault::NoMemory
    }
}

impl From<io::Error> for Fault {
    fn from(_: io::Error) -> Fault {
        Fault::Outside
    }
}
