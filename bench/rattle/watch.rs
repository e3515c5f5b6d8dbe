//! Timing.

use crate::fault::Fault;
use std::time::{Clock, Duration, Instant};

/// How long some work took, and a sum over its results, by which two ways to do it are compared.
#[derive(Clone, Copy, Debug)]
pub(crate) struct Timed {
    pub(crate) took: Duration,
    pub(crate) sum: u64,
}

/// A clock that was started.
#[derive(Clone, Copy)]
pub(crate) struct Watch {
    start: Instant,
}

impl Watch {
    pub(crate) fn start<R: Clock>(rt: &R) -> Result<Watch, Fault> {
        Ok(Watch {
            start: Instant::now(rt)?,
        })
    }

    pub(crate) fn stop<R: Clock>(self, rt: &R, sum: u64) -> Result<Timed, Fault> {
        let took = self.start.elapsed(rt)?;
        Ok(Timed { took, sum })
    }
}
