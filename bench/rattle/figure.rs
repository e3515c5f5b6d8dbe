//! The lines.

use crate::fault::Fault;
use crate::watch::Timed;
use std::num::nearest_u64_to_f64;

/// What was timed: a name, and how many operations it was.
#[derive(Clone, Copy, Debug)]
pub(crate) struct Figure {
    pub(crate) name: &'static str,
    pub(crate) operations: u64,
}

impl Figure {
    // So many nanoseconds for each operation.
    fn nanos_each(&self, timed: Timed) -> f64 {
        timed.took.as_secs_f64() * 1e9 / nearest_u64_to_f64(self.operations)
    }

    /// Prints both times and their ratio. Both did the same work: where the sums differ, one of them is wrong.
    pub(crate) fn print<R: Print>(&self, rt: &R, ours: Timed, map: Timed) -> Result<(), Fault> {
        if ours.sum != map.sum {
            return Err(Fault::Differs);
        }
        let Figure { name, operations } = *self;
        let ours_each = self.nanos_each(ours);
        let map_each = self.nanos_each(map);
        let ours = ours.took.as_millis();
        let map = map.took.as_millis();
        let ratio = ours_each / map_each;
        println!(rt;
            "{name:<36} {operations:>8} {ours:>7} ms {ours_each:>9.0} ns   map {map:>6} ms {map_each:>7.0} ns   ratio {ratio:>6.2}"
        )?;
        Ok(())
    }

    /// Prints our time alone, of work that a map hasn't to do.
    pub(crate) fn print_alone<R: Print>(&self, rt: &R, ours: Timed) -> Result<(), Fault> {
        let Figure { name, operations } = *self;
        let ours_each = self.nanos_each(ours);
        let ours = ours.took.as_millis();
        println!(rt; "{name:<36} {operations:>8} {ours:>7} ms {ours_each:>9.0} ns")?;
        Ok(())
    }
}
