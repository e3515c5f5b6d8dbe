//! The figures of a range that was merged in a store with many runs, beside those of a store that was merged whole.

use crate::fault::Fault;
use crate::figure::Figure;
use crate::keys::{Keys, others};
use crate::store;
use crate::watch::Watch;
use am_index_btree::BTree;
use am_store::Store;
use am_record::{HashKey, Key, Range};
use std::alloc::Global;
use std::time::Clock;

/// How many runs are loaded.
const RUNS: usize = 256;

/// Of how many keys one is in the range that is merged.
const ONE_OF: usize = 20;

/// How many looks are timed.
const LOOKS: usize = 10_000;

/// How many rows a scan has.
const ROWS: u64 = 100;

// A store with runs of all the keys, merged in a range.
fn merged_in(alloc: Global, keys: &Keys, range: Option<Range>) -> Result<Store<BTree>, Fault> {
    let mut store = Store::open(alloc, BTree::new(alloc)?, HashKey::known())?;
    store::load(&mut store, store::runs_of(alloc, &keys.rising, RUNS)?)?;
    match range {
        Some(range) => store::ask_for(&mut store, range)?,
        None => store::ask_for_all(&mut store)?,
    }
    store::merge_all(&mut store)?;
    Ok(store)
}

/// Prints how long scans and looks for absent keys take in a range, where it alone was merged and where all was.
pub(crate) fn print_figures<R: AllocGlobal + Print + Clock>(
    rt: &R,
    keys: &Keys,
) -> Result<(), Fault> {
    let alloc = rt.alloc();
    let hot = &keys.rising[..keys.rising.len() / ONE_OF];
    let (Some(first), Some(last)) = (hot.first(), hot.last()) else {
        return Ok(());
    };
    let range = Range::new(*first, *last).ok_or(Fault::Differs)?;
    let absent = others(alloc, keys.drawn.len() as u64, range, LOOKS)?;
    let starts = &absent[..absent.len().min(LOOKS)];
    let mut one = merged_in(alloc, keys, Some(range))?;
    let mut whole = merged_in(alloc, keys, None)?;
    print_scans(
        rt,
        "scans of 100 in the merged range",
        &mut one,
        starts,
        *last,
    )?;
    print_scans(rt, "the same, all merged", &mut whole, starts, *last)?;
    print_misses(rt, "absent keys in the merged range", &mut one, starts)?;
    print_misses(rt, "the same, all merged", &mut whole, starts)
}

fn print_scans<R: Print + Clock>(
    rt: &R,
    name: &'static str,
    store: &mut Store<BTree>,
    starts: &[Key],
    last: Key,
) -> Result<(), Fault> {
    let watch = Watch::start(rt)?;
    let rows = store::scan(store, starts, last, ROWS)?;
    let scans = watch.stop(rt, rows)?;
    let operations = starts.len() as u64;
    Figure { name, operations }.print_alone(rt, scans)
}

fn print_misses<R: Print + Clock>(
    rt: &R,
    name: &'static str,
    store: &mut Store<BTree>,
    keys: &[Key],
) -> Result<(), Fault> {
    let watch = Watch::start(rt)?;
    let missed = store::miss(store, keys)?;
    let misses = watch.stop(rt, missed)?;
    let operations = keys.len() as u64;
    Figure { name, operations }.print_alone(rt, misses)
}
