//! The figures of loaded runs, as a user of the store sees them.

use crate::fault::Fault;
use crate::figure::Figure;
use crate::keys::Keys;
use crate::watch::{Timed, Watch};
use crate::{map, store};
use am_index_btree::BTree;
use am_store::Store;
use am_record::{HashKey, Key, Records, Value};
use std::collections::BTreeMap;
use std::time::Clock;

/// How many runs are loaded.
const RUNS: usize = 16;

/// Of how many keys one is read.
const ONE_OF: usize = 10;

/// How many rows a scan asks for.
const ROWS: usize = 100;

/// Of how many keys one is hot.
const HOT: usize = 100;

/// Prints the figures of runs with all the keys. So long took the map's fill with these.
pub(crate) fn print_figures<R: AllocGlobal + Print + Clock>(
    rt: &R,
    keys: &Keys,
    filled: Timed,
) -> Result<(), Fault> {
    let alloc = rt.alloc();
    let runs = store::runs_of(alloc, &keys.rising, RUNS)?;
    let mut store = Store::open(alloc, BTree::new(alloc)?, HashKey::known())?;
    let mut map = BTreeMap::new(alloc);
    map::fill(&mut map, &keys.drawn)?;
    let asked = &keys.asked[..keys.asked.len() / ONE_OF];
    let starts = &keys.asked[..keys.asked.len() / ROWS];
    let hot = &keys.rising[..keys.rising.len() / HOT];
    print_load(rt, &mut store, runs, asked, filled)?;
    print_reads(rt, "point reads before merging", &mut store, &map, asked)?;
    print_scans(rt, "scans of 100 before merging", &mut store, &map, starts)?;
    print_merge(rt, &mut store, keys.drawn.len() as u64)?;
    print_reads(rt, "point reads after merging", &mut store, &map, asked)?;
    print_scans(rt, "scans of 100 after merging", &mut store, &map, starts)?;
    print_scans(
        rt,
        "the same, a hundredth of the keys",
        &mut store,
        &map,
        hot,
    )
}

// Loads the runs, reads a key, and prints how long both took. A map that is to answer at once has to be filled first.
fn print_load<R: Print + Clock>(
    rt: &R,
    store: &mut Store<BTree>,
    runs: Vec<Records>,
    asked: &[Key],
    filled: Timed,
) -> Result<(), Fault> {
    let operations = filled.sum;
    let first = &asked[..asked.len().min(1)];
    let watch = Watch::start(rt)?;
    let loaded = store::load(store, runs)?;
    let load = watch.stop(rt, loaded)?;
    store::read(store, first)?;
    let answered = watch.stop(rt, loaded)?;
    let name = "load of 16 rising runs";
    Figure { name, operations }.print(rt, load, filled)?;
    let name = "the same to the first answer";
    Figure { name, operations }.print(rt, answered, filled)
}

fn print_reads<R: Print + Clock>(
    rt: &R,
    name: &'static str,
    store: &mut Store<BTree>,
    map: &BTreeMap<Key, Value>,
    keys: &[Key],
) -> Result<(), Fault> {
    let watch = Watch::start(rt)?;
    let sum = store::read(store, keys)?;
    let ours = watch.stop(rt, sum)?;
    let watch = Watch::start(rt)?;
    let sum = map::read(map, keys);
    let maps = watch.stop(rt, sum)?;
    let operations = keys.len() as u64;
    Figure { name, operations }.print(rt, ours, maps)
}

fn print_scans<R: AllocGlobal + Print + Clock>(
    rt: &R,
    name: &'static str,
    store: &mut Store<BTree>,
    map: &BTreeMap<Key, Value>,
    keys: &[Key],
) -> Result<(), Fault> {
    let watch = Watch::start(rt)?;
    let sum = store::scan(store, keys, Key::of_u64(u64::MAX), ROWS as u64)?;
    let ours = watch.stop(rt, sum)?;
    let watch = Watch::start(rt)?;
    let sum = map::scan_from(rt.alloc(), map, keys, ROWS)?;
    let maps = watch.stop(rt, sum)?;
    let operations = keys.len() as u64;
    Figure { name, operations }.print(rt, ours, maps)
}

fn print_merge<R: Print + Clock>(
    rt: &R,
    store: &mut Store<BTree>,
    entries: u64,
) -> Result<(), Fault> {
    store::ask_for_all(store)?;
    let watch = Watch::start(rt)?;
    let (moved, steps) = store::merge_all(store)?;
    let merge = watch.stop(rt, moved)?;
    if moved != entries {
        return Err(Fault::Differs);
    }
    let name = "merge steps until merged";
    let operations = steps;
    Figure { name, operations }.print_alone(rt, merge)
}
