//! The figures of the tree.

use crate::fault::Fault;
use crate::figure::Figure;
use crate::keys::Keys;
use crate::watch::{Timed, Watch};
use crate::{map, tree};
use am_index_btree::BTree;
use am_index_parts::Parts;
use am_record::{HashKey, Key, Value};
use std::collections::BTreeMap;
use std::time::Clock;

/// How many rows a scan asks for.
const ROWS: usize = 100;

/// Prints the figures of the tree, and answers how long the map's fill took.
pub(crate) fn print_figures<R: AllocGlobal + Print + Clock>(
    rt: &R,
    keys: &Keys,
) -> Result<Timed, Fault> {
    print_rising_fill(rt, keys)?;
    let mut tree = BTree::new(rt.alloc())?;
    let mut map = BTreeMap::new(rt.alloc());
    let filled = print_fill(rt, "fill, keys as drawn", &mut tree, &mut map, &keys.drawn)?;
    print_found_fill(rt, &keys.drawn, filled)?;
    print_reads(rt, &tree, &map, &keys.asked)?;
    print_scans(rt, &map, keys)?;
    print_removals(rt, &mut tree, &mut map, &keys.asked)?;
    Ok(filled)
}

fn print_rising_fill<R: AllocGlobal + Print + Clock>(rt: &R, keys: &Keys) -> Result<(), Fault> {
    let mut tree = BTree::new(rt.alloc())?;
    let mut map = BTreeMap::new(rt.alloc());
    print_fill(rt, "fill, rising keys", &mut tree, &mut map, &keys.rising)?;
    Ok(())
}

// Fills both, and answers how long the map's fill took.
fn print_fill<R: AllocGlobal + Print + Clock>(
    rt: &R,
    name: &'static str,
    tree: &mut BTree,
    map: &mut BTreeMap<Key, Value>,
    keys: &[Key],
) -> Result<Timed, Fault> {
    let watch = Watch::start(rt)?;
    let added = tree::fill(tree, keys)?;
    let ours = watch.stop(rt, added)?;
    let watch = Watch::start(rt)?;
    let added = map::fill(map, keys)?;
    let maps = watch.stop(rt, added)?;
    let operations = keys.len() as u64;
    Figure { name, operations }.print(rt, ours, maps)?;
    Ok(maps)
}

// Fills a tree whose keys are looked for before they are inserted. So long took the map's fill.
fn print_found_fill<R: AllocGlobal + Print + Clock>(
    rt: &R,
    keys: &[Key],
    filled: Timed,
) -> Result<(), Fault> {
    let mut tree = BTree::new(rt.alloc())?;
    let watch = Watch::start(rt)?;
    let added = tree::fill_found(&mut tree, keys)?;
    let ours = watch.stop(rt, added)?;
    let operations = keys.len() as u64;
    let name = "the same by find and insert";
    Figure { name, operations }.print(rt, ours, filled)
}

fn print_reads<R: Print + Clock>(
    rt: &R,
    tree: &BTree,
    map: &BTreeMap<Key, Value>,
    keys: &[Key],
) -> Result<(), Fault> {
    let watch = Watch::start(rt)?;
    let sum = tree::read(tree, keys);
    let ours = watch.stop(rt, sum)?;
    let watch = Watch::start(rt)?;
    let sum = map::read(map, keys);
    let maps = watch.stop(rt, sum)?;
    let operations = keys.len() as u64;
    let name = "point reads";
    Figure { name, operations }.print(rt, ours, maps)
}

fn print_scans<R: AllocGlobal + Print + Clock>(
    rt: &R,
    map: &BTreeMap<Key, Value>,
    keys: &Keys,
) -> Result<(), Fault> {
    let alloc = rt.alloc();
    let mut parts = Parts::new(alloc, BTree::new(alloc)?, HashKey::known());
    tree::fill_parts(&mut parts, &keys.drawn)?;
    let starts = &keys.asked[..keys.asked.len() / ROWS];
    let watch = Watch::start(rt)?;
    let sum = tree::scan_from(alloc, &parts, starts, ROWS as u64)?;
    let ours = watch.stop(rt, sum)?;
    let watch = Watch::start(rt)?;
    let sum = map::scan_from(alloc, map, starts, ROWS)?;
    let maps = watch.stop(rt, sum)?;
    let operations = (starts.len() as u64).saturating_mul(ROWS as u64);
    let name = "rows of scans of 100";
    Figure { name, operations }.print(rt, ours, maps)
}

fn print_removals<R: Print + Clock>(
    rt: &R,
    tree: &mut BTree,
    map: &mut BTreeMap<Key, Value>,
    keys: &[Key],
) -> Result<(), Fault> {
    let watch = Watch::start(rt)?;
    let sum = tree::remove(tree, keys);
    let ours = watch.stop(rt, sum)?;
    let watch = Watch::start(rt)?;
    let sum = map::remove(map, keys);
    let maps = watch.stop(rt, sum)?;
    let operations = keys.len() as u64;
    let name = "removals";
    Figure { name, operations }.print(rt, ours, maps)
}
