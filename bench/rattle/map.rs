//! The work on std's map.

use crate::keys::{value_of, weight};
use am_record::{Key, NoMemory, Value};
use std::alloc::Global;
use std::collections::BTreeMap;

/// Inserts the keys, and answers how many there are then.
pub(crate) fn fill(map: &mut BTreeMap<Key, Value>, keys: &[Key]) -> Result<u64, NoMemory> {
    for key in keys {
        map.insert(*key, value_of(*key))?;
    }
    Ok(map.len() as u64)
}

/// Reads the keys, and adds up what they have.
pub(crate) fn read(map: &BTreeMap<Key, Value>, keys: &[Key]) -> u64 {
    let mut sum: u64 = 0;
    for key in keys {
        if let Some(value) = map.get(key) {
            sum = sum.wrapping_add(weight(value));
        }
    }
    sum
}

/// Copies so many rows from each of the keys on, and adds up what they have.
pub(crate) fn scan_from(
    alloc: Global,
    map: &BTreeMap<Key, Value>,
    keys: &[Key],
    rows: usize,
) -> Result<u64, NoMemory> {
    let mut sum: u64 = 0;
    for key in keys {
        for (_, value) in scan(alloc, map, *key, rows)? {
            sum = sum.wrapping_add(weight(&value));
        }
    }
    Ok(sum)
}

fn scan(
    alloc: Global,
    map: &BTreeMap<Key, Value>,
    from: Key,
    max: usize,
) -> Result<Vec<(Key, Value)>, NoMemory> {
    let mut rows = Vec::new(alloc);
    for (key, value) in map.range(from..).take(max) {
        rows.push((*key, *value))?;
    }
    Ok(rows)
}

/// Removes the keys, and adds up what they had.
pub(crate) fn remove(map: &mut BTreeMap<Key, Value>, keys: &[Key]) -> u64 {
    let mut sum: u64 = 0;
    for key in keys {
        if let Some(value) = map.remove(key) {
            sum = sum.wrapping_add(weight(&value));
        }
    }
    sum
}
