//! The same work on the tree.

use crate::keys::{value_of, weight};
use am_index_btree::BTree;
use am_index::{Hint, PartIndex};
use am_index_parts::Parts;
use am_record::{Entry, Key, NoMemory, Range};
use am_store_scan::scan;
use std::alloc::Global;

fn entry(key: Key) -> Entry {
    Entry {
        part: 0,
        key,
        value: value_of(key),
        is_ghost: false,
    }
}

// Inserts where nothing stands, and says whether it did. An insert may be asked for at an absent place alone, so the
// place is looked for first, and the insert begins where that ended.
fn insert_there(tree: &mut BTree, entry: Entry) -> Result<bool, NoMemory> {
    let (found, hint) = tree.look(entry.part, entry.key, Hint::none());
    let is_new = found.is_none();
    if is_new {
        tree.insert(entry, hint)?;
    }
    Ok(is_new)
}

// The same, but that the insert searches anew.
fn insert(tree: &mut BTree, entry: Entry) -> Result<bool, NoMemory> {
    let is_new = tree.find(entry.part, entry.key).is_none();
    if is_new {
        tree.insert(entry, Hint::none())?;
    }
    Ok(is_new)
}

/// Inserts the keys, and answers how many were new.
pub(crate) fn fill(tree: &mut BTree, keys: &[Key]) -> Result<u64, NoMemory> {
    let mut added: u64 = 0;
    for key in keys {
        if insert_there(tree, entry(*key))? {
            added = added.saturating_add(1);
        }
    }
    Ok(added)
}

/// The same, as a caller does who knows no more than that it is an index.
pub(crate) fn fill_found(tree: &mut BTree, keys: &[Key]) -> Result<u64, NoMemory> {
    let mut added: u64 = 0;
    for key in keys {
        if insert(tree, entry(*key))? {
            added = added.saturating_add(1);
        }
    }
    Ok(added)
}

// Adds the entry, unless its place is taken or its key is live elsewhere.
fn add(parts: &mut Parts<BTree>, entry: Entry) -> Result<(), NoMemory> {
    if parts.find(entry.part, entry.key).is_none() && parts.place_of(entry.key).is_none() {
        parts.add(entry, Hint::none())?;
    }
    Ok(())
}

/// Adds the keys to partition 0.
pub(crate) fn fill_parts(parts: &mut Parts<BTree>, keys: &[Key]) -> Result<(), NoMemory> {
    for key in keys {
        add(parts, entry(*key))?;
    }
    Ok(())
}

/// Reads the keys, and adds up what they have.
pub(crate) fn read(tree: &BTree, keys: &[Key]) -> u64 {
    let mut sum: u64 = 0;
    for key in keys {
        if let Some((value, _)) = tree.find(0, *key) {
            sum = sum.wrapping_add(weight(&value));
        }
    }
    sum
}

/// Scans so many rows from each of the keys on, and adds up what they have.
pub(crate) fn scan_from(
    alloc: Global,
    parts: &Parts<BTree>,
    keys: &[Key],
    rows: u64,
) -> Result<u64, NoMemory> {
    let mut sum: u64 = 0;
    for key in keys {
        let Some(range) = Range::new(*key, Key::of_u64(u64::MAX)) else {
            continue;
        };
        for (_, value) in scan(alloc, parts, range, rows)? {
            sum = sum.wrapping_add(weight(&value));
        }
    }
    Ok(sum)
}

/// Removes the keys, and adds up what they had. What is removed has to be there, so it is looked for first.
pub(crate) fn remove(tree: &mut BTree, keys: &[Key]) -> u64 {
    let mut sum: u64 = 0;
    for key in keys {
        if tree.find(0, *key).is_some() {
            let removed = tree.remove(0, *key);
            sum = sum.wrapping_add(weight(&removed.value));
        }
    }
    sum
}
