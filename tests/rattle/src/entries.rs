//! Entries of the tests, and partitions with them.

use am_index::{Hint, PartIndex};
use am_index_list::ListIndex;
use am_index_parts::Parts;
use am_record::{Entry, HashKey, Key, NoMemory, Value};
use std::alloc::Global;
use std::process::Abort;

pub(crate) fn byte(byte: u8) -> Value {
    Value::new(&[byte]).unwrap()
}

pub(crate) fn live(part: u32, number: u64, value: u8) -> Entry {
    Entry {
        part,
        key: Key::of_u64(number),
        value: byte(value),
        is_ghost: false,
    }
}

pub(crate) fn dead(part: u32, number: u64, value: u8) -> Entry {
    Entry {
        part,
        key: Key::of_u64(number),
        value: byte(value),
        is_ghost: true,
    }
}

/// Adds the entry, unless its place is taken or a live one's key is live elsewhere.
pub(crate) fn add<I: PartIndex + Drop>(parts: &mut Parts<I>, entry: Entry) -> Result<(), NoMemory> {
    if parts.find(entry.part, entry.key).is_some() {
        return Ok(());
    }
    if !entry.is_ghost && parts.place_of(entry.key).is_some() {
        return Ok(());
    }
    parts.add(entry, Hint::none())
}

/// Partitions with the entries.
pub(crate) fn over(rt: &impl Abort, alloc: Global, entries: &[Entry]) -> Parts<ListIndex> {
    let mut parts = Parts::new(alloc, ListIndex::new(alloc), HashKey::known());
    for entry in entries {
        add(&mut parts, *entry).expect(rt, "memory");
    }
    parts
}
