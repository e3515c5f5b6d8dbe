//! The keys, in the orders in which they are used.

use am_record::{Key, NoMemory, Range, Value};
use std::alloc::Global;

/// The same keys in three orders.
#[derive(Drop)]
pub(crate) struct Keys {
    /// As they were drawn.
    pub(crate) drawn: Vec<Key>,
    /// In another order that looks drawn.
    pub(crate) asked: Vec<Key>,
    pub(crate) rising: Vec<Key>,
}

impl Keys {
    /// Draws so many keys, always the same.
    pub(crate) fn draw(alloc: Global, count: u64) -> Result<Keys, NoMemory> {
        let mut drawn = Vec::new(alloc);
        for number in 0..count {
            drawn.push(Key::of_u64(mixed(number)))?;
        }
        let asked = shuffled(drawn.clone()?);
        let mut rising = drawn.clone()?;
        rising.sort_unstable();
        Ok(Keys {
            drawn,
            asked,
            rising,
        })
    }
}

/// So many keys of the range that are not among the first `count` drawn, or fewer where a hundred times as many have
/// too few.
pub(crate) fn others(
    alloc: Global,
    count: u64,
    range: Range,
    wanted: usize,
) -> Result<Vec<Key>, NoMemory> {
    let mut others = Vec::new(alloc);
    let draws = (wanted as u64).saturating_mul(100);
    for number in count..count.saturating_add(draws) {
        let key = Key::of_u64(mixed(number));
        if range.contains(key) {
            others.push(key)?;
        }
        if others.len() >= wanted {
            break;
        }
    }
    Ok(others)
}

// A number that looks drawn. Each step can be undone, so different numbers stay different (Steele, Lea and Flood,
// 2014).
fn mixed(number: u64) -> u64 {
    let mut mixed = number.wrapping_mul(0x9E37_79B9_7F4A_7C15);
    mixed = (mixed ^ (mixed >> 30)).wrapping_mul(0xBF58_476D_1CE4_E5B9);
    mixed = (mixed ^ (mixed >> 27)).wrapping_mul(0x94D0_49BB_1331_11EB);
    mixed ^ (mixed >> 31)
}

// The keys in another order: each changes places with one that is drawn.
fn shuffled(mut keys: Vec<Key>) -> Vec<Key> {
    let count = keys.len();
    for at in 0..count {
        let other = mixed(!(at as u64)) % count as u64;
        keys.swap(at, other as usize);
    }
    keys
}

/// The value under a key: its eight bytes, twice.
pub(crate) fn value_of(key: Key) -> Value {
    let mut bytes = [0; 16];
    for (at, byte) in key.bytes().iter().enumerate() {
        if at < 8 {
            bytes[at] = *byte;
            bytes[at + 8] = *byte;
        }
    }
    Value::new(&bytes).unwrap()
}

/// What a value adds to a sum of results.
pub(crate) fn weight(value: &Value) -> u64 {
    match value.bytes().last() {
        Some(byte) => *byte as u64,
        None => 0,
    }
}
