//! Keys, values and ranges of the tests.

use am_record::{Key, Range, Value};
use std::process::Abort;

pub(crate) fn key(rt: &impl Abort, bytes: &[u8]) -> Key {
    Key::new(bytes).expect(rt, "at most 32 bytes")
}

pub(crate) fn value(rt: &impl Abort, bytes: &[u8]) -> Value {
    Value::new(bytes).expect(rt, "at most 64 bytes")
}

pub(crate) fn range(rt: &impl Abort, lo: &[u8], hi: &[u8]) -> Range {
    Range::new(key(rt, lo), key(rt, hi)).expect(rt, "ends in order")
}
