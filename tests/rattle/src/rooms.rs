//! Room for values in the partitions.

use crate::entries::{add, byte, dead, live};
use crate::narrow::Narrow;
use am_index::{Hint, PartIndex};
use am_index_btree::BTree;
use am_index_parts::Parts;
use am_record::{Entry, HashKey, Key, Value};
use std::alloc::Global;
use std::process::Abort;

fn long(byte: u8) -> Value {
    Value::new(&[byte; 40]).unwrap()
}

// The entry with a long value in place of its own.
fn lengthened(entry: Entry, byte: u8) -> Entry {
    Entry {
        value: long(byte),
        ..entry
    }
}

// Partitions with the entries, in which these calls are refused memory for room.
fn over(rt: &impl Abort, alloc: Global, refused: &[u64], entries: &[Entry]) -> Parts<Narrow> {
    let refused = Vec::from_slice(alloc, refused).expect(rt, "memory");
    let mut parts = Parts::new(alloc, Narrow::new(alloc, refused), HashKey::known());
    for entry in entries {
        add(&mut parts, *entry).expect(rt, "memory");
    }
    parts
}

// This stands there.
fn has<I: PartIndex + Drop>(rt: &impl Abort, parts: &Parts<I>, entry: Entry) {
    let found = parts.find(entry.part, entry.key);
    assert!(rt; found == Some((entry.value, entry.is_ghost)));
}

#[test]
fn a_long_value_is_set_over_a_short_one(rt: HostRuntime) {
    let (key, record) = (Key::of_u64(5), live(0, 5, b'a'));
    let mut parts = over(&rt, rt.alloc(), &[], &[record, live(0, 7, b'b')]);
    assert!(rt; parts.make_room(0, key, 40, Hint::none()).is_ok());
    has(&rt, &parts, record);
    parts.set(0, key, long(b'c'), false, Hint::none());
    has(&rt, &parts, lengthened(record, b'c'));

    // Its room stays while a short value or a ghost stands there.
    parts.set(0, key, byte(b'd'), true, Hint::none());
    has(&rt, &parts, dead(0, 5, b'd'));
    parts.set(0, key, long(b'e'), false, Hint::none());
    has(&rt, &parts, lengthened(record, b'e'));
    has(&rt, &parts, live(0, 7, b'b'));
}

#[test]
fn refused_room_changes_nothing(rt: HostRuntime) {
    let (key, record) = (Key::of_u64(5), live(0, 5, b'a'));
    let mut parts = over(&rt, rt.alloc(), &[1], &[record]);
    assert!(rt; parts.make_room(0, key, 17, Hint::none()).is_err());
    has(&rt, &parts, record);
    assert!(rt; parts.make_room(0, key, 16, Hint::none()).is_ok());
    parts.set(
        0,
        key,
        Value::new(&[b'b'; 16]).unwrap(),
        false,
        Hint::none(),
    );
    assert!(rt; parts.make_room(0, key, 17, Hint::none()).is_ok());
    parts.set(0, key, long(b'c'), false, Hint::none());
    has(&rt, &parts, lengthened(record, b'c'));
}

#[test]
fn a_long_record_goes_home_over_a_short_ghost(rt: HostRuntime) {
    let record = lengthened(live(1, 5, b'r'), b'r');
    let mut parts = over(&rt, rt.alloc(), &[], &[dead(0, 5, b'g'), record]);
    assert!(rt; parts.bring_home(&[record]) == 1);
    has(&rt, &parts, Entry { part: 0, ..record });
    assert!(rt; parts.find(1, record.key).is_none());
}

#[test]
fn a_long_record_that_gets_no_room_stays_in_its_run(rt: HostRuntime) {
    let stretch = [
        live(1, 3, b'a'),
        lengthened(live(1, 5, b'r'), b'r'),
        live(1, 7, b'c'),
    ];
    let mut parts = over(&rt, rt.alloc(), &[1], &[dead(0, 5, b'g')]);
    for record in stretch {
        add(&mut parts, record).expect(&rt, "memory");
    }
    assert!(rt; parts.bring_home(&stretch) == 1);
    has(&rt, &parts, live(0, 3, b'a'));
    has(&rt, &parts, dead(0, 5, b'g'));
    has(&rt, &parts, stretch[1]);
    has(&rt, &parts, stretch[2]);

    assert!(rt; parts.bring_home(&stretch[1..]) == 2);
    has(&rt, &parts, lengthened(live(0, 5, b'r'), b'r'));
    has(&rt, &parts, live(0, 7, b'c'));
    assert!(rt; parts.find(1, Key::of_u64(5)).is_none());
}

#[test]
fn a_long_record_goes_home_among_short_ones(rt: HostRuntime) {
    let tree = BTree::new(rt.alloc()).expect(&rt, "memory");
    let mut parts = Parts::new(rt.alloc(), tree, HashKey::known());
    let stretch = [
        live(1, 3, b'a'),
        live(1, 4, b'b'),
        lengthened(live(1, 5, b'r'), b'r'),
        live(1, 7, b'c'),
    ];
    for record in [live(0, 1, b'x'), live(0, 9, b'y')] {
        add(&mut parts, record).expect(&rt, "memory");
    }
    for record in stretch {
        add(&mut parts, record).expect(&rt, "memory");
    }
    assert!(rt; parts.bring_home(&stretch) == 4);
    for record in stretch {
        has(&rt, &parts, Entry { part: 0, ..record });
        assert!(rt; parts.find(1, record.key).is_none());
    }
    has(&rt, &parts, live(0, 1, b'x'));
    has(&rt, &parts, live(0, 9, b'y'));
}

#[test]
fn a_record_no_longer_than_the_ghost_wants_no_memory(rt: HostRuntime) {
    let record = lengthened(live(1, 5, b'r'), b'r');
    let buried = lengthened(dead(0, 5, b'g'), b'g');
    let mut parts = over(&rt, rt.alloc(), &[1], &[buried, record]);
    assert!(rt; parts.bring_home(&[record]) == 1);
    has(&rt, &parts, Entry { part: 0, ..record });
}
