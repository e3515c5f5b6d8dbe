//! Partitions.

use crate::entries::{add, byte, dead, live, over};
use am_index::{Hint, Listed, PartIndex};
use am_index_list::ListIndex;
use am_index_parts::{Parts, RunFault};
use am_record::{Entry, HashKey, Key};
use std::alloc::Global;
use std::process::Abort;

#[test]
fn place_of_passes_over_ghosts_and_empty_partitions(rt: HostRuntime) {
    let entries = [
        dead(0, 5, b'g'),
        live(0, 7, b'a'),
        dead(1, 5, b'g'),
        live(1, 9, b'b'),
        live(3, 4, b'c'),
        live(3, 5, b'd'),
        dead(u32::MAX, 2, b'g'),
        live(u32::MAX, 8, b'e'),
    ];
    let parts = over(&rt, rt.alloc(), &entries);
    for (number, place) in [
        (7, Some(0)),
        (9, Some(1)),
        (4, Some(3)),
        (5, Some(3)),
        (8, Some(u32::MAX)),
        (2, None),
        (6, None),
        (99, None),
    ] {
        assert!(rt; parts.place_of(Key::of_u64(number)) == place, "at {number}");
    }
}

// Makes a ghost of the entry of the place, where one stands there.
fn bury(parts: &mut Parts<ListIndex>, part: u32, key: Key, value: u8) {
    if parts.find(part, key).is_some() {
        parts.set(part, key, byte(value), true, Hint::none());
    }
}

// Makes the entry of the place live, where one stands there and its key is live nowhere.
#[tactic(auto, using(am_index_parts::proofs::Lives::live_nowhere))]
fn revive(parts: &mut Parts<ListIndex>, part: u32, key: Key, value: u8) {
    if parts.find(part, key).is_some() && parts.place_of(key).is_none() {
        parts.set(part, key, byte(value), false, Hint::none());
    }
}

#[test]
fn changes_the_entry_of_the_named_partition(rt: HostRuntime) {
    let key = Key::of_u64(5);
    let mut parts = over(&rt, rt.alloc(), &[dead(0, 5, b'g'), live(1, 5, b'p')]);
    assert!(rt; parts.runs() == 0);
    if parts.runs() < 65535 {
        parts.count_run();
    }
    assert!(rt; parts.runs() == 1);

    bury(&mut parts, 1, key, b'q');
    assert!(rt; parts.place_of(key).is_none());
    assert!(rt; parts.find(1, key) == Some((byte(b'q'), true)));

    revive(&mut parts, 0, key, b'r');
    assert!(rt; parts.place_of(key) == Some(0));
    assert!(rt; parts.next_any(0, key) == Some(live(0, 5, b'r')));
    assert!(rt; parts.next_from(1, Key::least()) == Some(dead(1, 5, b'q')));
    assert!(rt; parts.after(1, key).is_none());

    assert!(rt; take(&mut parts, 1, 5) == Some(dead(1, 5, b'q')));
    assert!(rt; parts.find(1, key).is_none());
    assert!(rt; parts.runs() == 1);
}

// Makes one-byte records of the keys the next run, where memory is refused once more.
fn append(
    rt: &impl Abort,
    alloc: Global,
    parts: &mut Parts<ListIndex>,
    keys: &[u64],
) -> Result<(), RunFault> {
    let mut pairs = Vec::new(alloc);
    for key in keys {
        pairs
            .push((Key::of_u64(*key), byte(b'r')))
            .expect(rt, "memory");
    }
    let run = Listed { records: &pairs };
    match parts.append_run(&run) {
        Err(RunFault::NoMemory) => parts.append_run(&run),
        answer => answer,
    }
}

#[test]
fn a_run_with_a_key_that_is_live_in_a_run_leaves_nothing(rt: HostRuntime) {
    let alloc = rt.alloc();
    let mut parts = Parts::new(alloc, ListIndex::new(alloc), HashKey::known());
    assert!(rt; append(&rt, alloc, &mut parts, &[1, 5]) == Ok(()));
    assert!(rt; append(&rt, alloc, &mut parts, &[3, 5, 7]) == Err(RunFault::Taken));
    assert!(rt; parts.runs() == 1);
    assert!(rt; parts.place_of(Key::of_u64(3)).is_none());
    assert!(rt; parts.place_of(Key::of_u64(7)).is_none());
    assert!(rt; append(&rt, alloc, &mut parts, &[3, 7]) == Ok(()));
    for (number, run) in [(1, 1), (3, 2), (5, 1), (7, 2)] {
        assert!(rt; parts.place_of(Key::of_u64(number)) == Some(run));
    }
}

// Adds the entry of the number, which is less than all others: where memory is refused, once more.
fn add_below(rt: &impl Abort, parts: &mut Parts<ListIndex>, number: u64) {
    let key = Key::of_u64(number);
    if add(parts, live(0, number, b'a')).is_err() {
        assert!(rt; parts.place_of(key).is_none());
        assert!(rt; parts.next_any(0, Key::least()) == parts.after(0, key));
        add(parts, live(0, number, b'a')).expect(rt, "memory");
    }
    assert!(rt; parts.next_any(0, Key::least()) == Some(live(0, number, b'a')));
}

#[test]
fn refused_add_changes_nothing(rt: HostRuntime) {
    let mut parts = Parts::new(rt.alloc(), ListIndex::new(rt.alloc()), HashKey::known());
    for number in 0..9_u64 {
        add_below(&rt, &mut parts, 20 - number);
    }
}

// Takes the entry of the place out, where one stands there.
fn take(parts: &mut Parts<ListIndex>, part: u32, number: u64) -> Option<Entry> {
    if parts.find(part, Key::of_u64(number)).is_none() {
        return None;
    }
    Some(parts.take(part, Key::of_u64(number)))
}

// Adds the number, which stands nowhere, to the second run.
fn add_to_second(rt: &impl Abort, parts: &mut Parts<ListIndex>, number: u64) {
    assert!(rt; parts.place_of(Key::of_u64(number)).is_none());
    add(parts, live(2, number, b'd')).expect(rt, "memory");
    assert!(rt; parts.place_of(Key::of_u64(number)) == Some(2));
}

#[test]
fn runs_empty_out_and_are_filled_again(rt: HostRuntime) {
    let entries = [
        live(1, 1, b'a'),
        live(2, 2, b'b'),
        dead(2, 3, b'g'),
        live(3, 4, b'c'),
    ];
    let mut parts = over(&rt, rt.alloc(), &entries);
    take(&mut parts, 2, 2);
    assert!(rt; parts.place_of(Key::of_u64(2)).is_none());
    assert!(rt; parts.find(2, Key::of_u64(3)) == Some((byte(b'g'), true)));
    take(&mut parts, 2, 3);
    take(&mut parts, 1, 1);
    assert!(rt; parts.place_of(Key::of_u64(4)) == Some(3));
    for number in [1, 2, 3] {
        add_to_second(&rt, &mut parts, number);
    }
}
