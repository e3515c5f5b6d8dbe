//! The records of a replica's store: as a snapshot, and put in again.

use am_record::{HashKey, Key, Op, Records, Value};
use am_replica::Machine;
use am_replica_records::{load_records, page, records};
use am_replica_store::ReplicaStore;
use std::alloc::Global;
use std::test::Fail;

fn store(alloc: Global) -> Result<ReplicaStore, Fail> {
    Ok(ReplicaStore::new(alloc, HashKey::known())?)
}

// Records of the even numbers below twice this one.
fn evens(alloc: Global, number: u64) -> Result<Vec<(Key, Value)>, Fail> {
    let mut pairs = Vec::new(alloc);
    for half in 0..number {
        pairs.push((Key::of_u64(2 * half), Value::new(b"v").unwrap()))?;
    }
    Ok(pairs)
}

#[test]
fn a_snapshot_has_all_records(rt: HostRuntime) -> Result<(), Fail> {
    let alloc = rt.alloc();
    // None, one, as many as a page has, and those beside.
    for number in [0, 1, 999, 1000, 1001, 2000, 2500] {
        let all = evens(alloc, number)?;
        let mut first = store(alloc)?;
        load_records(alloc, &mut first, &all)?;
        let told = records(alloc, &mut first)?;
        assert!(rt; told.as_slice() == all.as_slice(), "{number}");
        let mut second = store(alloc)?;
        load_records(alloc, &mut second, told.as_slice())?;
        assert!(rt;
            records(alloc, &mut second)?.as_slice() == all.as_slice(),
            "{number}"
        );
    }
    Ok(())
}

#[test]
fn a_page_begins_at_a_key(rt: HostRuntime) -> Result<(), Fail> {
    let alloc = rt.alloc();
    let all = evens(alloc, 1500)?;
    let mut store = store(alloc)?;
    load_records(alloc, &mut store, &all)?;
    let from = |key| Key::of_u64(key);
    assert!(rt; page(alloc, &mut store, from(0))?.as_slice() == &all[..1000]);
    assert!(rt; page(alloc, &mut store, from(2 * 600))?.as_slice() == &all[600..]);
    assert!(rt; page(alloc, &mut store, from(2 * 600 + 1))?.as_slice() == &all[601..]);
    assert!(rt; page(alloc, &mut store, from(3000))?.as_slice().is_empty());
    Ok(())
}

#[test]
fn what_is_tried_is_in_no_snapshot(rt: HostRuntime) -> Result<(), Fail> {
    let alloc = rt.alloc();
    let all = evens(alloc, 3)?;
    let mut store = store(alloc)?;
    load_records(alloc, &mut store, &all)?;
    let tried = vec![in alloc;
        Op::Delete(Key::of_u64(2)),
        Op::Load(Records::new(vec![in alloc; (Key::of_u64(3), Value::new(b"w").unwrap())]?)),
    ]?;
    store.run(&tried)?;
    store.abort()?;
    assert!(rt; records(alloc, &mut store)?.as_slice() == all.as_slice());
    Ok(())
}
