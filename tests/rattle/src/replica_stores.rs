//! The store of a replica: blocks and trials on it, one after another.

use am_record::{HashKey, Key, Op, Range, Records, Refusal, Reply, Value};
use am_replica::Machine;
use am_replica_records::renewed;
use am_replica_store::ReplicaStore;
use std::alloc::Global;
use std::test::Fail;

fn get(key: u64) -> Op {
    Op::Get(Key::of_u64(key))
}

fn set(key: u64, value: &[u8]) -> Op {
    Op::Set(Key::of_u64(key), Value::new(value).unwrap())
}

fn load(alloc: Global, keys: &[u64]) -> Result<Op, Fail> {
    let mut pairs = Vec::new(alloc);
    for key in keys {
        pairs.push((Key::of_u64(*key), Value::new(b"l").unwrap()))?;
    }
    Ok(Op::Load(Records::new(pairs)))
}

fn found(value: &[u8]) -> Reply {
    Reply::Found(Value::new(value).unwrap())
}

#[test]
fn what_commits_stays_and_what_is_tried_goes(rt: HostRuntime) -> Result<(), Fail> {
    let alloc = rt.alloc();
    let mut store = ReplicaStore::new(alloc, HashKey::known())?;
    let told = store.run(&vec![in alloc; load(alloc, &[1, 3])?, set(2, b"a"), get(2)]?)?;
    assert_eq!(rt;
        told,
        vec![in alloc; Reply::Done, Reply::Done, found(b"a")]?
    );
    store.commit()?;
    // A trial that loads, writes over, deletes and goes back leaves nothing.
    let tried = vec![in alloc;
        load(alloc, &[5, 6])?,
        set(2, b"b"),
        Op::Mark,
        Op::Delete(Key::of_u64(1)),
        get(1),
        Op::Back,
        get(1),
        get(2),
    ]?;
    for _ in 0..3 {
        let told = store.run(&tried)?;
        assert_eq!(rt; told[4], Reply::Absent);
        assert_eq!(rt; told[6], found(b"l"));
        assert_eq!(rt; told[7], found(b"b"));
        store.abort()?;
        // What was tried left places of records, which go; and what was read is merged.
        let all = Range::new(Key::of_u64(0), Key::of_u64(9)).unwrap();
        assert_eq!(rt; store.clean(all, 64), Reply::Cleaned(2));
        store.merge(64);
    }
    let told = store.run(&vec![in alloc; get(1), get(2), get(5)]?)?;
    assert_eq!(rt;
        told,
        vec![in alloc; found(b"l"), found(b"a"), Reply::Absent]?
    );
    store.abort()?;
    // A trial goes on, an operation at a time.
    store.run(&vec![in alloc; set(2, b"c")]?)?;
    assert_eq!(rt; store.go_on(&get(2))?, found(b"c"));
    store.abort()?;
    // Nothing is active, so neither does anything.
    store.commit()?;
    store.abort()?;
    let told = store.run(&vec![in alloc; get(2)]?)?;
    assert_eq!(rt; told[0], found(b"a"));
    Ok(())
}

#[test]
fn a_refused_line_does_nothing(rt: HostRuntime) -> Result<(), Fail> {
    let alloc = rt.alloc();
    let mut store = ReplicaStore::new(alloc, HashKey::known())?;
    let range = Range::new(Key::of_u64(0), Key::of_u64(9)).unwrap();
    let ops = vec![in alloc;
        set(1, b"a"),
        Op::Scan(range, 1001),
        load(alloc, &[3, 2])?,
        get(3),
        get(1),
    ]?;
    let told = store.run(&ops)?;
    let refused = |why| Reply::Refused(why);
    assert_eq!(rt;
        told,
        vec![in alloc;
            Reply::Done,
            refused(Refusal::BadLimit),
            refused(Refusal::NotRising),
            Reply::Absent,
            found(b"a")
        ]?
    );
    store.commit()?;
    Ok(())
}

#[test]
fn a_store_made_anew_has_its_records(rt: HostRuntime) -> Result<(), Fail> {
    let alloc = rt.alloc();
    let mut store = ReplicaStore::new(alloc, HashKey::known())?;
    store.run(&vec![in alloc; load(alloc, &[1, 3])?, set(2, b"a")]?)?;
    store.commit()?;
    // Loads that are tried make runs too, of which a store has 65,535 in its life: another one takes its place.
    let tried = vec![in alloc; load(alloc, &[5, 6])?]?;
    for number in 1..=6 {
        let told = store.run(&tried)?;
        assert!(rt; told[0] == Reply::Done);
        store.abort()?;
        if number % 2 == 0 {
            let fresh = ReplicaStore::new(alloc, HashKey::known())?;
            store = renewed(alloc, &mut store, fresh)?;
        }
    }
    let told = store.run(&vec![in alloc; get(1), get(2), get(3), get(5)]?)?;
    assert_eq!(rt;
        told,
        vec![in alloc; found(b"l"), found(b"a"), found(b"l"), Reply::Absent]?
    );
    store.abort()?;
    Ok(())
}
