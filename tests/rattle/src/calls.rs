//! Worked steps at the limits of the store.

use am_index_btree::BTree;
use am_record::{Entry, HashKey, Key, NoMemory, Op, Range, Records, Refusal, Reply, Step, Value};
use am_store::Store;
use std::alloc::Global;
use std::process::Abort;

fn open(alloc: Global) -> Result<Store<BTree>, NoMemory> {
    Store::open(alloc, BTree::new(alloc)?, HashKey::known())
}

// The step is answered so.
fn answers<R: Abort>(rt: &R, store: &mut Store<BTree>, step: Step, expected: Reply) {
    assert_eq!(rt; store.step(step), expected);
}

fn get(tx: u64, number: u64) -> Step {
    Step::Do(tx, Op::Get(Key::of_u64(number)))
}

fn value() -> Value {
    Value::new(b"a").unwrap()
}

// The pair of the number alone, as a load of the transaction.
fn load_one(alloc: Global, tx: u64, number: u64) -> Result<Step, NoMemory> {
    let pairs = vec![in alloc; (Key::of_u64(number), value())]?;
    Ok(Step::Do(tx, Op::Load(Records::new(pairs))))
}

// The pairs of the numbers below 300 that leave this rest when parted by three.
fn every_third(alloc: Global, rest: u64) -> Result<Records, NoMemory> {
    let mut pairs = Vec::new(alloc);
    for number in 0..300 {
        if number % 3 == rest {
            pairs.push((Key::of_u64(number), value()))?;
        }
    }
    Ok(Records::new(pairs))
}

fn pairs_from_20_to_39(alloc: Global) -> Result<Records, NoMemory> {
    let mut pairs = Vec::new(alloc);
    for number in 20..40 {
        pairs.push((Key::of_u64(number), value()))?;
    }
    Ok(Records::new(pairs))
}

// A store whose three runs hold the numbers below 300 in turn.
fn three_runs<R: Abort>(rt: &R, alloc: Global) -> Result<Store<BTree>, NoMemory> {
    let mut store = open(alloc)?;
    answers(rt, &mut store, Step::Begin, Reply::Begun(1));
    for rest in 0..3 {
        let load = Op::Load(every_third(alloc, rest)?);
        answers(rt, &mut store, Step::Do(1, load), Reply::Done);
    }
    answers(rt, &mut store, Step::Commit(1), Reply::Committed(1));
    Ok(store)
}

fn stands_in_run(entry: &&Entry) -> bool {
    entry.part > 0
}

#[test]
fn merge_cuts_by_limit_and_run(rt: HostRuntime) -> Result<(), NoMemory> {
    let alloc = rt.alloc();
    let mut store = three_runs(&rt, alloc)?;
    answers(&rt, &mut store, Step::Begin, Reply::Begun(2));
    let range = Range::new(Key::of_u64(20), Key::of_u64(39)).expect(&rt, "the ends stand in order");
    let rows = Reply::Rows(pairs_from_20_to_39(alloc)?);
    answers(&rt, &mut store, Step::Do(2, Op::Scan(range, 1000)), rows);
    for reply in [
        Reply::Moved(7, 1),
        Reply::Moved(6, 2),
        Reply::Moved(7, 3),
        Reply::MergeDone,
    ] {
        answers(&rt, &mut store, Step::Merge(64), reply);
    }
    let entries = store.entries(alloc)?;
    assert_eq!(rt; entries.len(), 300);
    assert_eq!(rt;
        entries.as_slice().iter().filter(stands_in_run).count(),
        280
    );
    Ok(())
}

#[test]
fn sixty_four_transactions(rt: HostRuntime) -> Result<(), NoMemory> {
    let mut store = open(rt.alloc())?;
    for tx in 1..=64 {
        answers(&rt, &mut store, Step::Begin, Reply::Begun(tx));
    }
    let refused = Reply::Refused(Refusal::TooManyTx);
    answers(&rt, &mut store, Step::Begin, refused);
    answers(&rt, &mut store, Step::Commit(1), Reply::Committed(1));
    answers(&rt, &mut store, Step::Begin, Reply::Begun(65));
    Ok(())
}

#[test]
fn two_hundred_and_fifty_six_locks(rt: HostRuntime) -> Result<(), NoMemory> {
    let mut store = open(rt.alloc())?;
    answers(&rt, &mut store, Step::Begin, Reply::Begun(1));
    for half in 0..256 {
        answers(&rt, &mut store, get(1, 2 * half), Reply::Absent);
    }
    let refused = Reply::Refused(Refusal::TooManyLocks);
    answers(&rt, &mut store, get(1, 512), refused);
    answers(&rt, &mut store, get(1, 0), Reply::Absent);
    Ok(())
}

#[test]
fn four_thousand_and_ninety_six_operations(rt: HostRuntime) -> Result<(), NoMemory> {
    let mut store = open(rt.alloc())?;
    answers(&rt, &mut store, Step::Begin, Reply::Begun(1));
    for _ in 0..4096 {
        answers(&rt, &mut store, get(1, 0), Reply::Absent);
    }
    let refused = Reply::Refused(Refusal::TooManyOps);
    answers(&rt, &mut store, get(1, 0), refused);
    answers(&rt, &mut store, Step::Commit(1), Reply::Committed(1));
    Ok(())
}

// A store with the key 0 in a run, and 65 reads after it.
fn read_65_times<R: Abort>(rt: &R, alloc: Global) -> Result<Store<BTree>, NoMemory> {
    let mut store = open(alloc)?;
    answers(rt, &mut store, Step::Begin, Reply::Begun(1));
    answers(rt, &mut store, load_one(alloc, 1, 0)?, Reply::Done);
    answers(rt, &mut store, Step::Commit(1), Reply::Committed(1));
    answers(rt, &mut store, Step::Begin, Reply::Begun(2));
    answers(rt, &mut store, get(2, 0), Reply::Found(value()));
    for number in 1..65 {
        answers(rt, &mut store, get(2, number), Reply::Absent);
    }
    Ok(store)
}

#[test]
fn of_65_wishes_the_first_is_lost(rt: HostRuntime) -> Result<(), NoMemory> {
    let mut store = read_65_times(&rt, rt.alloc())?;
    for _ in 0..64 {
        answers(&rt, &mut store, Step::Merge(16), Reply::MergeDone);
    }
    answers(&rt, &mut store, Step::Merge(16), Reply::Idle);
    let only = Entry {
        part: 1,
        key: Key::of_u64(0),
        value: value(),
        is_ghost: false,
    };
    assert_eq!(rt; store.entries(rt.alloc())?.as_slice(), [only].as_slice());
    Ok(())
}

#[test]
fn the_next_piece_to_merge_has_sixteen_of_each_run(rt: HostRuntime) -> Result<(), NoMemory> {
    let store = three_runs(&rt, rt.alloc())?;
    let range = |lo, hi| Range::new(Key::of_u64(lo), Key::of_u64(hi));
    for (lo, hi, end) in [(20, 500, 65), (20, 65, 65), (20, 39, 39), (260, 500, 500)] {
        let asked = range(lo, hi).expect(&rt, "the ends stand in order");
        assert!(rt;
            store.next_in_runs(asked) == range(lo, end),
            "of {lo} to {hi}"
        );
    }
    let asked = range(300, 500).expect(&rt, "the ends stand in order");
    assert!(rt; store.next_in_runs(asked).is_none());
    Ok(())
}
