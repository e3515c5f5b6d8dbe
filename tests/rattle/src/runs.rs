//! Lists of steps.

use am_index_btree::BTree;
use am_record::{
    Entry, HashKey, Key, Lock, Mode, NoMemory, Op, Range, Records, Refusal, Reply, Step, Value,
};
use am_store::{Store, run};
use std::alloc::Global;
use std::process::Abort;
use std::test::Fail;

fn open(alloc: Global) -> Result<Store<BTree>, NoMemory> {
    Store::open(alloc, BTree::new(alloc)?, HashKey::known())
}

fn value(byte: u8) -> Value {
    Value::new(&[byte]).unwrap()
}

fn shared(rt: &impl Abort, lo: u64, hi: u64) -> Op {
    let range = Range::new(Key::of_u64(lo), Key::of_u64(hi));
    Op::Lock(Lock {
        mode: Mode::Shared,
        range: range.expect(rt, "the ends stand in order"),
    })
}

// Takes the step, and sees that this is its reply.
fn take(rt: &impl Abort, store: &mut Store<BTree>, step: Step, reply: Reply) {
    let said = store.step(step);
    assert!(rt; said == reply, "{said:?}");
}

fn take_op(rt: &impl Abort, store: &mut Store<BTree>, tx: u64, op: Op, reply: Reply) {
    take(rt, store, Step::Do(tx, op), reply);
}

#[test]
fn an_opened_store_is_empty(rt: HostRuntime) -> Result<(), Fail> {
    let store = open(rt.alloc())?;
    assert_eq!(rt; store.commits(), 0);
    assert!(rt; store.entries(rt.alloc())?.is_empty());
    Ok(())
}

#[test]
fn shared_ranges_hold_back_a_delete(rt: HostRuntime) -> Result<(), Fail> {
    let mut store = open(rt.alloc())?;
    for tx in 1..=3 {
        take(&rt, &mut store, Step::Begin, Reply::Begun(tx));
    }
    take_op(&rt, &mut store, 1, shared(&rt, 1, 5), Reply::Done);
    take_op(&rt, &mut store, 2, shared(&rt, 3, 9), Reply::Done);
    delete_four(&rt, &mut store, Reply::Refused(Refusal::Busy(1)));
    take(&rt, &mut store, Step::Commit(1), Reply::Committed(1));
    delete_four(&rt, &mut store, Reply::Refused(Refusal::Busy(2)));
    take(&rt, &mut store, Step::Abort(2), Reply::Aborted);
    delete_four(&rt, &mut store, Reply::Missing);
    let ended = Reply::Refused(Refusal::NoSuchTx);
    take_op(&rt, &mut store, 1, Op::Get(Key::of_u64(4)), ended);
    assert!(rt; store.entries(rt.alloc())?.is_empty());
    Ok(())
}

fn delete_four(rt: &impl Abort, store: &mut Store<BTree>, reply: Reply) {
    take_op(rt, store, 3, Op::Delete(Key::of_u64(4)), reply);
}

#[test]
fn steps_of_two_transactions_as_one_run(rt: HostRuntime) -> Result<(), Fail> {
    let mut store = open(rt.alloc())?;
    let key = Key::of_u64(5);
    let mut replies = Vec::new(rt.alloc());
    run(rt.alloc(), &mut store, &two_transactions(key), &mut replies)?;
    assert!(rt; replies.as_slice() == their_replies().as_slice());
    let only = Entry {
        part: 0,
        key,
        value: value(b'a'),
        is_ghost: false,
    };
    assert_eq!(rt; store.entries(rt.alloc())?.as_slice(), [only].as_slice());
    Ok(())
}

fn two_transactions(key: Key) -> [Step; 10] {
    [
        Step::Begin,
        Step::Begin,
        Step::Do(1, Op::Insert(key, value(b'a'))),
        Step::Do(2, Op::Get(key)),
        Step::Commit(1),
        Step::Do(2, Op::Get(key)),
        Step::Merge(4),
        Step::Abort(2),
        Step::Do(2, Op::Get(key)),
        Step::Merge(65),
    ]
}

fn their_replies() -> [Reply; 10] {
    [
        Reply::Begun(1),
        Reply::Begun(2),
        Reply::Done,
        Reply::Refused(Refusal::Busy(1)),
        Reply::Committed(1),
        Reply::Found(value(b'a')),
        Reply::MergeDone,
        Reply::Aborted,
        Reply::Refused(Refusal::NoSuchTx),
        Reply::Refused(Refusal::BadLimit),
    ]
}

#[test]
fn a_load_is_scanned_marked_and_cleaned(rt: HostRuntime) -> Result<(), Fail> {
    let mut store = open(rt.alloc())?;
    let pairs = vec![in rt.alloc();
        (Key::of_u64(1), value(b'a')),
        (Key::of_u64(2), value(b'b')),
    ]?;
    take(&rt, &mut store, Step::Begin, Reply::Begun(1));
    take_op(
        &rt,
        &mut store,
        1,
        Op::Load(Records::new(pairs)),
        Reply::Done,
    );
    take_op(&rt, &mut store, 1, Op::Mark, Reply::Done);
    take_op(&rt, &mut store, 1, Op::Delete(Key::of_u64(1)), Reply::Done);
    take_op(&rt, &mut store, 1, Op::Back, Reply::Done);
    let rows = vec![in rt.alloc(); (Key::of_u64(1), value(b'a'))]?;
    let scan = Op::Scan(Range::point(Key::of_u64(1)), 9);
    take_op(&rt, &mut store, 1, scan, Reply::Rows(Records::new(rows)));
    take(&rt, &mut store, Step::Abort(1), Reply::Aborted);
    take(&rt, &mut store, Step::Merge(1), Reply::Moved(1, 1));
    let range = Range::point(Key::of_u64(2));
    take(&rt, &mut store, Step::Clean(range, 64), Reply::Cleaned(1));
    assert!(rt; store.entries(rt.alloc())?.is_empty());
    Ok(())
}
