//! Longer values in a store.

use crate::narrow::Narrow;
use am_record::{HashKey, Key, NoMemory, Op, Records, Refusal, Reply, Step, Value};
use am_store::Store;
use std::alloc::Global;
use std::process::Abort;
use std::test::Fail;

const NO_MEMORY: Reply = Reply::Refused(Refusal::NoMemory);

fn five() -> Key {
    Key::of_u64(5)
}

fn short(byte: u8) -> Value {
    Value::new(&[byte]).unwrap()
}

fn long(byte: u8) -> Value {
    Value::new(&[byte; 40]).unwrap()
}

fn insert(tx: u64, value: Value) -> Step {
    Step::Do(tx, Op::Insert(five(), value))
}

fn replace(tx: u64, value: Value) -> Step {
    Step::Do(tx, Op::Replace(five(), value))
}

fn get(tx: u64) -> Step {
    Step::Do(tx, Op::Get(five()))
}

// A store with a record of a short value, in whose second transaction these calls are refused memory for room.
fn with_short(alloc: Global, refused: &[u64]) -> Result<Store<Narrow>, NoMemory> {
    let refused = Vec::from_slice(alloc, refused)?;
    let mut store = Store::open(alloc, Narrow::new(alloc, refused), HashKey::known())?;
    for step in [
        Step::Begin,
        insert(1, short(b'a')),
        Step::Commit(1),
        Step::Begin,
    ] {
        if matches!(&store.step(step), Reply::Refused(_)) {
            return Err(NoMemory);
        }
    }
    Ok(store)
}

// The steps are answered so.
fn answers<const N: usize>(rt: &impl Abort, store: &mut Store<Narrow>, steps: [(Step, Reply); N]) {
    for (step, reply) in steps {
        assert_eq!(rt; store.step(step), reply);
    }
}

#[test]
fn an_abort_sets_values_back_without_memory(rt: HostRuntime) -> Result<(), Fail> {
    // Room is got once: all later calls for it are refused.
    let mut store = with_short(rt.alloc(), &[2, 3, 4])?;
    answers(
        &rt,
        &mut store,
        [
            (replace(2, long(b'b')), Reply::Done),
            (replace(2, short(b'c')), Reply::Done),
            (Step::Do(2, Op::Delete(five())), Reply::Done),
            (insert(2, long(b'd')), Reply::Done),
            (get(2), Reply::Found(long(b'd'))),
            (Step::Abort(2), Reply::Aborted),
            (Step::Begin, Reply::Begun(3)),
            (get(3), Reply::Found(short(b'a'))),
            (replace(3, long(b'e')), Reply::Done),
            (Step::Commit(3), Reply::Committed(2)),
            (Step::Begin, Reply::Begun(4)),
            (replace(4, short(b'f')), Reply::Done),
            (Step::Abort(4), Reply::Aborted),
            (Step::Begin, Reply::Begun(5)),
            (get(5), Reply::Found(long(b'e'))),
        ],
    );
    Ok(())
}

#[test]
fn a_replace_without_room_changes_nothing(rt: HostRuntime) -> Result<(), Fail> {
    let mut store = with_short(rt.alloc(), &[1])?;
    answers(
        &rt,
        &mut store,
        [
            (replace(2, long(b'b')), NO_MEMORY),
            (get(2), Reply::Found(short(b'a'))),
            (replace(2, Value::new(&[b'c'; 16]).unwrap()), Reply::Done),
            (replace(2, long(b'd')), Reply::Done),
            (Step::Commit(2), Reply::Committed(2)),
            (Step::Begin, Reply::Begun(3)),
            (get(3), Reply::Found(long(b'd'))),
        ],
    );
    Ok(())
}

#[test]
fn an_insert_over_a_ghost_without_room_changes_nothing(rt: HostRuntime) -> Result<(), Fail> {
    let mut store = with_short(rt.alloc(), &[1])?;
    answers(
        &rt,
        &mut store,
        [
            (Step::Do(2, Op::Delete(five())), Reply::Done),
            (insert(2, long(b'b')), NO_MEMORY),
            (get(2), Reply::Absent),
            (insert(2, long(b'c')), Reply::Done),
            (get(2), Reply::Found(long(b'c'))),
            (Step::Abort(2), Reply::Aborted),
            (Step::Begin, Reply::Begun(3)),
            (get(3), Reply::Found(short(b'a'))),
        ],
    );
    Ok(())
}

#[test]
fn back_sets_the_long_value_of_a_run_back(rt: HostRuntime) -> Result<(), Fail> {
    // The run came with room for its value, so none is asked for.
    let mut store = with_short(rt.alloc(), &[1])?;
    let six = Key::of_u64(6);
    let pairs = Records::new(vec![in rt.alloc(); (six, long(b'r'))]?);
    answers(
        &rt,
        &mut store,
        [
            (Step::Do(2, Op::Load(pairs)), Reply::Done),
            (Step::Do(2, Op::Mark), Reply::Done),
            (Step::Do(2, Op::Replace(six, short(b's'))), Reply::Done),
            (Step::Do(2, Op::Get(six)), Reply::Found(short(b's'))),
            (Step::Do(2, Op::Back), Reply::Done),
            (Step::Do(2, Op::Get(six)), Reply::Found(long(b'r'))),
            (Step::Commit(2), Reply::Committed(2)),
            (Step::Merge(16), Reply::Moved(1, 1)),
            (Step::Begin, Reply::Begun(3)),
            (Step::Do(3, Op::Get(six)), Reply::Found(long(b'r'))),
        ],
    );
    Ok(())
}
