//! Steps over an index to which some inserts are refused.

use am_index::PartIndex;
use am_index_btree::BTree;
use am_index_list::{ListIndex, Tight};
use am_record::{HashKey, Key, NoMemory, Op, Range, Records, Refusal, Reply, Step, Value};
use am_store::Store;
use std::alloc::Global;
use std::test::Fail;

fn pairs_to(alloc: Global, last: u64) -> Result<Records, NoMemory> {
    let mut pairs = Vec::new(alloc);
    for number in 1..=last {
        pairs.push((Key::of_u64(number), Value::new(b"v").unwrap()))?;
    }
    Ok(Records::new(pairs))
}

// A store with one run of the keys from 1 to the last one, which is asked for, and in which inserts of those numbers are
// refused; the load is the first that is counted.
fn asked<I: PartIndex + Drop>(
    alloc: Global,
    index: I,
    last: u64,
    refused: Vec<u64>,
) -> Result<Store<Tight<I>>, NoMemory> {
    let mut store = Store::open(alloc, Tight::new(index, refused), HashKey::known())?;
    let Some(range) = Range::new(Key::of_u64(1), Key::of_u64(last)) else {
        return Err(NoMemory);
    };
    for step in [
        Step::Begin,
        Step::Do(1, Op::Load(pairs_to(alloc, last)?)),
        Step::Commit(1),
        Step::Begin,
        Step::Do(2, Op::Scan(range, 9)),
    ] {
        if matches!(&store.step(step), Reply::Refused(_)) {
            return Err(NoMemory);
        }
    }
    Ok(store)
}

#[test]
fn refused_inserts_of_a_merge(rt: HostRuntime) -> Result<(), Fail> {
    // The third and the fourth insert of the merge.
    let list = ListIndex::new(rt.alloc());
    let mut store = asked(rt.alloc(), list, 3, vec![in rt.alloc(); 4, 5]?)?;
    for reply in [
        Reply::Moved(2, 1),
        Reply::Refused(Refusal::NoMemory),
        Reply::Moved(1, 1),
        Reply::MergeDone,
    ] {
        assert_eq!(rt; store.step(Step::Merge(16)), reply);
    }
    Ok(())
}

#[test]
fn a_stretch_ends_where_memory_is_refused(rt: HostRuntime) -> Result<(), Fail> {
    // The twentieth insert of the merge and the one after it, each in the midst of a batch, and the first of a step.
    let list = ListIndex::new(rt.alloc());
    let mut store = asked(rt.alloc(), list, 50, vec![in rt.alloc(); 21, 22, 40]?)?;
    for reply in [
        Reply::Moved(19, 1),
        Reply::Refused(Refusal::NoMemory),
        Reply::Moved(17, 1),
        Reply::Moved(14, 1),
        Reply::MergeDone,
    ] {
        assert_eq!(rt; store.step(Step::Merge(64)), reply);
    }
    Ok(())
}

#[test]
fn what_goes_between_others_wants_no_memory(rt: HostRuntime) -> Result<(), Fail> {
    // The merge inserts the first record. Those behind it go between it and the run.
    let tree = BTree::new(rt.alloc())?;
    let mut store = asked(rt.alloc(), tree, 9, vec![in rt.alloc(); 3, 4, 5, 6]?)?;
    for reply in [Reply::Moved(9, 1), Reply::MergeDone] {
        assert_eq!(rt; store.step(Step::Merge(16)), reply);
    }
    Ok(())
}
