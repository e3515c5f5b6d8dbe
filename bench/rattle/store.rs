//! The work on the store, by its steps.

use crate::fault::Fault;
use crate::keys::{value_of, weight};
use am_index_btree::BTree;
use am_store::Store;
use am_record::{Key, Lock, Mode, NoMemory, Op, Records, Range, Reply, Step};
use std::alloc::Global;

/// How many keys one transaction reads.
const READS: usize = 4000;

/// How many entries one merge step may move.
const MOVES: u64 = 64;

fn begin(store: &mut Store<BTree>) -> Result<u64, Fault> {
    match store.step(Step::Begin) {
        Reply::Begun(tx) => Ok(tx),
        _ => Err(Fault::Differs),
    }
}

fn commit(store: &mut Store<BTree>, tx: u64) -> Result<(), Fault> {
    match store.step(Step::Commit(tx)) {
        Reply::Committed(_) => Ok(()),
        _ => Err(Fault::Differs),
    }
}

fn all_keys() -> Range {
    Range::new(Key::least(), Key::of_u64(u64::MAX)).unwrap_or(Range::point(Key::least()))
}

/// So many runs with all the keys, which rise: each run has every so many-th of them.
pub(crate) fn runs_of(alloc: Global, rising: &[Key], runs: usize) -> Result<Vec<Records>, NoMemory> {
    let mut made = Vec::new(alloc);
    for run in 0..runs {
        let mut pairs = Vec::new(alloc);
        for key in rising.iter().skip(run).step_by(runs) {
            pairs.push((*key, value_of(*key)))?;
        }
        if made.push(Records::new(pairs)).is_err() {
            return Err(NoMemory);
        }
    }
    Ok(made)
}

/// Loads the runs, each in a transaction of its own, and answers how many records they have.
pub(crate) fn load(store: &mut Store<BTree>, runs: Vec<Records>) -> Result<u64, Fault> {
    let mut loaded: u64 = 0;
    for run in runs {
        loaded = loaded.saturating_add(run.as_slice().len() as u64);
        let tx = begin(store)?;
        if store.step(Step::Do(tx, Op::Load(run))) != Reply::Done {
            return Err(Fault::Differs);
        }
        commit(store, tx)?;
    }
    Ok(loaded)
}

/// Reads the keys in transactions that lock all of them first, and adds up what they have.
pub(crate) fn read(store: &mut Store<BTree>, keys: &[Key]) -> Result<u64, Fault> {
    let mut sum: u64 = 0;
    for part in keys.chunks(READS) {
        let tx = begin(store)?;
        lock(store, tx, all_keys())?;
        for key in part {
            sum = sum.wrapping_add(read_one(store, tx, *key)?);
        }
        commit(store, tx)?;
    }
    Ok(sum)
}

/// Looks for keys that are absent, in such transactions, and answers how many.
pub(crate) fn miss(store: &mut Store<BTree>, keys: &[Key]) -> Result<u64, Fault> {
    for part in keys.chunks(READS) {
        let tx = begin(store)?;
        lock(store, tx, all_keys())?;
        for key in part {
            if store.step(Step::Do(tx, Op::Get(*key))) != Reply::Absent {
                return Err(Fault::Differs);
            }
        }
        commit(store, tx)?;
    }
    Ok(keys.len() as u64)
}

/// Scans so many rows at most from each key up to the last, in such transactions, and adds up what they have.
pub(crate) fn scan(
    store: &mut Store<BTree>,
    keys: &[Key],
    last: Key,
    rows: u64,
) -> Result<u64, Fault> {
    let mut sum: u64 = 0;
    for part in keys.chunks(READS) {
        let tx = begin(store)?;
        lock(store, tx, all_keys())?;
        for key in part {
            let range = Range::new(*key, last).ok_or(Fault::Differs)?;
            sum = sum.wrapping_add(scan_one(store, tx, range, rows)?);
        }
        commit(store, tx)?;
    }
    Ok(sum)
}

fn scan_one(store: &mut Store<BTree>, tx: u64, range: Range, rows: u64) -> Result<u64, Fault> {
    let Reply::Rows(came) = store.step(Step::Do(tx, Op::Scan(range, rows))) else {
        return Err(Fault::Differs);
    };
    let mut sum: u64 = 0;
    for row in came.as_slice() {
        sum = sum.wrapping_add(weight(&row.1));
    }
    Ok(sum)
}

fn lock(store: &mut Store<BTree>, tx: u64, range: Range) -> Result<(), Fault> {
    let lock = Lock {
        mode: Mode::Shared,
        range,
    };
    match store.step(Step::Do(tx, Op::Lock(lock))) {
        Reply::Done => Ok(()),
        _ => Err(Fault::Differs),
    }
}

fn read_one(store: &mut Store<BTree>, tx: u64, key: Key) -> Result<u64, Fault> {
    match store.step(Step::Do(tx, Op::Get(key))) {
        Reply::Found(value) => Ok(weight(&value)),
        _ => Err(Fault::Differs),
    }
}

/// Begins so many transactions, each of which holds so many locks, each of a key alone.
pub(crate) fn hold(store: &mut Store<BTree>, owners: u64, locks: u64) -> Result<(), Fault> {
    for owner in 0..owners {
        let tx = begin(store)?;
        for number in 0..locks {
            let key = Key::of_u64(owner.wrapping_mul(locks).wrapping_add(number));
            lock(store, tx, Range::point(key))?;
        }
    }
    Ok(())
}

/// Reads so many absent keys, each in a transaction of its own, and answers how many.
pub(crate) fn read_alone(store: &mut Store<BTree>, count: u64) -> Result<u64, Fault> {
    for number in 0..count {
        let tx = begin(store)?;
        let key = Key::of_u64(u64::MAX.wrapping_sub(number));
        if store.step(Step::Do(tx, Op::Get(key))) != Reply::Absent {
            return Err(Fault::Differs);
        }
        commit(store, tx)?;
    }
    Ok(count)
}

/// Asks for all keys by a scan, so that they are to be merged.
pub(crate) fn ask_for_all(store: &mut Store<BTree>) -> Result<(), Fault> {
    ask_for(store, all_keys())
}

/// Asks for the keys of a range.
pub(crate) fn ask_for(store: &mut Store<BTree>, range: Range) -> Result<(), Fault> {
    let tx = begin(store)?;
    match store.step(Step::Do(tx, Op::Scan(range, 1))) {
        Reply::Rows(_) => commit(store, tx),
        _ => Err(Fault::Differs),
    }
}

/// Merges until nothing is left that was asked for, and answers how many entries moved and by how many steps.
pub(crate) fn merge_all(store: &mut Store<BTree>) -> Result<(u64, u64), Fault> {
    let mut moved: u64 = 0;
    for steps in 0..u64::MAX {
        match store.step(Step::Merge(MOVES)) {
            Reply::Moved(entries, _) => moved = moved.saturating_add(entries),
            Reply::MergeDone => {}
            Reply::Idle => return Ok((moved, steps)),
            _ => return Err(Fault::Differs),
        }
    }
    Err(Fault::Differs)
}
