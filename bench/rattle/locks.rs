//! What a transaction costs beside others that hold locks.

use crate::fault::Fault;
use crate::figure::Figure;
use crate::store;
use crate::watch::Watch;
use am_index_btree::BTree;
use am_store::Store;
use am_record::HashKey;
use std::time::Clock;

/// How many transactions there can be beside one, and how many locks each can hold.
const OWNERS: u64 = 63;

const LOCKS: u64 = 256;

/// How many transactions are timed.
const TIMED: u64 = 100_000;

/// Prints what a transaction of one read takes, alone and beside as many locks as there can be.
pub(crate) fn print_figures<R: AllocGlobal + Print + Clock>(rt: &R) -> Result<(), Fault> {
    let alloc = rt.alloc();
    let mut store = Store::open(alloc, BTree::new(alloc)?, HashKey::known())?;
    print(rt, "a read, alone", &mut store)?;
    store::hold(&mut store, OWNERS, LOCKS)?;
    print(rt, "a read beside 63 times 256 locks", &mut store)
}

fn print<R: Print + Clock>(
    rt: &R,
    name: &'static str,
    store: &mut Store<BTree>,
) -> Result<(), Fault> {
    let watch = Watch::start(rt)?;
    let read = store::read_alone(store, TIMED)?;
    let took = watch.stop(rt, read)?;
    let operations = TIMED;
    Figure { name, operations }.print_alone(rt, took)
}
