//! The table of active transactions.

use am_record::{Key, Lock, MAX_OPS, Mode, Range};
use am_store_locks::Asked;
use am_store_tx::TxTable;
use am_store_undo::Note;
use std::process::Abort;

fn exclusive(rt: &impl Abort, lo: u64, hi: u64) -> Lock {
    let range = Range::new(Key::of_u64(lo), Key::of_u64(hi));
    Lock {
        mode: Mode::Exclusive,
        range: range.expect(rt, "the ends stand in order"),
    }
}

fn end(rt: &impl Abort, table: &mut TxTable, tx: u64) {
    assert!(rt; table.is_active(tx));
    table.end(tx);
    assert!(rt; !table.is_active(tx));
}

fn begins(rt: &impl Abort, table: &mut TxTable, tx: u64) {
    assert!(rt; table.begin() == Some(tx));
}

fn count_op(rt: &impl Abort, table: &mut TxTable, tx: u64) {
    assert!(rt; table.is_active(tx) && table.ops(tx) < MAX_OPS);
    table.count_op(tx);
}

fn has_ops(rt: &impl Abort, table: &TxTable, tx: u64, count: u64) {
    assert!(rt; table.is_active(tx) && table.ops(tx) == count);
}

fn holds(rt: &impl Abort, table: &TxTable, tx: u64, count: usize) {
    assert!(rt; table.is_active(tx) && table.held(tx) == count);
}

fn asks(rt: &impl Abort, table: &mut TxTable, tx: u64, lock: Lock, answer: Asked) {
    assert!(rt; table.is_active(tx));
    assert!(rt; table.ask(tx, lock) == answer);
}

fn is_locked(rt: &impl Abort, table: &TxTable, number: u64, holder: Option<u64>) {
    assert!(rt; table.locks().exclusive_at(Key::of_u64(number)) == holder);
}

#[test]
fn numbers_are_given_once(rt: HostRuntime) {
    let mut table = TxTable::new(rt.alloc()).expect(&rt, "memory");
    begins(&rt, &mut table, 1);
    begins(&rt, &mut table, 2);
    end(&rt, &mut table, 2);
    begins(&rt, &mut table, 3);
    end(&rt, &mut table, 1);
    end(&rt, &mut table, 3);
    assert!(rt; table.active() == 0);
    begins(&rt, &mut table, 4);
}

#[test]
fn ops_are_counted(rt: HostRuntime) {
    let mut table = TxTable::new(rt.alloc()).expect(&rt, "memory");
    begins(&rt, &mut table, 1);
    begins(&rt, &mut table, 2);
    for i in 0..4096 {
        has_ops(&rt, &table, 2, i);
        count_op(&rt, &mut table, 2);
    }
    has_ops(&rt, &table, 2, 4096);
    has_ops(&rt, &table, 1, 0);
}

fn note_one(rt: &impl Abort, table: &mut TxTable, tx: u64) {
    assert!(rt; table.is_active(tx));
    let log = table.undo(tx);
    log.reserve_one().expect(rt, "four notes take no memory");
    log.note(Note::New(Key::of_u64(5)));
}

fn cut_to_none(rt: &impl Abort, table: &mut TxTable, tx: u64) {
    assert!(rt; table.is_active(tx));
    table.cut(tx, 0);
    holds(rt, table, tx, 0);
}

#[test]
fn counts_and_locks_end_with_their_transaction(rt: HostRuntime) {
    let mut table = TxTable::new(rt.alloc()).expect(&rt, "memory");
    begins(&rt, &mut table, 1);
    begins(&rt, &mut table, 2);
    count_op(&rt, &mut table, 1);
    asks(&rt, &mut table, 1, exclusive(&rt, 1, 9), Asked::Granted);
    holds(&rt, &table, 1, 1);
    note_one(&rt, &mut table, 1);
    asks(&rt, &mut table, 2, exclusive(&rt, 9, 9), Asked::Busy(1));
    is_locked(&rt, &table, 5, Some(1));

    end(&rt, &mut table, 1);
    is_locked(&rt, &table, 5, None);
    asks(&rt, &mut table, 2, exclusive(&rt, 9, 9), Asked::Granted);

    holds(&rt, &table, 2, 1);
    cut_to_none(&rt, &mut table, 2);
    begins(&rt, &mut table, 3);
    has_ops(&rt, &table, 3, 0);
    holds(&rt, &table, 3, 0);
}
