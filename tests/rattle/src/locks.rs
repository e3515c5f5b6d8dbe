//! The table of locks.

use am_record::{Key, Lock, MAX_ACTIVE, MAX_LOCKS, Mode, Range};
use am_store_locks::{Asked, LockTable};
use std::alloc::Global;
use std::process::Abort;

fn range(rt: &impl Abort, lo: u64, hi: u64) -> Range {
    Range::new(Key::of_u64(lo), Key::of_u64(hi)).expect(rt, "the ends stand in order")
}

fn shared(rt: &impl Abort, lo: u64, hi: u64) -> Lock {
    Lock {
        mode: Mode::Shared,
        range: range(rt, lo, hi),
    }
}

fn exclusive(rt: &impl Abort, lo: u64, hi: u64) -> Lock {
    Lock {
        mode: Mode::Exclusive,
        range: range(rt, lo, hi),
    }
}

// The transactions 1 to `owners`, which hold nothing.
fn table_of(rt: &impl Abort, alloc: Global, owners: u64) -> LockTable {
    let mut table = LockTable::new(alloc).expect(rt, "memory");
    for tx in 1..=owners {
        assert!(rt; table.owners() < MAX_ACTIVE && !table.is_owner(tx));
        table.enter(tx);
    }
    table
}

// Where memory is refused the table stays, and the lock is asked for again.
fn ask(rt: &impl Abort, table: &mut LockTable, tx: u64, asked: &Lock) -> Asked {
    let before = held(rt, table, tx);
    assert!(rt; table.is_owner(tx));
    let answer = table.ask(tx, *asked);
    if answer != Asked::NoMemory {
        return answer;
    }
    assert!(rt; held(rt, table, tx) == before);
    assert!(rt; table.is_owner(tx));
    table.ask(tx, *asked)
}

fn held(rt: &impl Abort, table: &LockTable, tx: u64) -> usize {
    assert!(rt; table.is_owner(tx));
    table.held(tx)
}

fn release(rt: &impl Abort, table: &mut LockTable, tx: u64) {
    assert!(rt; table.is_owner(tx));
    table.release(tx);
    assert!(rt; !table.is_owner(tx));
}

// The lock is asked for, and answered so.
fn answers(rt: &impl Abort, table: &mut LockTable, tx: u64, asked: Lock, answer: Asked) {
    assert!(rt; ask(rt, table, tx, &asked) == answer);
}

fn is_locked(rt: &impl Abort, table: &LockTable, number: u64, holder: Option<u64>) {
    assert!(rt; table.exclusive_at(Key::of_u64(number)) == holder);
}

fn holds(rt: &impl Abort, table: &LockTable, tx: u64, count: usize) {
    assert!(rt; held(rt, table, tx) == count);
}

#[test]
fn three_owners_and_the_least_holder(rt: HostRuntime) {
    let mut table = table_of(&rt, rt.alloc(), 3);
    answers(&rt, &mut table, 1, shared(&rt, 1, 5), Asked::Granted);
    answers(&rt, &mut table, 2, shared(&rt, 3, 9), Asked::Granted);
    answers(&rt, &mut table, 3, exclusive(&rt, 4, 4), Asked::Busy(1));
    release(&rt, &mut table, 1);
    answers(&rt, &mut table, 3, exclusive(&rt, 4, 4), Asked::Busy(2));
    release(&rt, &mut table, 2);
    answers(&rt, &mut table, 3, exclusive(&rt, 4, 4), Asked::Granted);
}

// Eight locks stand where the ninth was refused, which is granted when asked again.
fn ask_for_ninth_again(rt: &impl Abort, table: &mut LockTable) {
    holds(rt, table, 1, 8);
    is_locked(rt, table, 7, Some(1));
    is_locked(rt, table, 8, None);
    answers(rt, table, 2, shared(rt, 8, 8), Asked::Granted);
    release(rt, table, 2);
    answers(rt, table, 1, exclusive(rt, 8, 8), Asked::Granted);
}

// The ninth lock is the first that takes memory. Where it is refused the eight stay, and it is granted when asked
// again.
#[test]
fn ninth_lock_refused(rt: HostRuntime) {
    let mut table = table_of(&rt, rt.alloc(), 2);
    for i in 0..8 {
        assert!(rt; table.is_owner(1));
        assert!(rt; table.ask(1, exclusive(&rt, i, i)) == Asked::Granted);
    }
    assert!(rt; table.is_owner(1));
    let ninth = table.ask(1, exclusive(&rt, 8, 8));
    if ninth == Asked::NoMemory {
        ask_for_ninth_again(&rt, &mut table);
    } else {
        assert!(rt; ninth == Asked::Granted);
    }
    holds(&rt, &table, 1, 9);
    is_locked(&rt, &table, 8, Some(1));
}

#[test]
fn cut_keeps_the_oldest_locks(rt: HostRuntime) {
    let mut table = table_of(&rt, rt.alloc(), 2);
    answers(&rt, &mut table, 1, exclusive(&rt, 1, 3), Asked::Granted);
    answers(&rt, &mut table, 1, exclusive(&rt, 7, 9), Asked::Granted);
    answers(&rt, &mut table, 2, shared(&rt, 5, 5), Asked::Granted);
    assert!(rt; table.is_owner(1) && table.held(1) == 2);
    table.cut(1, 1);
    holds(&rt, &table, 1, 1);
    is_locked(&rt, &table, 2, Some(1));
    is_locked(&rt, &table, 8, None);
    is_locked(&rt, &table, 5, None);
}

// The locks of all owners as one list, in the order in which they were granted.
#[derive(Drop)]
struct PlainTable {
    held: Vec<(u64, Lock)>,
}

impl PlainTable {
    fn of(&self, tx: u64) -> usize {
        self.held.iter().filter(|lock| lock.0 == tx).count()
    }

    fn exclusive_at(&self, key: Key) -> Option<u64> {
        let mut locks = self.held.iter();
        let lock = locks.find(|lock| lock.1.mode.is_exclusive() && lock.1.range.contains(key))?;
        Some(lock.0)
    }

    fn least_holder(&self, tx: u64, asked: &Lock) -> Option<u64> {
        self.held
            .iter()
            .filter(|lock| lock.0 != tx && lock.1.conflicts(asked))
            .map(|lock| lock.0)
            .min()
    }

    fn ask(&mut self, rt: &impl Abort, tx: u64, asked: &Lock) -> Asked {
        if let Some(holder) = self.least_holder(tx, asked) {
            return Asked::Busy(holder);
        }
        let mut locks = self.held.iter();
        if locks.any(|lock| lock.0 == tx && lock.1.covers(asked)) {
            return Asked::Granted;
        }
        if self.of(tx) == MAX_LOCKS {
            return Asked::TooManyLocks;
        }
        self.held.push((tx, *asked)).expect(rt, "memory");
        Asked::Granted
    }

    fn cut(&mut self, rt: &impl Abort, alloc: Global, tx: u64, n: usize) {
        let mut kept = Vec::new(alloc);
        let mut own = 0;
        for lock in &self.held {
            if lock.0 != tx {
                kept.push(*lock).expect(rt, "memory");
            } else if own < n {
                own += 1;
                kept.push(*lock).expect(rt, "memory");
            }
        }
        self.held = kept;
    }
}

// Numbers that look drawn at random, the same in each run: a linear congruential generator (Knuth's MMIX).
#[derive(Drop)]
struct Dice {
    state: u64,
}

impl Dice {
    fn roll(&mut self) -> u64 {
        let state = self.state.wrapping_mul(6_364_136_223_846_793_005);
        self.state = state.wrapping_add(1_442_695_040_888_963_407);
        self.state >> 33
    }
}

// A lock of one of four lengths. Those of neighbours overlap.
fn rolled_lock(rt: &impl Abort, dice: &mut Dice, tx: u64) -> Lock {
    let lo = tx.saturating_mul(2000).saturating_add(dice.roll() % 3000);
    let len = [0, 0, 3, 40][(dice.roll() % 4) as usize];
    let hi = lo.saturating_add(len);
    if dice.roll() % 4 == 0 {
        exclusive(rt, lo, hi)
    } else {
        shared(rt, lo, hi)
    }
}

// Ends the transaction, and begins one of the same number.
fn begin_anew(
    rt: &impl Abort,
    alloc: Global,
    tx: u64,
    table: &mut LockTable,
    plain: &mut PlainTable,
) {
    release(rt, table, tx);
    assert!(rt; table.owners() < MAX_ACTIVE && !table.is_owner(tx));
    table.enter(tx);
    plain.cut(rt, alloc, tx, 0);
}

// Lets the locks behind some first ones go.
fn cut_both(
    rt: &impl Abort,
    alloc: Global,
    tx: u64,
    table: &mut LockTable,
    plain: &mut PlainTable,
) {
    let n = held(rt, table, tx) / 16 * 16;
    assert!(rt; table.is_owner(tx) && n <= table.held(tx));
    table.cut(tx, n);
    plain.cut(rt, alloc, tx, n);
}

fn do_both(
    rt: &impl Abort,
    alloc: Global,
    dice: &mut Dice,
    table: &mut LockTable,
    plain: &mut PlainTable,
) {
    let tx = [1, 1, 2, 3][(dice.roll() % 4) as usize];
    // Any transaction may have been sought last, or one that is no owner.
    table.seek(dice.roll() % 5);
    match dice.roll() % 1000 {
        0 => begin_anew(rt, alloc, tx, table, plain),
        1..20 => cut_both(rt, alloc, tx, table, plain),
        _ => {
            let asked = rolled_lock(rt, dice, tx);
            let wanted = plain.ask(rt, tx, &asked);
            assert!(rt; ask(rt, table, tx, &asked) == wanted);
        }
    }
    holds(rt, table, tx, plain.of(tx));
    let key = Key::of_u64(dice.roll() % 9000);
    assert!(rt; table.exclusive_at(key) == plain.exclusive_at(key));
}

// A thousand calls get what they get of a plain list of locks.
#[test]
fn table_beside_a_plain_list(rt: HostRuntime) {
    let mut table = table_of(&rt, rt.alloc(), 3);
    let mut plain = PlainTable {
        held: Vec::new(rt.alloc()),
    };
    let mut dice = Dice { state: 1 };
    let mut most = 0;
    for _ in 0..1000 {
        do_both(&rt, rt.alloc(), &mut dice, &mut table, &mut plain);
        most = held(&rt, &table, 1).max(most);
    }
    assert!(rt; most == MAX_LOCKS);
}

// More locks of one key than a count holds, one after another: each is counted while it is held, and no longer.
#[test]
fn counts_end_with_their_locks(rt: HostRuntime) {
    let mut table = table_of(&rt, rt.alloc(), 1);
    for _ in 0..65_536 {
        answers(&rt, &mut table, 1, exclusive(&rt, 7, 7), Asked::Granted);
        release(&rt, &mut table, 1);
        assert!(rt; table.owners() < MAX_ACTIVE && !table.is_owner(1));
        table.enter(1);
    }
}
