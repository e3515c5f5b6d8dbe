//! Workers that clean where nothing is left to merge.

use crate::workers::{Always, answer_of, begin, commit};
use am_audit::check;
use am_latch::{Blank, Latch, LatchName, Seat, close};
use am_record::{HashKey, Key, MAX_RUNS, Op, Range, Records, Reply, Step, Value};
use am_serve_connections::Upkeep;
use am_serve_workers::run_workers;
use std::alloc::Global;
use std::marker::Brand;
use std::process::Abort;
use std::sync::Wait;
use std::test::Fail;
use std::thread;
use std::thread::Threads;

/// How many records stay.
const LIVE: u64 = 100;

// Loads so many records from that key on, in a transaction that stays open.
fn load<L: LatchName, R: Wait + Abort>(
    rt: &R,
    alloc: Global,
    latch: &Latch<L>,
    seat: &mut Seat<L>,
    from: u64,
    count: u64,
) -> Result<(), Fail> {
    let value = Value::new(b"a").ok_or("no value")?;
    let mut pairs = Vec::new(alloc);
    for number in from..from.saturating_add(count) {
        pairs.push((Key::of_u64(number), value))?;
    }
    begin(rt, latch, seat);
    let reply = answer_of(rt, latch, seat, Op::Load(Records::new(pairs)));
    assert!(rt; reply == Reply::Done, "{reply:?}");
    Ok(())
}

fn delete<L: LatchName, R: Wait + Abort>(rt: &R, latch: &Latch<L>, seat: &mut Seat<L>, key: u64) {
    begin(rt, latch, seat);
    let reply = answer_of(rt, latch, seat, Op::Delete(Key::of_u64(key)));
    assert!(rt; reply == Reply::Done, "{reply:?}");
}

fn abort<L: LatchName, R: Wait + Abort>(rt: &R, latch: &Latch<L>, seat: &mut Seat<L>) {
    let Some(tx) = seat.open_tx() else {
        panic!(rt; "no transaction is open")
    };
    seat.call(rt, latch, Step::Abort(tx));
}

// How many entries there are, how many of them are ghosts, and how many runs have entries.
fn counts<L: LatchName, R: Wait>(rt: &R, latch: &Latch<L>, seat: &mut Seat<L>) -> (u64, u64, u64) {
    let figures = latch.look(rt, seat, |engine| engine.store().figures());
    (figures.entries, figures.ghosts, figures.runs)
}

// Ten turns of one worker. It keeps the receipts of the last turn alone.
fn work<L: LatchName + Send + Sync, R: Threads + Wait + Abort + Sync>(
    rt: &R,
    alloc: Global,
    latch: &Latch<L>,
    worker: Seat<L>,
    upkeep: Upkeep,
) -> Result<Seat<L>, Fail> {
    let workers = vec![in alloc; worker]?;
    let mut worked = run_workers(rt, latch, workers, 10, 16, upkeep, &Always);
    let worker = worked.seats.pop().ok_or("no seat")?;
    assert!(rt; worker.positions().len() <= 2);
    Ok(worker)
}

// A run of which 20 records are deleted, and three whose loads were aborted.
fn leave_ghosts<L: LatchName, R: Wait + Abort>(
    rt: &R,
    alloc: Global,
    latch: &Latch<L>,
    seat: &mut Seat<L>,
) -> Result<(), Fail> {
    load(rt, alloc, latch, seat, 0, LIVE.saturating_add(20))?;
    commit(rt, latch, seat);
    for from in [1_000, 2_000, 3_000] {
        load(rt, alloc, latch, seat, from, 100)?;
        abort(rt, latch, seat);
    }
    for key in LIVE..LIVE.saturating_add(20) {
        delete(rt, latch, seat, key);
    }
    commit(rt, latch, seat);
    assert_eq!(rt; counts(rt, latch, seat), (420, 320, 4));
    Ok(())
}

// Reads all records again and again.
fn read_often<L: LatchName, R: Wait + Abort>(
    rt: &R,
    latch: &Latch<L>,
    mut seat: Seat<L>,
) -> Result<Seat<L>, Fail> {
    let range = Range::new(Key::of_u64(0), Key::of_u64(u64::MAX)).ok_or("no range")?;
    for _ in 0..50 {
        begin(rt, latch, &mut seat);
        let Reply::Rows(rows) = answer_of(rt, latch, &mut seat, Op::Scan(range, 1_000)) else {
            panic!(rt; "the scan has no rows")
        };
        assert_eq!(rt; rows.as_slice().len() as u64, LIVE);
        commit(rt, latch, &mut seat);
    }
    Ok(seat)
}

fn by_two_workers<L: LatchName + Send + Sync, R: Threads + Wait + Abort + Sync>(
    rt: &R,
    alloc: Global,
    blank: Blank,
) -> Result<(), Fail> {
    let (latch, mut seats, taker) = Latch::<L>::open(blank, HashKey::known())?;
    let reader = seats.pop().ok_or("no seat")?;
    let mut writer = seats.pop().ok_or("no seat")?;
    let shared = &latch;
    leave_ghosts(rt, alloc, shared, &mut writer)?;
    let (worked, read) = thread::join(
        rt,
        move || run_workers(
            rt,
            shared,
            seats,
            100,
            16,
            Upkeep::MergeAndClean(0),
            &Always,
        ),
        move || read_often(rt, shared, reader),
    );
    let reader = read?;
    // The last reads may have come behind the last turns.
    let worked = run_workers(
        rt,
        shared,
        worked.seats,
        100,
        16,
        Upkeep::MergeAndClean(0),
        &Always,
    );
    assert_eq!(rt; counts(rt, shared, &mut writer), (LIVE, 0, 0));
    let mut all = worked.seats;
    all.push(writer)?;
    all.push(reader)?;
    let Ok(closed) = close(latch, all, taker) else {
        panic!(rt; "all seats are there")
    };
    assert!(rt; check(alloc, MAX_RUNS, &closed.trace) == Ok(52));
    Ok(())
}

#[test]
fn two_workers_leave_no_ghost(rt: HostRuntime) -> Result<(), Fail> {
    by_two_workers::<Brand, HostRuntime>(&rt, rt.alloc(), Blank::new(rt.alloc(), 4, MAX_RUNS)?)
}

// A ghost that an active transaction has locked stays, and holds back none of lesser keys in a later partition.
fn beside_a_locked_ghost<L: LatchName + Send + Sync, R: Threads + Wait + Abort + Sync>(
    rt: &R,
    alloc: Global,
    blank: Blank,
) -> Result<(), Fail> {
    let (latch, mut seats, _taker) = Latch::<L>::open(blank, HashKey::known())?;
    let worker = seats.pop().ok_or("no seat")?;
    let mut deleter = seats.pop().ok_or("no seat")?;
    let mut loader = seats.pop().ok_or("no seat")?;
    begin(rt, &latch, &mut deleter);
    let value = Value::new(b"a").ok_or("no value")?;
    let insert = Op::Insert(Key::of_u64(9), value);
    answer_of(rt, &latch, &mut deleter, insert);
    delete(rt, &latch, &mut deleter, 9);
    load(rt, alloc, &latch, &mut loader, 1, 3)?;
    abort(rt, &latch, &mut loader);
    assert_eq!(rt; counts(rt, &latch, &mut loader), (4, 4, 1));
    let worker = work(rt, alloc, &latch, worker, Upkeep::MergeAndClean(0))?;
    assert_eq!(rt; counts(rt, &latch, &mut loader), (1, 1, 0));
    commit(rt, &latch, &mut deleter);
    work(rt, alloc, &latch, worker, Upkeep::MergeAndClean(0))?;
    assert_eq!(rt; counts(rt, &latch, &mut loader), (0, 0, 0));
    Ok(())
}

#[test]
fn a_locked_ghost_waits_alone(rt: HostRuntime) -> Result<(), Fail> {
    beside_a_locked_ghost::<Brand, HostRuntime>(
        &rt,
        rt.alloc(),
        Blank::new(rt.alloc(), 3, MAX_RUNS)?,
    )
}

// A worker that merges alone leaves ghosts as they are.
fn beside_a_worker_that_merges<L: LatchName + Send + Sync, R: Threads + Wait + Abort + Sync>(
    rt: &R,
    alloc: Global,
    blank: Blank,
) -> Result<(), Fail> {
    let (latch, mut seats, _taker) = Latch::<L>::open(blank, HashKey::known())?;
    let worker = seats.pop().ok_or("no seat")?;
    let mut writer = seats.pop().ok_or("no seat")?;
    leave_ghosts(rt, alloc, &latch, &mut writer)?;
    work(rt, alloc, &latch, worker, Upkeep::MergeOnly)?;
    assert_eq!(rt; counts(rt, &latch, &mut writer), (420, 320, 4));
    Ok(())
}

#[test]
fn a_worker_that_merges_leaves_ghosts(rt: HostRuntime) -> Result<(), Fail> {
    beside_a_worker_that_merges::<Brand, HostRuntime>(
        &rt,
        rt.alloc(),
        Blank::new(rt.alloc(), 2, MAX_RUNS)?,
    )
}

// Of 1,100 entries one ghost is too few, and two are enough. They are cleaned from the first of them on, and no key
// below it.
fn among_many_records<L: LatchName + Send + Sync, R: Threads + Wait + Abort + Sync>(
    rt: &R,
    alloc: Global,
    blank: Blank,
) -> Result<(), Fail> {
    let (latch, mut seats, taker) = Latch::<L>::open(blank, HashKey::known())?;
    let worker = seats.pop().ok_or("no seat")?;
    let mut writer = seats.pop().ok_or("no seat")?;
    load(rt, alloc, &latch, &mut writer, 0, 1_100)?;
    delete(rt, &latch, &mut writer, 500);
    commit(rt, &latch, &mut writer);
    let worker = work(rt, alloc, &latch, worker, Upkeep::MergeAndClean(0))?;
    assert_eq!(rt; counts(rt, &latch, &mut writer), (1_100, 1, 1));
    delete(rt, &latch, &mut writer, 501);
    commit(rt, &latch, &mut writer);
    let worker = work(rt, alloc, &latch, worker, Upkeep::MergeAndClean(0))?;
    assert_eq!(rt; counts(rt, &latch, &mut writer), (1_098, 0, 1));
    let Ok(closed) = close(latch, vec![in alloc; writer, worker]?, taker) else {
        panic!(rt; "all seats are there")
    };
    for (step, _) in &closed.trace {
        if let Step::Clean(range, _) = step {
            assert!(rt; range.lo() == Key::of_u64(500));
        }
    }
    Ok(())
}

#[test]
fn few_ghosts_are_left(rt: HostRuntime) -> Result<(), Fail> {
    among_many_records::<Brand, HostRuntime>(&rt, rt.alloc(), Blank::new(rt.alloc(), 2, MAX_RUNS)?)
}
