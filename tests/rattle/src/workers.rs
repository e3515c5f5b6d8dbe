//! Workers that merge on the seats of a latch.

use am_latch::{Blank, Latch, LatchName, Seat, close};
use am_record::{
    HashKey, Key, Lock, MAX_RUNS, Mode, Op, Range, Records, Refusal, Reply, Step, Value,
};
use am_serve_connections::{Outlook, Pacer, Upkeep};
use am_serve_workers::run_workers;
use std::alloc::Global;
use std::marker::Brand;
use std::process::Abort;
use std::sync::Wait;
use std::sync::atomic::{AtomicU64, Ordering};
use std::test::Fail;
use std::thread;
use std::thread::Threads;
use std::time::{Clock, Duration};

const BOTH: u64 = 3;

const MOST_LOOKS: u64 = 10_000;

// Holds each of two workers before its first turn until both are there, and ends one that waits too long.
// The second has no other turn.
#[derive(Drop)]
struct Meeting<'a, C: Clock> {
    // A bit for each worker.
    there: AtomicU64,
    clock: &'a C,
}

impl<'a, C: Clock> Meeting<'a, C> {
    fn meets(&self, worker: u32) -> bool {
        let bit = if worker == 0 { 1 } else { 2 };
        self.there.fetch_or(bit, Ordering::SeqCst);
        for _ in 0..MOST_LOOKS {
            if self.there.load(Ordering::SeqCst) == BOTH {
                return true;
            }
            thread::sleep(self.clock, Duration::from_millis(1));
        }
        false
    }
}

impl<'a, C: Clock> Pacer for Meeting<'a, C> {
    fn await_turn<R: Wait>(&self, _rt: &R, worker: u32, turn: u64) -> bool {
        if turn == 0 {
            self.meets(worker)
        } else {
            worker == 0
        }
    }

    fn work(&self) -> u64 {
        0
    }

    fn note<R: Wait>(&self, _rt: &R, _work: u64, _outlook: Outlook) {}
}

// The receipts of a seat, those that it let go among them.
fn count_receipts<L: LatchName>(seat: &Seat<L>) -> u64 {
    seat.count_let_go()
        .saturating_add(seat.positions().len() as u64)
}

fn by_two_workers<L: LatchName + Send + Sync, R: Threads + Wait + Clock + Abort + Sync>(
    rt: &R,
    blank: Blank,
) -> Result<(), Fail> {
    let (latch, seats, _taker) = Latch::<L>::open(blank, HashKey::known())?;
    let meeting = Meeting {
        there: AtomicU64::new(0),
        clock: rt,
    };
    let worked = run_workers(rt, &latch, seats, 2, 16, Upkeep::MergeOnly, &meeting);
    assert_eq!(rt; worked.seats.len(), 2);
    assert_eq!(rt; count_receipts(&worked.seats[0]), 2);
    assert_eq!(rt; count_receipts(&worked.seats[1]), 1);
    Ok(())
}

// Workers that have their turns one after another never meet.
#[test]
fn workers_at_the_same_time(rt: HostRuntime) -> Result<(), Fail> {
    by_two_workers::<Brand, HostRuntime>(&rt, Blank::new(rt.alloc(), 2, MAX_RUNS)?)
}

pub(crate) struct Always;

impl Pacer for Always {
    fn await_turn<R: Wait>(&self, _rt: &R, _worker: u32, _turn: u64) -> bool {
        true
    }

    fn work(&self) -> u64 {
        0
    }

    fn note<R: Wait>(&self, _rt: &R, _work: u64, _outlook: Outlook) {}
}

pub(crate) fn begin<L: LatchName, R: Wait>(rt: &R, latch: &Latch<L>, seat: &mut Seat<L>) {
    if seat.open_tx().is_none() {
        seat.call(rt, latch, Step::Begin);
    }
}

// What the operation is answered in the transaction that is open in the seat.
pub(crate) fn answer_of<L: LatchName, R: Wait + Abort>(
    rt: &R,
    latch: &Latch<L>,
    seat: &mut Seat<L>,
    op: Op,
) -> Reply {
    let Some(tx) = seat.open_tx() else {
        panic!(rt; "no transaction is open")
    };
    seat.call(rt, latch, Step::Do(tx, op))
}

pub(crate) fn commit<L: LatchName, R: Wait + Abort>(rt: &R, latch: &Latch<L>, seat: &mut Seat<L>) {
    let Some(tx) = seat.open_tx() else {
        panic!(rt; "no transaction is open")
    };
    seat.call(rt, latch, Step::Commit(tx));
    assert!(rt; seat.last_commit().is_some());
}

// Three runs of one record each.
fn load_three<L: LatchName, R: Wait + Abort>(
    rt: &R,
    alloc: Global,
    latch: &Latch<L>,
    seat: &mut Seat<L>,
) -> Result<(), Fail> {
    begin(rt, latch, seat);
    for number in 1..=3 {
        let record = (Key::of_u64(number), Value::new(b"a").ok_or("no value")?);
        let load = Op::Load(Records::new(vec![in alloc; record]?));
        let reply = answer_of(rt, latch, seat, load);
        assert!(rt; reply == Reply::Done, "{reply:?}");
    }
    commit(rt, latch, seat);
    Ok(())
}

// A scan over all three, which asks for them.
fn scan_three<L: LatchName, R: Wait + Abort>(
    rt: &R,
    latch: &Latch<L>,
    seat: &mut Seat<L>,
) -> Result<(), Fail> {
    begin(rt, latch, seat);
    let range = Range::new(Key::of_u64(1), Key::of_u64(3)).ok_or("no range")?;
    let Reply::Rows(rows) = answer_of(rt, latch, seat, Op::Scan(range, 10)) else {
        panic!(rt; "the scan has no rows")
    };
    assert_eq!(rt; rows.as_slice().len(), 3);
    commit(rt, latch, seat);
    Ok(())
}

fn by_one_worker<L: LatchName + Send + Sync, R: Threads + Wait + Abort + Sync>(
    rt: &R,
    alloc: Global,
    blank: Blank,
) -> Result<(), Fail> {
    let (latch, mut seats, taker) = Latch::<L>::open(blank, HashKey::known())?;
    let worker = seats.pop().ok_or("no seat")?;
    let mut reader = seats.pop().ok_or("no seat")?;
    load_three(rt, alloc, &latch, &mut reader)?;
    scan_three(rt, &latch, &mut reader)?;
    let workers = vec![in alloc; worker]?;
    let mut worked = run_workers(rt, &latch, workers, 5, 16, Upkeep::MergeOnly, &Always);
    assert_eq!(rt; worked.moved, 3);
    let worker = worked.seats.pop().ok_or("no seat")?;
    assert_eq!(rt; count_receipts(&worker), 5);
    let Ok(closed) = close(latch, vec![in alloc; reader, worker]?, taker) else {
        panic!(rt; "all seats are there")
    };
    assert_eq!(rt; closed.store.commits(), 2);
    Ok(())
}

#[test]
fn moves_come_back(rt: HostRuntime) -> Result<(), Fail> {
    by_one_worker::<Brand, HostRuntime>(&rt, rt.alloc(), Blank::new(rt.alloc(), 2, MAX_RUNS)?)
}

// Turns of a worker on a store with nothing to merge, by this limit. What it was answered.
fn answers_of_one_worker<L: LatchName + Send + Sync, R: Threads + Wait + Abort + Sync>(
    rt: &R,
    alloc: Global,
    blank: Blank,
    turns: u64,
    limit: u64,
) -> Result<Vec<Reply>, Fail> {
    let (latch, seats, taker) = Latch::<L>::open(blank, HashKey::known())?;
    let worked = run_workers(rt, &latch, seats, turns, limit, Upkeep::MergeOnly, &Always);
    assert_eq!(rt; worked.moved, 0);
    let Ok(closed) = close(latch, worked.seats, taker) else {
        panic!(rt; "all seats are there")
    };
    let mut answers = Vec::new(alloc);
    for (_, reply) in &closed.trace {
        answers.push(reply.copy(alloc)?)?;
    }
    Ok(answers)
}

// A limit out of bounds is refused at each turn, and the turns go on.
#[test]
fn a_limit_of_65(rt: HostRuntime) -> Result<(), Fail> {
    let blank = Blank::new(rt.alloc(), 1, MAX_RUNS)?;
    let answers = answers_of_one_worker::<Brand, HostRuntime>(&rt, rt.alloc(), blank, 3, 65)?;
    assert_eq!(rt; answers.len(), 3);
    for answer in &answers {
        assert!(rt; *answer == Reply::Refused(Refusal::BadLimit), "{answer:?}");
    }
    Ok(())
}

// How many turns so many seats have had in all, where each is to have two.
fn turns_of<L: LatchName + Send + Sync, R: Threads + Wait + Abort + Sync>(
    rt: &R,
    blank: Blank,
) -> Result<u64, Fail> {
    let (latch, seats, _taker) = Latch::<L>::open(blank, HashKey::known())?;
    let worked = run_workers(rt, &latch, seats, 2, 16, Upkeep::MergeOnly, &Always);
    let mut turns = 0_u64;
    for seat in &worked.seats {
        turns = turns.saturating_add(count_receipts(seat));
    }
    Ok(turns)
}

#[test]
fn all_seats_have_their_turns(rt: HostRuntime) -> Result<(), Fail> {
    for seats in [17, 1_024] {
        let blank = Blank::new(rt.alloc(), seats, MAX_RUNS)?;
        assert_eq!(rt; turns_of::<Brand, HostRuntime>(&rt, blank)?, 2 * seats);
    }
    Ok(())
}

// A locked record ends a merge, and the worker goes on behind that.
fn behind_a_locked_record<L: LatchName + Send + Sync, R: Threads + Wait + Abort + Sync>(
    rt: &R,
    alloc: Global,
    blank: Blank,
) -> Result<u64, Fail> {
    let (latch, mut seats, _taker) = Latch::<L>::open(blank, HashKey::known())?;
    let worker = seats.pop().ok_or("no seat")?;
    let mut reader = seats.pop().ok_or("no seat")?;
    load_three(rt, alloc, &latch, &mut reader)?;
    scan_three(rt, &latch, &mut reader)?;
    begin(rt, &latch, &mut reader);
    let range = Range::new(Key::of_u64(2), Key::of_u64(2)).ok_or("no range")?;
    let mode = Mode::Exclusive;
    answer_of(rt, &latch, &mut reader, Op::Lock(Lock { mode, range }));
    let workers = vec![in alloc; worker]?;
    let mut worked = run_workers(rt, &latch, workers, 5, 16, Upkeep::MergeOnly, &Always);
    let worker = worked.seats.pop().ok_or("no seat")?;
    assert_eq!(rt; count_receipts(&worker), 5);
    let met = latch.look(rt, &mut reader, |engine| {
        let ended = |event: &(Step, Reply)| matches!(event.1, Reply::Ended(_, _));
        engine.kept().iter().any(ended)
    });
    assert!(rt; met);
    Ok(worked.moved)
}

#[test]
fn workers_go_on_behind_a_lock(rt: HostRuntime) -> Result<(), Fail> {
    let blank = Blank::new(rt.alloc(), 2, MAX_RUNS)?;
    let moved = behind_a_locked_record::<Brand, HostRuntime>(&rt, rt.alloc(), blank)?;
    assert_eq!(rt; moved, 1);
    Ok(())
}

// Turns of a worker over three runs that nobody asked for, of which it leaves so many. How many entries it moved, and
// whether each of its scans stands between its Begin and its Commit.
fn unasked<L: LatchName + Send + Sync, R: Threads + Wait + Abort + Sync>(
    rt: &R,
    alloc: Global,
    blank: Blank,
    runs: u64,
) -> Result<u64, Fail> {
    let (latch, mut seats, taker) = Latch::<L>::open(blank, HashKey::known())?;
    let worker = seats.pop().ok_or("no seat")?;
    let mut loader = seats.pop().ok_or("no seat")?;
    load_three(rt, alloc, &latch, &mut loader)?;
    let workers = vec![in alloc; worker]?;
    let upkeep = Upkeep::MergeAndClean(runs);
    let mut worked = run_workers(rt, &latch, workers, 20, 16, upkeep, &Always);
    let worker = worked.seats.pop().ok_or("no seat")?;
    let Ok(closed) = close(latch, vec![in alloc; loader, worker]?, taker) else {
        panic!(rt; "all seats are there")
    };
    for place in 0..closed.trace.len() {
        if let Step::Do(tx, Op::Scan(_, max)) = &closed.trace[place].0 {
            assert_eq!(rt; *max, 1);
            assert!(rt; closed.trace[place.saturating_sub(1)].0 == Step::Begin);
            assert!(rt; closed.trace[place.saturating_add(1)].0 == Step::Commit(*tx));
        }
    }
    Ok(worked.moved)
}

#[test]
fn what_nobody_asked_for(rt: HostRuntime) -> Result<(), Fail> {
    for (runs, moved) in [(0, 0), (2, 3), (3, 0)] {
        let blank = Blank::new(rt.alloc(), 2, MAX_RUNS)?;
        assert_eq!(rt;
            unasked::<Brand, HostRuntime>(&rt, rt.alloc(), blank, runs)?,
            moved
        );
    }
    Ok(())
}
