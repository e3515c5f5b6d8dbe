//! The two shared counters.

use am_latch::{Blank, Latch, LatchName, Seat};
use am_latch_counters::{CounterSeat, Counters};
use am_latch_engine::was_refused;
use am_record::{HashKey, MAX_RUNS, Step};
use std::marker::Brand;
use std::process::Abort;
use std::sync::Wait;
use std::sync::atomic::{AtomicBool, Ordering};
use std::test::Fail;
use std::thread;
use std::thread::Threads;
use std::time::{Clock, Duration};

#[test]
fn draws_are_shared(rt: HostRuntime) -> Result<(), Fail> {
    let (counters, mut seats) = Counters::open(rt.alloc(), 2)?;
    let mut second = seats.pop().ok_or("no seat")?;
    let mut first = seats.pop().ok_or("no seat")?;
    assert_eq!(rt; counters.draw(&mut first), Some(0));
    assert_eq!(rt; counters.draw(&mut second), Some(1));
    assert_eq!(rt; counters.draw(&mut first), Some(2));
    assert_eq!(rt; counters.end(first), (3, 0));
    Ok(())
}

// Looks for the flag once a millisecond, at most 10,000 times.
fn comes<R: Clock>(rt: &R, flag: &AtomicBool) -> bool {
    for _ in 0..10_000 {
        if flag.load(Ordering::SeqCst) {
            return true;
        }
        thread::sleep(rt, Duration::from_millis(1));
    }
    false
}

/// What two threads tell each other: that the one holds the latch, and that it may let go.
#[derive(Drop)]
struct Signals {
    is_held: AtomicBool,
    may_go: AtomicBool,
}

// Draws and looks once the latch is held, and then lets its holder go.
fn draw_and_see<R: Clock>(
    rt: &R,
    counters: &Counters,
    counter_seat: &mut CounterSeat,
    signals: &Signals,
) -> (Option<u64>, u64) {
    let _ = comes(rt, &signals.is_held);
    let drawn = counters.draw(counter_seat);
    let seen = counters.seen(counter_seat);
    signals.may_go.store(true, Ordering::SeqCst);
    (drawn, seen)
}

// Holds the latch until it may let go. Whether it was told to.
fn hold<L: LatchName, R: Wait + Clock>(
    rt: &R,
    latch: &Latch<L>,
    mut seat: Seat<L>,
    signals: &Signals,
) -> bool {
    latch.look(rt, &mut seat, |_| {
        signals.is_held.store(true, Ordering::SeqCst);
        comes(rt, &signals.may_go)
    })
}

// Draws and looks while another thread holds the latch. What it drew, what it saw, and whether the latch was held.
fn beside_the_latch<L: LatchName + Send + Sync, R: Threads + Wait + Clock + Sync>(
    rt: &R,
    blank: Blank,
    counters: &Counters,
    counter_seat: &mut CounterSeat,
) -> Result<(Option<u64>, u64, bool), Fail> {
    let (latch, mut seats, _taker) = Latch::<L>::open(blank, HashKey::known())?;
    let seat = seats.pop().ok_or("no seat")?;
    let shared = &latch;
    let signals = Signals {
        is_held: AtomicBool::new(false),
        may_go: AtomicBool::new(false),
    };
    let told = &signals;
    let (went, (drawn, seen)) = thread::join(
        rt,
        move || hold(rt, shared, seat, told),
        || { draw_and_see(rt, counters, counter_seat, &signals) },
    );
    Ok((drawn, seen, went))
}

#[test]
fn words_while_the_latch_is_held(rt: HostRuntime) -> Result<(), Fail> {
    let (counters, mut counter_seats) = Counters::open(rt.alloc(), 1)?;
    let mut counter_seat = counter_seats.pop().ok_or("no seat")?;
    let blank = Blank::new(rt.alloc(), 1, MAX_RUNS)?;
    let found = beside_the_latch::<Brand, HostRuntime>(&rt, blank, &counters, &mut counter_seat)?;
    assert_eq!(rt; found, (Some(0), 0, true));
    Ok(())
}

// One transaction that does nothing. Whether it committed.
fn commits<L: LatchName, R: Wait>(rt: &R, latch: &Latch<L>, seat: &mut Seat<L>) -> bool {
    if seat.open_tx().is_some() || was_refused(&seat.call(rt, latch, Step::Begin)) {
        return false;
    }
    let Some(tx) = seat.open_tx() else {
        return false;
    };
    !was_refused(&seat.call(rt, latch, Step::Commit(tx)))
}

// Publishes the last of three commits. What another seat of the counters saw before and afterwards, and then the own one.
fn publishes_the_third<L: LatchName, R: Wait + Abort>(
    rt: &R,
    blank: Blank,
    counters: &Counters,
    counter_seat: &mut CounterSeat,
    other: &mut CounterSeat,
) -> Result<(u64, u64, u64), Fail> {
    let (latch, mut seats, _taker) = Latch::<L>::open(blank, HashKey::known())?;
    let mut seat = seats.pop().ok_or("no seat")?;
    for _ in 0..3 {
        assert!(rt; commits(rt, &latch, &mut seat));
    }
    let receipt = seat.last_commit().ok_or("no commit")?;
    let before = counters.seen(other);
    counters.publish(counter_seat, &receipt);
    Ok((before, counters.seen(other), counters.seen(counter_seat)))
}

#[test]
fn publish_then_seen(rt: HostRuntime) -> Result<(), Fail> {
    let (counters, mut counter_seats) = Counters::open(rt.alloc(), 2)?;
    let mut other = counter_seats.pop().ok_or("no seat")?;
    let mut counter_seat = counter_seats.pop().ok_or("no seat")?;
    let blank = Blank::new(rt.alloc(), 1, MAX_RUNS)?;
    let seen = publishes_the_third::<Brand, HostRuntime>(
        &rt,
        blank,
        &counters,
        &mut counter_seat,
        &mut other,
    )?;
    assert_eq!(rt; seen, (0, 3, 3));
    Ok(())
}
