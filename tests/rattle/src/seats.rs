//! Seats of one latch.

use am_audit::check;
use am_latch::{Blank, Latch, LatchName, Seat, Taker, close};
use am_latch_counters::Counters;
use am_latch_engine::was_refused;
use am_record::{HashKey, Key, MAX_RUNS, Op, Refusal, Reply, Step, Value};
use am_serve_connections::{Endpoint, Endpoints, Lifetime, Limits, SharedState, listen_at_port};
use am_serve_seat::{assign_seats, take_seats};
use std::alloc::Global;
use std::marker::Brand;
use std::process::Abort;
use std::sync::Wait;
use std::sync::atomic::AtomicBool;
use std::test::Fail;
use std::thread;
use std::thread::Threads;

// A transaction that inserts the key. Whether no call was refused.
fn inserts<L: LatchName, R: Wait>(rt: &R, latch: &Latch<L>, seat: &mut Seat<L>, key: u64) -> bool {
    if seat.open_tx().is_some() || was_refused(&seat.call(rt, latch, Step::Begin)) {
        return false;
    }
    let Some(tx) = seat.open_tx() else {
        return false;
    };
    let Some(value) = Value::new(b"a") else {
        return false;
    };
    let done = seat.call(rt, latch, Step::Do(tx, Op::Insert(Key::of_u64(key), value)));
    if was_refused(&done) || seat.open_tx() != Some(tx) {
        return false;
    }
    !was_refused(&seat.call(rt, latch, Step::Commit(tx)))
}

// The keys from there on, a hundred.
fn insert_all<L: LatchName, R: Wait>(
    rt: &R,
    latch: &Latch<L>,
    mut seat: Seat<L>,
    from: u64,
) -> (Seat<L>, bool) {
    let mut fine = true;
    for key in from..from.saturating_add(100) {
        fine = fine & inserts(rt, latch, &mut seat, key);
    }
    (seat, fine)
}

fn by_two_threads<L: LatchName + Send + Sync, R: Threads + Wait + Abort + Sync>(
    rt: &R,
    alloc: Global,
    blank: Blank,
) -> Result<(), Fail> {
    let (latch, mut seats, taker) = Latch::<L>::open(blank, HashKey::known())?;
    let second = seats.pop().ok_or("no seat")?;
    let mut first = seats.pop().ok_or("no seat")?;
    let shared = &latch;
    assert_eq!(rt; shared.look(rt, &mut first, |engine| engine.len()), 0);
    let ((mut first, one), (second, other)) = thread::join(
        rt,
        move || insert_all(rt, shared, first, 0),
        move || insert_all(rt, shared, second, 100),
    );
    assert!(rt; one);
    assert!(rt; other);
    assert_eq!(rt;
        shared.look(rt, &mut first, |engine| engine.store().commits()),
        200
    );
    seats.push(first)?;
    seats.push(second)?;
    let Ok(closed) = close(latch, seats, taker) else {
        panic!(rt; "all seats are there")
    };
    assert_eq!(rt; closed.trace.len(), 600);
    assert_eq!(rt; closed.store.commits(), 200);
    assert!(rt; check(alloc, MAX_RUNS, &closed.trace) == Ok(200));
    for seat in &closed.seats {
        assert_eq!(rt; seat.positions().len(), 300);
        assert!(rt; seat.last_commit().is_some());
    }
    Ok(())
}

#[test]
fn two_seats_on_two_threads(rt: HostRuntime) -> Result<(), Fail> {
    by_two_threads::<Brand, HostRuntime>(&rt, rt.alloc(), Blank::new(rt.alloc(), 2, MAX_RUNS)?)
}

// All seats are there, so many, and no step was taken.
fn closes<L: LatchName, R: Abort>(
    rt: &R,
    latch: Latch<L>,
    seats: Vec<Seat<L>>,
    taker: Taker<L>,
    count: usize,
) {
    let Ok(closed) = close(latch, seats, taker) else {
        panic!(rt; "all seats are there")
    };
    assert_eq!(rt; closed.trace.len(), 0);
    assert_eq!(rt; closed.seats.len(), count);
}

fn without_one<L: LatchName, R: Abort>(rt: &R, blank: Blank) -> Result<(), Fail> {
    let (latch, mut seats, taker) = Latch::<L>::open(blank, HashKey::known())?;
    let second = seats.pop().ok_or("no seat")?;
    let Err(missing) = close(latch, seats, taker) else {
        panic!(rt; "a seat is missing")
    };
    let mut seats = missing.seats;
    assert_eq!(rt; seats.len(), 1);
    seats.push(second)?;
    closes(rt, missing.latch, seats, missing.taker, 2);
    Ok(())
}

#[test]
fn a_missing_seat_is_told(rt: HostRuntime) -> Result<(), Fail> {
    without_one::<Brand, HostRuntime>(&rt, Blank::new(rt.alloc(), 2, MAX_RUNS)?)
}

// Of three seats two go to sessions and one to a worker. Taken back they are all that the latch has, so it closes.
fn assigned<L: LatchName, R: Abort>(
    rt: &R,
    alloc: Global,
    blank: Blank,
    shared: &SharedState<'_>,
) -> Result<(), Fail> {
    let (latch, seats, taker) = Latch::<L>::open(blank, HashKey::known())?;
    let (counters, counter_seats) = Counters::open(alloc, 2)?;
    let (session_seats, mut worker_seats) = assign_seats(
        alloc,
        &latch,
        &counters,
        &shared.turnstile,
        &shared.connections,
        &shared.pacer,
        Lifetime::Bounded,
        seats,
        counter_seats,
    )?;
    assert_eq!(rt; session_seats.len(), 2);
    assert_eq!(rt; worker_seats.len(), 1);
    let mut all = Vec::with_capacity(alloc, 3)?;
    take_seats(&mut all, session_seats);
    all.append(&mut worker_seats)?;
    closes(rt, latch, all, taker, 3);
    Ok(())
}

#[test]
fn the_first_seats_are_the_sessions(rt: HostRuntime) -> Result<(), Fail> {
    let (listener, port) = listen_at_port(&rt, 0)?;
    let endpoint = Endpoint::Port { listener, port };
    let endpoints = Endpoints {
        first: &endpoint,
        second: None,
    };
    let limits = Limits {
        idle: None,
        lapse: None,
        idle_seat: None,
        hold: 0,
        runs: 0,
    };
    let is_stopped = AtomicBool::new(false);
    let shared = SharedState::new(
        &rt,
        rt.alloc(),
        endpoints,
        &is_stopped,
        2,
        Lifetime::Bounded,
        limits,
    )?;
    let blank = Blank::new(rt.alloc(), 3, MAX_RUNS)?;
    assigned::<Brand, HostRuntime>(&rt, rt.alloc(), blank, &shared)
}

// How each of the seats is answered that begins a transaction.
fn begun_by_all<L: LatchName, R: Wait + Abort>(
    rt: &R,
    alloc: Global,
    blank: Blank,
) -> Result<Vec<Reply>, Fail> {
    let (latch, seats, _taker) = Latch::<L>::open(blank, HashKey::known())?;
    let mut replies = Vec::new(alloc);
    for mut seat in seats {
        if seat.open_tx().is_none() {
            replies.push(seat.call(rt, &latch, Step::Begin))?;
        }
    }
    Ok(replies)
}

#[test]
fn sixty_five_seats_of_one_latch(rt: HostRuntime) -> Result<(), Fail> {
    let blank = Blank::new(rt.alloc(), 65, MAX_RUNS)?;
    let replies = begun_by_all::<Brand, HostRuntime>(&rt, rt.alloc(), blank)?;
    assert_eq!(rt; replies.len(), 65);
    assert!(rt; replies[0] == Reply::Begun(1));
    assert!(rt; replies[63] == Reply::Begun(64));
    assert!(rt; replies[64] == Reply::Refused(Refusal::TooManyTx));
    Ok(())
}

// What is handed out and then what is kept are the whole trace; a call behind both stands where it did.
fn in_pieces<L: LatchName, R: Wait + Abort>(
    rt: &R,
    alloc: Global,
    blank: Blank,
) -> Result<(), Fail> {
    let (latch, mut seats, mut taker) = Latch::<L>::open(blank, HashKey::known())?;
    let mut seat = seats.pop().ok_or("no seat")?;
    assert!(rt; inserts(rt, &latch, &mut seat, 1));
    assert!(rt; !was_refused(&seat.call(rt, &latch, Step::Begin)));
    let tx = seat.open_tx().ok_or("no transaction")?;
    let first = latch.hand_out(rt, &mut taker)?;
    assert_eq!(rt; first.first, 0);
    assert_eq!(rt; first.trace.len(), 4);
    assert_eq!(rt; first.calls.len(), 4);
    assert_eq!(rt; first.figures.in_final, 1);
    let none = latch.hand_out(rt, &mut taker)?;
    assert_eq!(rt; none.first, 4);
    assert_eq!(rt; none.trace.len(), 0);
    seat.let_go();
    assert_eq!(rt; seat.positions().len(), 0);
    assert_eq!(rt;
        seat.call(rt, &latch, Step::Commit(tx)),
        Reply::Committed(2)
    );
    assert_eq!(rt; seat.count_let_go(), 4);
    // Calls are numbered on where receipts were let go.
    assert_eq!(rt;
        latch.look(rt, &mut seat, |engine| engine.kept_calls()[0].call),
        4
    );
    assert_eq!(rt; seat.positions().first().copied(), Some(4));
    assert!(rt; seat.last_commit().is_some());
    assert_eq!(rt;
        latch.look(rt, &mut seat, |engine| (engine.len(), engine.kept().len())),
        (5, 1)
    );
    let Ok(closed) = close(latch, vec![in alloc; seat]?, taker) else {
        panic!(rt; "all seats are there")
    };
    assert_eq!(rt; closed.trace.len(), 1);
    let mut whole = first.trace;
    let mut rest = closed.trace;
    whole.append(&mut rest)?;
    assert!(rt; check(alloc, MAX_RUNS, &whole) == Ok(2));
    Ok(())
}

#[test]
fn a_trace_in_pieces(rt: HostRuntime) -> Result<(), Fail> {
    in_pieces::<Brand, HostRuntime>(&rt, rt.alloc(), Blank::new(rt.alloc(), 1, MAX_RUNS)?)
}

// What so many pieces have, one behind another. Whether each began where the one before it ended.
fn take_pieces<L: LatchName, R: Wait>(
    rt: &R,
    alloc: Global,
    latch: &Latch<L>,
    mut taker: Taker<L>,
) -> (Taker<L>, Vec<(Step, Reply)>, bool) {
    let mut taken = Vec::new(alloc);
    let mut fine = true;
    for _ in 0..100 {
        let Ok(mut piece) = latch.hand_out(rt, &mut taker) else {
            fine = false;
            break;
        };
        fine = fine
            & (piece.first == taken.len() as u64)
            & (piece.calls.len() == piece.trace.len());
        fine = fine & taken.append(&mut piece.trace).is_ok();
        thread::yield_now();
    }
    (taker, taken, fine)
}

fn beside_two_seats<L: LatchName + Send + Sync, R: Threads + Wait + Abort + Sync>(
    rt: &R,
    alloc: Global,
    blank: Blank,
) -> Result<(), Fail> {
    let (latch, mut seats, taker) = Latch::<L>::open(blank, HashKey::known())?;
    let second = seats.pop().ok_or("no seat")?;
    let first = seats.pop().ok_or("no seat")?;
    let shared = &latch;
    let ((taker, mut taken, whole), ((first, one), (second, other))) = thread::join(
        rt,
        move || take_pieces(rt, alloc, shared, taker),
        move || {
            thread::join(
                rt,
                move || insert_all(rt, shared, first, 0),
                move || insert_all(rt, shared, second, 100),
            )
        },
    );
    assert!(rt; whole & one & other);
    seats.push(first)?;
    seats.push(second)?;
    let Ok(mut closed) = close(latch, seats, taker) else {
        panic!(rt; "all seats are there")
    };
    taken.append(&mut closed.trace)?;
    assert_eq!(rt; taken.len(), 600);
    assert!(rt; check(alloc, MAX_RUNS, &taken) == Ok(200));
    Ok(())
}

#[test]
fn a_taker_beside_two_seats(rt: HostRuntime) -> Result<(), Fail> {
    beside_two_seats::<Brand, HostRuntime>(&rt, rt.alloc(), Blank::new(rt.alloc(), 2, MAX_RUNS)?)
}

// A seat without receipts looks at what the others did, and is lent the engine of its latch.
fn without_receipts<L: LatchName, R: Wait + Abort>(rt: &R, blank: Blank) -> Result<(), Fail> {
    let (latch, mut seats, mut taker) = Latch::<L>::open(blank, HashKey::known())?;
    let mut second = seats.pop().ok_or("no seat")?;
    let mut first = seats.pop().ok_or("no seat")?;
    assert!(rt; inserts(rt, &latch, &mut second, 5));
    let seen = latch.look(rt, &mut first, |engine| {
        (engine.len(), engine.kept().len(), engine.store().commits())
    });
    assert_eq!(rt; seen, (3, 3, 1));
    assert_eq!(rt; latch.hand_out(rt, &mut taker)?.trace.len(), 3);
    let seen = latch.look(rt, &mut first, |engine| (engine.len(), engine.kept().len()));
    assert_eq!(rt; seen, (3, 0));
    Ok(())
}

#[test]
fn a_look_without_receipts(rt: HostRuntime) -> Result<(), Fail> {
    without_receipts::<Brand, HostRuntime>(&rt, Blank::new(rt.alloc(), 2, MAX_RUNS)?)
}

/// Many times as many pairs as a server keeps before they are handed out.
const MANY: usize = 200_000;

// An engine keeps so many pairs, and hands them out at once. After that it has room for the next.
fn keeps_many<L: LatchName, R: Wait + Abort>(rt: &R, blank: Blank) -> Result<(), Fail> {
    let (latch, mut seats, mut taker) = Latch::<L>::open(blank, HashKey::known())?;
    let mut seat = seats.pop().ok_or("no seat")?;
    for _ in 0..MANY {
        assert!(rt; seat.call(rt, &latch, Step::Merge(1)) == Reply::Idle);
    }
    assert_eq!(rt;
        latch.look(rt, &mut seat, |engine| engine.kept().len()),
        MANY
    );
    assert_eq!(rt; latch.hand_out(rt, &mut taker)?.trace.len(), MANY);
    for more in 1..4 {
        assert!(rt; inserts(rt, &latch, &mut seat, more));
        let piece = latch.hand_out(rt, &mut taker)?;
        assert_eq!(rt;
            (piece.first, piece.trace.len()),
            (MANY as u64 + 3 * (more - 1), 3)
        );
    }
    Ok(())
}

#[test]
fn many_pairs_wait(rt: HostRuntime) -> Result<(), Fail> {
    keeps_many::<Brand, HostRuntime>(&rt, Blank::new(rt.alloc(), 1, MAX_RUNS)?)
}
