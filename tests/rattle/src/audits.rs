//! Worked traces, as they are stored: a text holds nothing that a test would have to give back.

use am_audit::{Fault, FaultKind, check};
use am_record::{Key, MAX_RUNS, NoMemory, Op, Refusal, Reply, Step};
use am_trace_read::read_trace;
use std::alloc::Global;
use std::process::Abort;

fn expect(rt: &impl Abort, alloc: Global, text: &[u8], verdict: Result<u64, Fault>) {
    let trace = read_trace(alloc, text).expect(rt, "the text of a trace");
    assert!(rt; check(alloc, MAX_RUNS, &trace) == verdict);
}

fn wrong(line: u64, kind: FaultKind) -> Result<u64, Fault> {
    Err(Fault::Wrong(line, kind))
}

// The first transaction inserts a record and commits, the second reads it.
#[test]
fn audit_legal(rt: HostRuntime) {
    let text = b"TRACE 1
BEGIN | BEGUN 1
BEGIN | BEGUN 2
INS 1 5 h61 | OK
COMMIT 1 | COMMITTED 1
GET 2 5 | VAL h61
COMMIT 2 | COMMITTED 2
";
    expect(&rt, rt.alloc(), text, Ok(2));
    expect(&rt, rt.alloc(), b"TRACE 1\n", Ok(0));
}

// Found at the commit on line 7, and told by the line of the operation.
#[test]
fn audit_wrong_answer(rt: HostRuntime) {
    let text = b"TRACE 1
BEGIN | BEGUN 1
BEGIN | BEGUN 2
INS 1 5 h61 | OK
COMMIT 1 | COMMITTED 1
GET 2 5 | VAL h62
COMMIT 2 | COMMITTED 2
";
    expect(&rt, rt.alloc(), text, wrong(6, FaultKind::Answer));
}

// The first transaction has ended.
#[test]
fn audit_wrong_busy(rt: HostRuntime) {
    let text = b"TRACE 1
BEGIN | BEGUN 1
BEGIN | BEGUN 2
INS 1 5 h61 | OK
COMMIT 1 | COMMITTED 1
GET 2 5 | BUSY 1
COMMIT 2 | COMMITTED 2
";
    expect(&rt, rt.alloc(), text, wrong(6, FaultKind::Busy));
}

// The two commits are swapped: the second transaction isn't active on line 6.
#[test]
fn audit_wrong_form(rt: HostRuntime) {
    let text = b"TRACE 1
BEGIN | BEGUN 1
BEGIN | BEGUN 2
INS 1 5 h61 | OK
COMMIT 2 | COMMITTED 1
GET 2 5 | VAL h61
COMMIT 1 | COMMITTED 2
";
    expect(&rt, rt.alloc(), text, wrong(6, FaultKind::Form));
}

#[test]
fn audit_insert_into_a_scanned_gap(rt: HostRuntime) {
    let text = b"TRACE 1
BEGIN | BEGUN 1
BEGIN | BEGUN 2
SCAN 1 10 20 5 | ROWS 0
INS 2 15 h78 | OK
";
    expect(&rt, rt.alloc(), text, wrong(5, FaultKind::Busy));
}

// What the first transaction locked while it was the only one stands in the second one's way.
#[test]
fn audit_locks_taken_alone(rt: HostRuntime) {
    let text = b"TRACE 1
BEGIN | BEGUN 1
GET 1 5 | NONE
INS 1 6 h61 | OK
SCAN 1 10 20 5 | ROWS 0
BEGIN | BEGUN 2
GET 2 5 | NONE
INS 2 5 h62 | BUSY 1
GET 2 6 | BUSY 1
INS 2 15 h63 | BUSY 1
COMMIT 1 | COMMITTED 1
GET 2 6 | VAL h61
COMMIT 2 | COMMITTED 2
";
    expect(&rt, rt.alloc(), text, Ok(2));
    let text = b"TRACE 1
BEGIN | BEGUN 1
GET 1 5 | NONE
BEGIN | BEGUN 2
INS 2 5 h62 | OK
";
    expect(&rt, rt.alloc(), text, wrong(5, FaultKind::Busy));
}

// An operation that was refused memory has no lock, whoever else is active.
#[test]
fn audit_refused_alone(rt: HostRuntime) {
    let text = b"TRACE 1
BEGIN | BEGUN 1
INS 1 6 h61 | OK
GET 1 5 | ERR MEMORY
BEGIN | BEGUN 2
INS 2 5 h62 | OK
INS 2 6 h62 | BUSY 1
COMMIT 2 | COMMITTED 1
COMMIT 1 | COMMITTED 2
";
    expect(&rt, rt.alloc(), text, Ok(2));
}

// The 257th lock is one too many for an only transaction too, unless it has it.
#[test]
fn audit_most_locks_alone(rt: HostRuntime) -> Result<(), NoMemory> {
    let mut text = Vec::new(rt.alloc());
    text.extend_from_slice(b"TRACE 1\nBEGIN | BEGUN 1\n")?;
    for key in 0..256 {
        text.extend_from_slice(format!(in rt.alloc(); "GET 1 {key} | NONE\n")?.as_bytes())?;
    }
    text.extend_from_slice(b"GET 1 7 | NONE\nGET 1 256 | ERR LOCKS\nCOMMIT 1 | COMMITTED 1\n")?;
    expect(&rt, rt.alloc(), &text, Ok(1));
    text.extend_from_slice(b"BEGIN | BEGUN 2\nGET 2 256 | ERR LOCKS\n")?;
    expect(&rt, rt.alloc(), &text, wrong(263, FaultKind::Form));
    Ok(())
}

// What an aborted transaction read is not compared.
#[test]
fn audit_aborted_reads(rt: HostRuntime) {
    let text = b"TRACE 1
BEGIN | BEGUN 1
GET 1 5 | VAL h61
ABORT 1 | ABORTED
";
    expect(&rt, rt.alloc(), text, Ok(0));
    let text = b"TRACE 1
GET 7 1 | ERR NOTX
";
    expect(&rt, rt.alloc(), text, Ok(0));
}

#[test]
fn audit_back_forgotten(rt: HostRuntime) {
    let text = b"TRACE 2
BEGIN | BEGUN 1
MARK 1 | OK
INS 1 h0000000000000001 h61 | OK
BACK 1 | OK
GET 1 h0000000000000001 | VAL h61
COMMIT 1 | COMMITTED 1
";
    expect(&rt, rt.alloc(), text, wrong(6, FaultKind::Answer));
    let text = b"TRACE 2
BEGIN | BEGUN 1
MARK 1 | OK
INS 1 h0000000000000001 h61 | OK
BACK 1 | OK
GET 1 h0000000000000001 | NONE
COMMIT 1 | COMMITTED 1
";
    expect(&rt, rt.alloc(), text, Ok(1));
}

// A Back lets no lock go.
#[test]
fn audit_back_keeps_locks(rt: HostRuntime) {
    let text = b"TRACE 2
BEGIN | BEGUN 1
BEGIN | BEGUN 2
MARK 1 | OK
INS 1 h0000000000000001 h31 | OK
BACK 1 | OK
GET 2 h0000000000000001 | BUSY 1
COMMIT 1 | COMMITTED 1
GET 2 h0000000000000001 | NONE
";
    expect(&rt, rt.alloc(), text, Ok(1));
}

#[test]
fn audit_sets_and_deleted_ranges(rt: HostRuntime) {
    let text = b"TRACE 3
BEGIN | BEGUN 1
SET 1 h61 h31 | OK
SET 1 h62 h32 | OK
SET 1 h61 h33 | OK
RSCAN 1 h61 h7a 1 | ROWS 1 h62=h32
RSCAN 1 h61 h7a 9 | ROWS 2 h62=h32 h61=h33
MARK 1 | OK
DELR 1 h61 h7a 1 | DELETED 1
GET 1 h61 | NONE
BACK 1 | OK
DELR 1 h61 h7a 1001 | ERR LIMIT
DELR 1 h61 h7a 9 | DELETED 2
DELR 1 h61 h7a 9 | DELETED 0
COMMIT 1 | COMMITTED 1
";
    expect(&rt, rt.alloc(), text, Ok(1));
}

#[test]
fn audit_rows_that_rise(rt: HostRuntime) {
    let text = b"TRACE 3
BEGIN | BEGUN 1
SET 1 h61 h31 | OK
SET 1 h62 h32 | OK
RSCAN 1 h61 h7a 9 | ROWS 2 h61=h31 h62=h32
COMMIT 1 | COMMITTED 1
";
    expect(&rt, rt.alloc(), text, wrong(5, FaultKind::Answer));
}

#[test]
fn audit_one_deleted_too_many(rt: HostRuntime) {
    let text = b"TRACE 3
BEGIN | BEGUN 1
SET 1 h61 h31 | OK
DELR 1 h61 h7a 9 | DELETED 2
COMMIT 1 | COMMITTED 1
";
    expect(&rt, rt.alloc(), text, wrong(4, FaultKind::Answer));
    let text = b"TRACE 3
BEGIN | BEGUN 1
DELR 1 h61 h7a 9 | DELETED 10
";
    expect(&rt, rt.alloc(), text, wrong(3, FaultKind::Form));
}

#[test]
fn audit_set_that_finds_a_record(rt: HostRuntime) {
    let text = b"TRACE 3
BEGIN | BEGUN 1
SET 1 h61 h31 | OK
SET 1 h61 h32 | EXISTS h61
";
    expect(&rt, rt.alloc(), text, wrong(4, FaultKind::Form));
}

// What was read stands in the way of a range that loses records, and what it lost in the way of who would read it.
#[test]
fn audit_deleted_range_locks(rt: HostRuntime) {
    let text = b"TRACE 3
BEGIN | BEGUN 1
BEGIN | BEGUN 2
RSCAN 1 h61 h63 9 | ROWS 0
DELR 2 h62 h7a 9 | BUSY 1
DELR 2 h64 h7a 9 | DELETED 0
GET 1 h65 | BUSY 2
SET 1 h7a h31 | BUSY 2
COMMIT 2 | COMMITTED 1
COMMIT 1 | COMMITTED 2
";
    expect(&rt, rt.alloc(), text, Ok(2));
    let text = b"TRACE 3
BEGIN | BEGUN 1
BEGIN | BEGUN 2
DELR 1 h61 h63 9 | DELETED 0
SET 2 h62 h31 | OK
";
    expect(&rt, rt.alloc(), text, wrong(5, FaultKind::Busy));
}

// The second transaction asks for no rows in a range that the first has locked.
#[test]
fn audit_limits_before_busy(rt: HostRuntime) {
    let busy = b"TRACE 1
BEGIN | BEGUN 1
BEGIN | BEGUN 2
LOCK 1 X 1 9 | OK
SCAN 2 1 9 0 | BUSY 1
";
    expect(&rt, rt.alloc(), busy, wrong(5, FaultKind::Form));
    let limit = b"TRACE 1
BEGIN | BEGUN 1
BEGIN | BEGUN 2
LOCK 1 X 1 9 | OK
SCAN 2 1 9 0 | ERR LIMIT
";
    expect(&rt, rt.alloc(), limit, Ok(0));
}

fn tell(rt: &impl Abort, trace: &mut Vec<(Step, Reply)>, step: Step, reply: Reply) {
    assert!(rt; trace.push((step, reply)).is_ok(), "memory");
}

// The first transaction holds 256 locks, the second one on key 1000, and then the first asks for one more.
fn expect_at_one_lock_more(
    rt: &impl Abort,
    alloc: Global,
    key: u64,
    reply: Reply,
    verdict: Result<u64, Fault>,
) {
    let mut trace = Vec::new(alloc);
    tell(rt, &mut trace, Step::Begin, Reply::Begun(1));
    tell(rt, &mut trace, Step::Begin, Reply::Begun(2));
    for i in 0..256 {
        let get = Op::Get(Key::of_u64(i));
        tell(rt, &mut trace, Step::Do(1, get), Reply::Absent);
    }
    let delete = Op::Delete(Key::of_u64(1000));
    tell(rt, &mut trace, Step::Do(2, delete), Reply::Missing);
    let get = Op::Get(Key::of_u64(key));
    tell(rt, &mut trace, Step::Do(1, get), reply);
    assert!(rt; check(alloc, MAX_RUNS, &trace) == verdict);
}

#[test]
fn audit_busy_before_too_many_locks(rt: HostRuntime) {
    let alloc = rt.alloc();
    let many = Reply::Refused(Refusal::TooManyLocks);
    expect_at_one_lock_more(&rt, alloc, 1000, many, wrong(261, FaultKind::Busy));
    let busy = Reply::Refused(Refusal::Busy(2));
    expect_at_one_lock_more(&rt, alloc, 1000, busy, Ok(0));
    let many = Reply::Refused(Refusal::TooManyLocks);
    expect_at_one_lock_more(&rt, alloc, 2000, many, Ok(0));
    expect_at_one_lock_more(&rt, alloc, 2000, Reply::Absent, wrong(261, FaultKind::Form));
    expect_at_one_lock_more(&rt, alloc, 7, Reply::Absent, Ok(0));
}
