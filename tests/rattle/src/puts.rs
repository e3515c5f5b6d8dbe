//! Puts: their lines, their answers on the plain map, and traces with them.

use crate::keys::{key, value};
use am_audit::{Fault, FaultKind, check};
use am_line_text::LineFault;
use am_line_wire::{Request, parse_line};
use am_record::{MAX_RUNS, Op, Records, Reply};
use am_record_model::{Plain, alone};
use am_trace_print::trace_text;
use am_trace_read::{TraceFault, read_trace};
use std::alloc::Global;
use std::process::Abort;

// Records of keys and values.
fn records(rt: &impl Abort, alloc: Global, pairs: &[(&[u8], &[u8])]) -> Records {
    let mut rows = Vec::new(alloc);
    for pair in pairs {
        rows.push((key(rt, pair.0), value(rt, pair.1)))
            .expect(rt, "memory");
    }
    Records::new(rows)
}

fn read(alloc: Global, line: &[u8]) -> Result<Request, LineFault> {
    match parse_line(alloc, line) {
        Err(LineFault::NoMemory) => parse_line(alloc, line),
        read => read,
    }
}

#[test]
fn lines_of_puts_are_read_as_those_of_loads(rt: HostRuntime) {
    let alloc = rt.alloc();
    let put = Op::Put(records(&rt, alloc, &[(b"9", b"y"), (b"10", b"=")]));
    assert!(rt; read(alloc, b"PUT 9=y 10==") == Ok(Request::Do(put)));
    for line in [
        b"PUT".as_slice(),
        b"PUT ",
        b"PUT 1",
        b"PUT =a",
        b"put 1=a",
        b"PUTS 1=a",
    ] {
        assert!(rt; read(alloc, line) == Err(LineFault::Syntax), "{line:?}");
    }
    let long = b"PUT aaaaaaaaaaaaaaaaaaaaaaaaaaaaaaaaa=1";
    assert!(rt; read(alloc, long) == Err(LineFault::Range));
}

#[test]
fn a_put_sets_each_value_whether_its_key_is_live_or_not(rt: HostRuntime) {
    let alloc = rt.alloc();
    let (one, two, three) = (value(&rt, b"1"), value(&rt, b"2"), value(&rt, b"3"));
    let (a, b, c) = (key(&rt, b"a"), key(&rt, b"b"), key(&rt, b"c"));
    let ops = [
        Op::Put(records(&rt, alloc, &[(b"a", b"1"), (b"b", b"1")])),
        Op::Mark,
        Op::Put(records(&rt, alloc, &[(b"b", b"2"), (b"c", b"2")])),
        Op::Put(records(&rt, alloc, &[(b"a", b"3"), (b"b", b"3"), (b"c", b"3")])),
        Op::Get(a),
        Op::Get(b),
        Op::Get(c),
        Op::Back,
        Op::Get(a),
        Op::Get(b),
        Op::Get(c),
        Op::Set(c, two),
        Op::Get(c),
    ];
    let expected = [
        Reply::Done,
        Reply::Done,
        Reply::Done,
        Reply::Done,
        Reply::Found(three),
        Reply::Found(three),
        Reply::Found(three),
        Reply::Done,
        Reply::Found(one),
        Reply::Found(one),
        Reply::Absent,
        Reply::Done,
        Reply::Found(two),
    ];
    let mut plain = Plain::new(alloc);
    let replies = alone(alloc, &mut plain, &ops).expect(&rt, "memory");
    assert!(rt; replies.as_slice() == &expected[..]);
}

const STORED: &[u8] = b"TRACE 3
BEGIN | BEGUN 1
PUT 1 | ERR ORDER
PUT 1 h=h h6162=h00ff | OK
PUT 7 h61=h62 | ERR NOTX
";

#[test]
fn a_trace_with_puts_is_written_in_version_3(rt: HostRuntime) {
    let trace = read_trace(rt.alloc(), STORED).expect(&rt, "the text of a trace");
    assert!(rt; trace.len() == 4);
    let text = trace_text(rt.alloc(), &trace).expect(&rt, "memory");
    assert!(rt; text.as_slice() == STORED);
}

#[test]
fn other_versions_know_no_puts(rt: HostRuntime) {
    let bad: [(&[u8], u64); 4] = [
        (b"TRACE 1\nPUT 1 5=h61 | OK\n", 2),
        (b"TRACE 2\nBEGIN | BEGUN 1\nPUT 1 h61=h62 | OK\n", 3),
        (b"TRACE 2\nPUT 1 | ERR ORDER\n", 2),
        (b"TRACE 3\nPUT 1 h61 | OK\n", 2),
    ];
    for (text, line) in bad {
        let fault = read_trace(rt.alloc(), text).err();
        assert!(rt; fault == Some(TraceFault::Bad(line)), "{text:?}");
    }
}

fn expect(
    rt: &impl Abort,
    alloc: Global,
    most_runs: u32,
    text: &[u8],
    verdict: Result<u64, Fault>,
) {
    let trace = read_trace(alloc, text).expect(rt, "the text of a trace");
    assert!(rt; check(alloc, most_runs, &trace) == verdict, "{text:?}");
}

fn wrong(line: u64, kind: FaultKind) -> Result<u64, Fault> {
    Err(Fault::Wrong(line, kind))
}

#[test]
fn what_a_put_left_is_audited(rt: HostRuntime) {
    let alloc = rt.alloc();
    let text = b"TRACE 3
BEGIN | BEGUN 1
INS 1 h61 h31 | OK
PUT 1 h61=h32 h62=h32 | OK
GET 1 h61 | VAL h32
COMMIT 1 | COMMITTED 1
BEGIN | BEGUN 2
SCAN 2 h61 h7a 9 | ROWS 2 h61=h32 h62=h32
COMMIT 2 | COMMITTED 2
";
    expect(&rt, alloc, MAX_RUNS, text, Ok(2));
    let old = b"TRACE 3
BEGIN | BEGUN 1
INS 1 h61 h31 | OK
PUT 1 h61=h32 h62=h32 | OK
GET 1 h61 | VAL h31
COMMIT 1 | COMMITTED 1
";
    expect(&rt, alloc, MAX_RUNS, old, wrong(5, FaultKind::Answer));
}

#[test]
fn a_put_has_no_other_answer(rt: HostRuntime) {
    let alloc = rt.alloc();
    let exists = b"TRACE 3
BEGIN | BEGUN 1
INS 1 h61 h31 | OK
PUT 1 h61=h32 | EXISTS h61
";
    expect(&rt, alloc, MAX_RUNS, exists, wrong(4, FaultKind::Form));
    let falling = b"TRACE 3
BEGIN | BEGUN 1
PUT 1 h62=h32 h61=h31 | OK
";
    expect(&rt, alloc, MAX_RUNS, falling, wrong(3, FaultKind::Form));
    let falling = b"TRACE 3
BEGIN | BEGUN 1
PUT 1 h62=h32 h61=h31 | ERR ORDER
PUT 1 h61=h32 h61=h31 | ERR ORDER
";
    expect(&rt, alloc, MAX_RUNS, falling, Ok(0));
}

// The lock is on all from the first key to the last.
#[test]
fn a_put_locks_what_is_between_its_keys(rt: HostRuntime) {
    let text = b"TRACE 3
BEGIN | BEGUN 1
BEGIN | BEGUN 2
PUT 1 h61=h31 h63=h33 | OK
GET 2 h62 | BUSY 1
GET 2 h64 | NONE
PUT 2 h60=h31 h61=h32 | BUSY 1
COMMIT 1 | COMMITTED 1
PUT 2 h60=h31 h61=h32 | OK
COMMIT 2 | COMMITTED 2
";
    expect(&rt, rt.alloc(), MAX_RUNS, text, Ok(2));
}

// Four of the puts find a new key: the first, that above the mark, that behind BACK, and that behind DEL.
const FOUR_RUNS: &[u8] = b"TRACE 3
BEGIN | BEGUN 1
PUT 1 h61=h31 h62=h32 | OK
PUT 1 h61=h33 | OK
BACK 1 | NOMARK
MARK 1 | OK
PUT 1 h62=h34 h63=h35 | OK
MARK 1 | OK
BACK 1 | OK
BACK 1 | OK
PUT 1 h63=h36 | OK
DEL 1 h61 | OK
MARK 1 | OK
PUT 1 h61=h37 | OK
INS 1 h64 h38 | OK
PUT 1 h61=h39 h64=h39 | OK
";

#[test]
fn a_put_without_new_keys_makes_no_run(rt: HostRuntime) {
    let alloc = rt.alloc();
    let behind: [(&[u8], u32, Result<u64, Fault>); 7] = [
        (b"", 5, Ok(0)),
        (b"", 4, wrong(16, FaultKind::Form)),
        (b"MERGE 1 | MOVED 1 4\n", 5, Ok(0)),
        (b"MERGE 1 | MOVED 1 5\n", 5, wrong(17, FaultKind::Form)),
        (
            b"PUT 1 h65=h31 | OK\nPUT 1 h61=h31 | ERR RUNS\nLOAD 1 h66=h31 | ERR RUNS\n",
            5,
            Ok(0),
        ),
        (
            b"PUT 1 h65=h31 | OK\nPUT 1 h61=h31 | OK\n",
            5,
            wrong(18, FaultKind::Form),
        ),
        (
            b"COMMIT 1 | COMMITTED 1\nBEGIN | BEGUN 2\nPUT 2 h62=h31 h64=h32 | OK\nMERGE 1 | MOVED 1 4\nPUT 2 h65=h31 | OK\nPUT 2 h65=h31 | ERR RUNS\nCOMMIT 2 | COMMITTED 2\n",
            5,
            Ok(2),
        ),
    ];
    for (more, most_runs, verdict) in behind {
        let mut text = Vec::from_slice(alloc, FOUR_RUNS).expect(&rt, "memory");
        text.extend_from_slice(more).expect(&rt, "memory");
        expect(&rt, alloc, most_runs, &text, verdict);
    }
}
