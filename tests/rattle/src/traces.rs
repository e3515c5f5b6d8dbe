//! The texts of stored traces.

use am_record::{Key, LAST_RUN, MAX_RUNS, Op, Reply, Step, Value};
use am_trace_print::trace_text;
use am_trace_read::{TraceFault, front_event, read_by_fields, read_header, read_trace};
use am_trace_text::{Header, StoreLimits, Version, byte_of, digit_of, needs_three};

const STORED: &[u8] = b"TRACE 2
SCAN 1 h h6162 18446744073709551615 | ROWS 2 h61=h h6162=h00ff
LOAD 1 h61=h78 | ENDED h61 2
";

// The same lines in version 3.
const STORED_IN_3: &[u8] = b"TRACE 3
SCAN 1 h h6162 18446744073709551615 | ROWS 2 h61=h h6162=h00ff
LOAD 1 h61=h78 | ENDED h61 2
";

// Lines that version 3 alone has.
const SET_AND_DELETED: &[u8] = b"TRACE 3
SET 1 h61 h00ff | OK
RSCAN 1 h h6162 18446744073709551615 | ROWS 2 h6162=h h61=h00ff
DELR 2 h61 h7a 1000 | DELETED 18446744073709551615
GET 1 h61 | NONE
";

// The row of numbers as keys.
const NUMBERED: &[u8] = b"TRACE 1
BEGIN | BEGUN 1
INS 1 5 h61 | OK
SCAN 1 0 18446744073709551615 5 | ROWS 1 5=h61
";

// What stands behind the first line.
const BEHIND: &[u8] = b"BEGIN";

// Lines of the shapes that come most often, each with the same behind it.
const USUAL: [&[u8]; 7] = [
    b"BEGIN | BEGUN 1\nBEGIN",
    b"GET 1 h61 | VAL h62\nBEGIN",
    b"GET 1 h61 | NONE\nBEGIN",
    b"INS 1 h61 h62 | OK\nBEGIN",
    b"REP 1 h61 h62 | OK\nBEGIN",
    b"DEL 1 h61 | OK\nBEGIN",
    b"COMMIT 1 | COMMITTED 2\nBEGIN",
];

// First lines.
const FIRST: [&[u8]; 6] = [
    b"TRACE 1\n",
    b"TRACE 2\n",
    b"TRACE 3\n",
    b"TRACE 4 4294967294 32 64 256 4096\n",
    b"TRACE 4 1 32 64 256 4096\n",
    b"TRACE 4 65535 32 64 256 4096\n",
];

// Lines that are none.
const NO_FIRST: [&[u8]; 12] = [
    b"\n",
    b"TRACE 4\n",
    b"TRACE 4 7 32 64 256 4096",
    b"TRACE 4 0 32 64 256 4096\n",
    b"TRACE 4 4294967295 32 64 256 4096\n",
    b"TRACE 4 4294967303 32 64 256 4096\n",
    b"TRACE 4 07 32 64 256 4096\n",
    b"TRACE 4 7  32 64 256 4096\n",
    b"TRACE 4 7 32 64 256\n",
    b"TRACE 4 7 32 64 256 4096 \n",
    b"TRACE 4 7 32 64 256 4095\n",
    b"TRACE 3 7 32 64 256 4096\n",
];

// Texts that are none of a trace, each with its first bad line.
const BAD: [(&[u8], u64); 32] = [
    (b"", 1),
    (b"TRACE 2", 1),
    (b"TRACE 4\n", 1),
    (b"TRACE 2\r\n", 1),
    (b"TRACE 2\n\n", 2),
    (b"TRACE 2\nBEGIN | BEGUN 1", 2),
    (b"TRACE 2\nBEGIN | BEGUN 1\r\n", 2),
    (b"TRACE 2\nBEGIN | BEGUN 1\nBEGIN| BEGUN 2\n", 3),
    (b"TRACE 2\nBEGIN | BEGUN 1 \n", 2),
    (b"TRACE 2\nBEGIN | BEGUN 18446744073709551616\n", 2),
    (b"TRACE 2\nGET 01 h61 | NONE\n", 2),
    (b"TRACE 2\nGET 1 h6A | NONE\n", 2),
    (b"TRACE 2\nGET 1 h6 | NONE\n", 2),
    (b"TRACE 2\nGET 1 5 | ERR NOTX\n", 2),
    (b"TRACE 2\nSCAN 1 h62 h61 1 | ROWS 0\n", 2),
    (b"TRACE 2\nSCAN 1 h61 h62 1 | ROWS 1\n", 2),
    (b"TRACE 2\nSCAN 1 h61 h62 1 | ROWS 0 h61=h62\n", 2),
    (b"TRACE 2\nMERGE 1 | MOVED 1 4294967296\n", 2),
    (b"TRACE 2\nGET 1 h61 | ERR FULL\n", 2),
    (b"TRACE 2\nSEEN | IDLE\n", 2),
    (
        b"TRACE 2\nGET 1 h000000000000000000000000000000000000000000000000000000000000000000 | NONE\n",
        2,
    ),
    (b"TRACE 1\nMARK 1 | OK\n", 2),
    (b"TRACE 1\nBACK 1 | NOMARK\n", 2),
    (b"TRACE 1\nGET 7 01 | ERR NOTX\n", 2),
    (b"TRACE 1\nSET 1 5 h61 | OK\n", 2),
    (b"TRACE 2\nBEGIN | BEGUN 1\nSET 1 h61 h62 | OK\n", 3),
    (b"TRACE 2\nRSCAN 1 h61 h62 1 | ROWS 0\n", 2),
    (b"TRACE 2\nDELR 1 h61 h62 1 | ERR NOTX\n", 2),
    (b"TRACE 2\nGET 1 h61 | DELETED 1\n", 2),
    (b"TRACE 3\nSET 1 h61 | OK\n", 2),
    (b"TRACE 3\nRSCAN 1 h62 h61 1 | ROWS 0\n", 2),
    (b"TRACE 3\nDELR 1 h61 h62 1 | DELETED 01\n", 2),
];

#[test]
fn stored_text_is_read_and_written_again(rt: HostRuntime) {
    let trace = read_trace(rt.alloc(), STORED).expect(&rt, "the text of a trace");
    assert!(rt; trace.len() == 2);
    let text = trace_text(rt.alloc(), &trace).expect(&rt, "memory");
    assert!(rt; text.as_slice() == STORED);
}

#[test]
fn version_1_has_numbers_as_keys(rt: HostRuntime) {
    let trace = read_trace(rt.alloc(), NUMBERED).expect(&rt, "the text of a trace");
    assert!(rt; trace.len() == 3);
    let value = Value::new(b"a").unwrap();
    assert!(rt; trace[1] == (Step::Do(1, Op::Insert(Key::of_u64(5), value)), Reply::Done));
}

#[test]
fn version_3_has_the_lines_of_version_2(rt: HostRuntime) {
    let trace = read_trace(rt.alloc(), STORED).expect(&rt, "the text of a trace");
    let same = read_trace(rt.alloc(), STORED_IN_3).expect(&rt, "the text of a trace");
    assert!(rt; same.len() == 2 && same[0] == trace[0] && same[1] == trace[1]);
    let text = trace_text(rt.alloc(), &same).expect(&rt, "memory");
    assert!(rt; text.as_slice() == STORED);
}

#[test]
fn first_lines_are_read_and_written_again(rt: HostRuntime) {
    for line in FIRST {
        let mut text = Vec::from_slice(rt.alloc(), line).expect(&rt, "memory");
        text.extend_from_slice(BEHIND).expect(&rt, "memory");
        let (header, rest) = read_header(&text).expect(&rt, "a first line");
        assert!(rt; header.line().as_slice() == line && rest == BEHIND);
    }
    for line in NO_FIRST {
        assert!(rt; read_header(line).is_none());
    }
}

#[test]
fn a_first_line_says_the_version_and_the_runs(rt: HostRuntime) {
    let limits = StoreLimits::with_runs(LAST_RUN);
    for (line, version, most_runs) in [
        (FIRST[1], Version::Two, MAX_RUNS),
        (FIRST[2], Version::Three, MAX_RUNS),
        (FIRST[3], Version::Three, LAST_RUN),
        (FIRST[4], Version::Three, 1),
    ] {
        let (header, _) = read_header(line).expect(&rt, "a first line");
        assert!(rt; header.version() == version && header.most_runs() == most_runs);
        assert!(rt; (header == Header::Limits(limits)) == (most_runs == LAST_RUN));
    }
}

#[test]
fn version_3_is_written_where_it_is_needed(rt: HostRuntime) {
    let trace = read_trace(rt.alloc(), SET_AND_DELETED).expect(&rt, "the text of a trace");
    assert!(rt; trace.len() == 4);
    let text = trace_text(rt.alloc(), &trace).expect(&rt, "memory");
    assert!(rt; text.as_slice() == SET_AND_DELETED);
    for (number, event) in trace.iter().enumerate() {
        assert!(rt; needs_three(event) == (number < 3));
    }
    assert!(rt; Version::for_trace(&trace[3..]) == Version::Two);
}

#[test]
fn the_first_bad_line_is_named(rt: HostRuntime) {
    for (text, line) in BAD {
        let fault = read_trace(rt.alloc(), text).err();
        assert!(rt; fault == Some(TraceFault::Bad(line)), "line {line}");
    }
}

#[test]
fn usual_lines_are_read_alike(rt: HostRuntime) {
    for line in USUAL {
        let (event, rest) = front_event(line).expect(&rt, "a usual line");
        let (read, further) = read_by_fields(rt.alloc(), Version::Two, line).expect(&rt, "a line");
        assert!(rt; event == read);
        assert!(rt; rest == BEHIND && further == BEHIND);
    }
    assert!(rt; front_event(b"MARK 1 | OK\n").is_none());
}

#[test]
fn digits_have_small_letters(rt: HostRuntime) {
    assert!(rt; digit_of(b'f') == Some(15) && digit_of(b'F').is_none());
    assert!(rt; byte_of(b'0', b'a') == Some(10) && byte_of(b'0', b'g').is_none());
}
