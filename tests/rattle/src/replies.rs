//! The texts of replies.

use crate::keys::{key, value};
use am_line_sink::StopSink;
use am_line_wire::{put_reply, reply_text};
use am_record::{NoMemory, Records, Refusal, Reply};
use std::alloc::Global;
use std::process::Abort;

// The text of the reply, given to a sink. Where memory is refused it is given again.
fn given(rt: &impl Abort, alloc: Global, reply: &Reply) -> Vec<u8> {
    let mut sink = StopSink::new(alloc, 0);
    if put_reply(reply, &mut sink).is_err() {
        sink = StopSink::new(alloc, 0);
        assert!(rt;
            put_reply(reply, &mut sink).is_ok(),
            "the sink failed twice"
        );
    }
    sink.into_bytes()
}

// The text of the reply, made. Where memory is refused it is asked for again.
fn made(rt: &impl Abort, alloc: Global, reply: &Reply) -> Vec<u8> {
    match reply_text(alloc, reply) {
        Ok(made) => made,
        Err(NoMemory) => reply_text(alloc, reply).expect(rt, "memory"),
    }
}

// The reply has this text, given and made.
fn has_text(rt: &impl Abort, alloc: Global, reply: Reply, text: &[u8]) {
    assert!(rt; given(rt, alloc, &reply).as_slice() == text, "{reply:?}");
    assert!(rt; made(rt, alloc, &reply).as_slice() == text, "{reply:?}");
}

#[test]
fn replies_have_their_texts(rt: HostRuntime) {
    let begun = b"BEGUN 18446744073709551615\n";
    has_text(&rt, rt.alloc(), Reply::Begun(u64::MAX), begun);
    has_text(&rt, rt.alloc(), Reply::Done, b"OK\n");
    let found = Reply::Found(value(&rt, b"a=!~"));
    has_text(&rt, rt.alloc(), found, b"VAL a=!~\n");
    has_text(&rt, rt.alloc(), Reply::Absent, b"NONE\n");
    let exists = Reply::Exists(key(&rt, b"0~"));
    has_text(&rt, rt.alloc(), exists, b"EXISTS 0~\n");
    has_text(&rt, rt.alloc(), Reply::Missing, b"MISSING\n");
    has_text(&rt, rt.alloc(), Reply::Deleted(1000), b"DELETED 1000\n");
    has_text(&rt, rt.alloc(), Reply::Committed(10), b"COMMITTED 10\n");
    has_text(&rt, rt.alloc(), Reply::Aborted, b"ABORTED\n");
    let moved = Reply::Moved(16, u32::MAX);
    has_text(&rt, rt.alloc(), moved, b"MOVED 16 4294967295\n");
    has_text(&rt, rt.alloc(), Reply::MergeDone, b"DONE\n");
    let ended = Reply::Ended(key(&rt, b"k"), 3);
    has_text(&rt, rt.alloc(), ended, b"ENDED k 3\n");
    has_text(&rt, rt.alloc(), Reply::Idle, b"IDLE\n");
    has_text(&rt, rt.alloc(), Reply::Cleaned(0), b"CLEANED 0\n");
    has_text(&rt, rt.alloc(), Reply::NoMark, b"NOMARK\n");
}

#[test]
fn rows_are_one_line(rt: HostRuntime) {
    let none = Reply::Rows(Records::new(Vec::new(rt.alloc())));
    has_text(&rt, rt.alloc(), none, b"ROWS 0\n");
    let rows = vec![in rt.alloc();
        (key(&rt, b"a"), value(&rt, b"1")),
        (key(&rt, b"ab"), value(&rt, b"=2")),
    ];
    let two = Reply::Rows(Records::new(rows.expect(&rt, "memory")));
    has_text(&rt, rt.alloc(), two, b"ROWS 2 a=1 ab==2\n");
}

const REFUSALS: [(Refusal, &[u8]); 10] = [
    (Refusal::NoSuchTx, b"ERR NOTX\n"),
    (Refusal::Busy(3), b"BUSY 3\n"),
    (Refusal::TooManyTx, b"ERR TXS\n"),
    (Refusal::TooManyLocks, b"ERR LOCKS\n"),
    (Refusal::TooManyOps, b"ERR OPS\n"),
    (Refusal::TooManyRuns, b"ERR RUNS\n"),
    (Refusal::NotRising, b"ERR ORDER\n"),
    (Refusal::BadLimit, b"ERR LIMIT\n"),
    (Refusal::NoMemory, b"ERR MEMORY\n"),
    (Refusal::SeatFull, b"ERR FULL\n"),
];

#[test]
fn refusals_have_their_texts(rt: HostRuntime) {
    for (refusal, text) in REFUSALS {
        has_text(&rt, rt.alloc(), Reply::Refused(refusal), text);
    }
}
