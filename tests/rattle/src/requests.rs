//! What lines ask for.

use crate::keys::{key, range, value};
use am_line_text::LineFault;
use am_line_wire::{Request, WhichSessions, parse_line};
use am_record::{Lock, Mode, Op, Records};
use std::alloc::Global;
use std::process::Abort;

const LONGEST_KEY: &[u8] = b"aaaaaaaaaaaaaaaaaaaaaaaaaaaaaaaa";

/// Reads the line; once more where memory was refused.
fn read(alloc: Global, line: &[u8]) -> Result<Request, LineFault> {
    match parse_line(alloc, line) {
        Err(LineFault::NoMemory) => parse_line(alloc, line),
        read => read,
    }
}

fn asks(rt: &impl Abort, alloc: Global, line: &[u8], request: Request) {
    assert!(rt; read(alloc, line) == Ok(request), "{line:?}");
}

#[test]
fn lines_of_a_word_or_a_key_are_read(rt: HostRuntime) {
    let alloc = rt.alloc();
    asks(&rt, alloc, b"BEGIN", Request::Begin);
    asks(&rt, alloc, b"MARK", Request::Do(Op::Mark));
    asks(&rt, alloc, b"BACK", Request::Do(Op::Back));
    asks(&rt, alloc, b"COMMIT", Request::Commit);
    asks(&rt, alloc, b"ABORT", Request::Abort);
    asks(&rt, alloc, b"SEEN", Request::Seen);
    asks(&rt, alloc, b"HOLD 60001", Request::Hold(60_001));
    asks(&rt, alloc, b"WHO", Request::Who(WhichSessions::Active));
    asks(&rt, alloc, b"WHO ALL", Request::Who(WhichSessions::All));
    asks(
        &rt,
        alloc,
        b"END 18446744073709551615",
        Request::End(u64::MAX),
    );
    asks(&rt, alloc, b"QUIT", Request::Quit);
    let get = Op::Get(key(&rt, b"05"));
    asks(&rt, alloc, b"GET 05", Request::Do(get));
    let get = Op::Get(key(&rt, b"!~;<>?"));
    asks(&rt, alloc, b"GET !~;<>?", Request::Do(get));
    let delete = Op::Delete(key(&rt, LONGEST_KEY));
    let line = b"DEL aaaaaaaaaaaaaaaaaaaaaaaaaaaaaaaa";
    asks(&rt, alloc, line, Request::Do(delete));
}

#[test]
fn lines_of_records_ranges_and_numbers_are_read(rt: HostRuntime) {
    let (alloc, five, a) = (rt.alloc(), key(&rt, b"5"), value(&rt, b"a=!~"));
    let range = range(&rt, b"10", b"9");
    let insert = Op::Insert(five, a);
    asks(&rt, alloc, b"INS 5 a=!~", Request::Do(insert));
    let replace = Op::Replace(five, a);
    asks(&rt, alloc, b"REP 5 a=!~", Request::Do(replace));
    let set = Op::Set(five, a);
    asks(&rt, alloc, b"SET 5 a=!~", Request::Do(set));
    let scan = Op::Scan(range, 0);
    asks(&rt, alloc, b"SCAN 10 9 0", Request::Do(scan));
    let scan = Op::ScanBack(range, u64::MAX);
    asks(
        &rt,
        alloc,
        b"RSCAN 10 9 18446744073709551615",
        Request::Do(scan),
    );
    let delete = Op::DeleteRange(range, 1);
    asks(&rt, alloc, b"DELR 10 9 1", Request::Do(delete));
    let mode = Mode::Shared;
    let lock = Op::Lock(Lock { mode, range });
    asks(&rt, alloc, b"LOCK S 10 9", Request::Do(lock));
    let mode = Mode::Exclusive;
    let lock = Op::Lock(Lock { mode, range });
    asks(&rt, alloc, b"LOCK X 10 9", Request::Do(lock));
    let merge = Request::Merge(u64::MAX);
    asks(&rt, alloc, b"MERGE 18446744073709551615", merge);
    asks(&rt, alloc, b"CLEAN 10 9 64", Request::Clean(range, 64));
}

#[test]
fn records_are_in_the_order_of_their_line(rt: HostRuntime) {
    let alloc = rt.alloc();
    let (nine, ten) = (key(&rt, b"9"), key(&rt, b"10"));
    let one = vec![in alloc; (nine, value(&rt, b"=="))];
    let load = Op::Load(Records::new(one.expect(&rt, "memory")));
    asks(&rt, alloc, b"LOAD 9===", Request::Do(load));
    let three = vec![in alloc;
        (nine, value(&rt, b"y")),
        (ten, value(&rt, b"x")),
        (nine, value(&rt, b"z")),
    ];
    let load = Op::Load(Records::new(three.expect(&rt, "memory")));
    asks(&rt, alloc, b"LOAD 9=y 10=x 9=z", Request::Do(load));
    let two = vec![in alloc; (nine, value(&rt, b"=")), (ten, value(&rt, b"x"))];
    let stage = Request::Stage(Records::new(two.expect(&rt, "memory")));
    asks(&rt, alloc, b"STAGE 9== 10=x", stage);
}

#[test]
fn lines_of_no_form(rt: HostRuntime) {
    for line in [
        b"".as_slice(),
        b" ",
        b"get 5",
        b"GET",
        b"GET 5 ",
        b"GET  5",
        b" GET 5",
        b"GET a=b",
        b"GET a\0",
        b"GET \xFF",
        b"GET \x7F",
        b"INS 5",
        b"INS 5 a b",
        b"INS aaaaaaaaaaaaaaaaaaaaaaaaaaaaaaaaa ",
        b"BEGIN\t",
        b"BEGIN 1",
        b"SET 5",
        b"SETS 5 a",
        b"SCAN 1 9",
        b"RSCAN 1 9",
        b"RSCA 1 9 5",
        b"DELR 1 9 05",
        b"DELR 1",
        b"SCAN 9 1 05",
        b"SCAN 1 9 +5",
        b"LOCK 1 9",
        b"LOCK x 1 9",
        b"MERGE",
        b"MERGE -1",
        b"LOAD",
        b"LOAD 1",
        b"LOAD =a",
        b"LOAD 1=",
        b"LOAD 1=a ",
        b"LOAD aaaaaaaaaaaaaaaaaaaaaaaaaaaaaaaaa=a 2",
        b"STAGE",
        b"STAGE 1=a  2=b",
        b"QUITX",
    ] {
        assert!(rt;
            read(rt.alloc(), line) == Err(LineFault::Syntax),
            "{line:?}"
        );
    }
}

#[test]
fn lines_out_of_bounds(rt: HostRuntime) {
    let mut insert = [b'a'; 71];
    insert[..6].copy_from_slice(b"INS 1 ");
    let mut get = [b'9'; 4096];
    get[..4].copy_from_slice(b"GET ");
    for line in [
        insert.as_slice(),
        get.as_slice(),
        b"DEL aaaaaaaaaaaaaaaaaaaaaaaaaaaaaaaaa",
        b"SCAN 9 3 1",
        b"SCAN 3 9 18446744073709551616",
        b"LOCK S b a",
        b"MERGE 99999999999999999999999",
        b"CLEAN a B 1",
        b"LOAD 1=a aaaaaaaaaaaaaaaaaaaaaaaaaaaaaaaaa=b 2=c",
        b"STAGE 1=a aaaaaaaaaaaaaaaaaaaaaaaaaaaaaaaaa=b 2=c",
    ] {
        assert!(rt; read(rt.alloc(), line) == Err(LineFault::Range), "{line:?}");
    }
}
