//! Records and texts of a caller in C, read where they lie.

use am_c_steps::{GivenLines, GivenRecords, KeyText, Record, Status, ValueText};
use am_record::{Key, Value};
use am_store_runs::{RecordSource, cut_source};
use std::alloc::Global;
use std::test::Fail;

fn record(key: &[u8], value: &[u8]) -> (Key, Value) {
    (Key::new(key).unwrap(), Value::new(value).unwrap())
}

// A record as C holds it, of which so many bytes are said to be its key and its value.
fn held(byte: u8, key: usize, value: usize) -> Record {
    Record {
        key: KeyText {
            len: key,
            bytes: [byte; 32],
        },
        value: ValueText {
            len: value,
            bytes: [byte; 64],
        },
    }
}

#[test]
fn records_of_c_are_read_where_they_lie(rt: HostRuntime) -> Result<(), Fail> {
    let records = [held(b'b', 2, 0), held(b'a', 32, 64), held(b'c', 0, 1)];
    let given = GivenRecords::new(&records).ok().expect(&rt, "records");
    assert_eq!(rt; given.len(), 3);
    let due = [
        record(b"bb", b""),
        record(&[b'a'; 32], &[b'a'; 64]),
        record(b"", b"c"),
    ];
    for at in 0..3 {
        assert!(rt; given.key(at) == due[at].0 && given.get(at) == due[at]);
    }
    let runs = cut_source(rt.alloc(), &given, 3).ok().expect(&rt, "memory");
    let run = runs.run().expect(&rt, "a run").to_run(rt.alloc());
    assert!(rt; matches!(&run, Ok(run) if run.records() == [due[2], due[1], due[0]].as_slice()));
    // The first that isn't one is told, its key before its value.
    for (records, status) in [
        ([held(b'a', 1, 65), held(b'b', 33, 1)], Status::BadValue),
        ([held(b'a', 33, 65), held(b'b', 1, 65)], Status::BadKey),
        ([held(b'a', 1, 1), held(b'b', 33, 65)], Status::BadKey),
    ] {
        assert!(rt; matches!(GivenRecords::new(&records), Err(why) if why.code() == status.code()));
    }
    assert_eq!(rt; GivenRecords::new(&[]).ok().expect(&rt, "none").len(), 0);
    Ok(())
}

// How many records a text has, or the status and the number of its first line that is none.
fn read(alloc: Global, text: &[u8]) -> Result<usize, (u32, u64)> {
    let mut line = 7;
    match GivenLines::read(alloc, text, &mut line) {
        Ok(given) => {
            if line != 0 {
                return Err((0, line));
            }
            Ok(given.len())
        }
        Err(why) => Err((why.code(), line)),
    }
}

#[test]
fn lines_are_read_where_they_lie(rt: HostRuntime) -> Result<(), Fail> {
    let mut line = 7;
    let given = GivenLines::read(rt.alloc(), b"cow\t3\r\n\t\nant\t6\tx\nbee\t", &mut line);
    let given = given.ok().expect(&rt, "lines");
    assert_eq!(rt; line, 0);
    assert_eq!(rt; given.len(), 4);
    let due = [
        record(b"cow", b"3\r"),
        record(b"", b""),
        record(b"ant", b"6\tx"),
        record(b"bee", b""),
    ];
    for at in 0..4 {
        assert!(rt; given.key(at) == due[at].0 && given.get(at) == due[at]);
    }
    let runs = cut_source(rt.alloc(), &given, 4).ok().expect(&rt, "memory");
    let run = runs.run().expect(&rt, "a run").to_run(rt.alloc());
    assert!(rt;
        matches!(&run, Ok(run) if run.records() == [due[1], due[2], due[3], due[0]].as_slice())
    );
    let bad_line = Status::BadLine.code();
    assert!(rt; read(rt.alloc(), b"") == Ok(0));
    assert!(rt; read(rt.alloc(), b"a\t1\n") == Ok(1));
    assert!(rt; read(rt.alloc(), b"a\t1\n\nb\t2\n") == Err((bad_line, 2)));
    assert!(rt; read(rt.alloc(), b"a 1\n") == Err((bad_line, 1)));
    assert!(rt;
        read(rt.alloc(), b"a\t1\nabcdefghijklmnopqrstuvwxyz0123456\t1")
            == Err((Status::BadKey.code(), 2))
    );
    Ok(())
}
