//! Structs of a caller in C.

use am_c_steps::{Layout, Status, Structs, structs_asked};
use am_record::{Key, Value};
use am_store_runs::{RecordSource, cut_source};
use std::alloc::Global;
use std::test::Fail;

// Three structs: a byte that is none of a record's, a key of two, and a value of one.
const THREE: &[u8] = b"-caX-abY-bcZ";

const LAYOUT: Layout = Layout {
    size: 4,
    key_at: 1,
    key_length: 2,
    value_at: 3,
    value_length: 1,
};

// Structs of no bytes, whose keys and values are empty.
const NOTHING: Layout = Layout {
    size: 0,
    key_at: 0,
    key_length: 0,
    value_at: 0,
    value_length: 0,
};

fn record(key: &[u8], value: &[u8]) -> (Key, Value) {
    (Key::new(key).unwrap(), Value::new(value).unwrap())
}

// Of structs that aren't read where they lie: how many pairs are made of them, or the status.
fn made(
    alloc: Global,
    structs: &[u8],
    count: usize,
    layout: &Layout,
) -> Option<Result<usize, u32>> {
    if Structs::whole(structs, count, layout).is_some() {
        return None;
    }
    match structs_asked(alloc, structs, count, layout) {
        Ok(pairs) => Some(Ok(pairs.as_slice().len())),
        Err(why) => Some(Err(why.code())),
    }
}

#[test]
fn whole_structs_are_read_where_they_lie(rt: HostRuntime) -> Result<(), Fail> {
    let due = [
        record(b"ca", b"X"),
        record(b"ab", b"Y"),
        record(b"bc", b"Z"),
    ];
    for count in 0..=3 {
        let structs = Structs::whole(THREE, count, &LAYOUT).unwrap();
        assert_eq!(rt; structs.len(), count);
        for at in 0..count {
            assert!(rt; structs.key(at) == due[at].0 && structs.get(at) == due[at]);
        }
    }
    let all = Structs::whole(THREE, 3, &LAYOUT).unwrap();
    let mut runs = cut_source(rt.alloc(), &all, 2).expect(&rt, "memory");
    for records in [[due[1], due[0]].as_slice(), &[due[2]]] {
        let run = runs.run().expect(&rt, "a run").to_run(rt.alloc());
        assert!(rt; matches!(&run, Ok(run) if run.records() == records));
        runs.pass();
    }
    assert!(rt; runs.run().is_none());
    let pairs = structs_asked(rt.alloc(), THREE, 3, &LAYOUT);
    assert!(rt; matches!(&pairs, Ok(pairs) if pairs.as_slice() == due.as_slice()));
    Ok(())
}

#[test]
fn a_key_and_a_value_may_be_the_whole_struct(rt: HostRuntime) -> Result<(), Fail> {
    let layout = Layout {
        size: 64,
        key_at: 32,
        key_length: 32,
        value_at: 0,
        value_length: 64,
    };
    let bytes = [7; 128];
    let structs = Structs::whole(&bytes, 2, &layout).unwrap();
    assert!(rt; structs.get(1) == record(&[7; 32], &[7; 64]));
    Ok(())
}

#[test]
fn structs_that_are_not_there_are_bad(rt: HostRuntime) -> Result<(), Fail> {
    let (bad_key, bad_value) = (
        Some(Err(Status::BadKey.code())),
        Some(Err(Status::BadValue.code())),
    );
    let no_memory = Some(Err(Status::NoMemory.code()));
    // The last one is cut short, behind its key and in it; or there is none.
    assert!(rt; made(rt.alloc(), &THREE[..11], 3, &LAYOUT) == bad_value);
    assert!(rt; made(rt.alloc(), &THREE[..10], 3, &LAYOUT) == bad_key);
    assert!(rt; made(rt.alloc(), THREE, 4, &LAYOUT) == bad_key);
    // So many have the bytes of one, by a product that wraps.
    assert!(rt; made(rt.alloc(), THREE, (1 << 62) + 1, &LAYOUT) == no_memory);
    // What lies behind the struct, or is too long.
    let mut layout = LAYOUT;
    layout.value_at = 4;
    assert!(rt; made(rt.alloc(), THREE, 1, &layout) == bad_value);
    layout.key_at = usize::MAX;
    assert!(rt; made(rt.alloc(), THREE, 1, &layout) == bad_key);
    Ok(())
}

#[test]
fn structs_of_no_bytes_are_never_read_where_they_lie(rt: HostRuntime) -> Result<(), Fail> {
    for count in 0..3 {
        assert!(rt; made(rt.alloc(), THREE, count, &NOTHING) == Some(Ok(count)));
    }
    assert!(rt;
        made(rt.alloc(), THREE, usize::MAX, &NOTHING) == Some(Err(Status::NoMemory.code()))
    );
    Ok(())
}
