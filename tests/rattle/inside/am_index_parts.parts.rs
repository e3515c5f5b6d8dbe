use crate::{Parts, RunFault};
use am_index::Listed;
use am_index_list::{ListIndex, Tight};
use am_record::{HashKey, Key, Value};
use std::test::Fail;

// A load that the index refuses leaves none of its keys, and comes in at the next try.
#[test]
fn a_refused_load_leaves_no_key(rt: HostRuntime) -> Result<(), Fail> {
    let alloc = rt.alloc();
    let index = Tight::new(ListIndex::new(alloc), vec![in alloc; 1]?);
    let mut parts = Parts::new(alloc, index, HashKey::known());
    let value = Value::new(b"a").ok_or("a value")?;
    let keys = [Key::of_u64(3), Key::of_u64(5), Key::of_u64(7)];
    let pairs = keys.map(|key| (key, value));
    let run = Listed { records: &pairs };
    assert!(rt; parts.append_run(&run) == Err(RunFault::NoMemory));
    for key in keys {
        assert!(rt; parts.place_of(key).is_none());
    }
    assert!(rt; parts.append_run(&run) == Ok(()));
    for key in keys {
        assert!(rt; parts.place_of(key) == Some(1));
    }
    Ok(())
}

// More runs than a generation has, each of whose keys is found in its run, and no other.
#[test]
fn keys_are_found_in_their_runs(rt: HostRuntime) -> Result<(), Fail> {
    let alloc = rt.alloc();
    let mut parts = Parts::new(alloc, ListIndex::new(alloc), HashKey::known());
    let value = Value::new(b"a").ok_or("a value")?;
    for run in 0..150 {
        let keys = [3 * run, 3 * run + 1].map(Key::of_u64);
        let pairs = keys.map(|key| (key, value));
        assert!(rt; parts.append_run(&Listed { records: &pairs }) == Ok(()));
    }
    for run in 0..150 {
        assert!(rt; parts.place_of(Key::of_u64(3 * run)) == Some(1 + run as u32));
        assert!(rt; parts.place_of(Key::of_u64(3 * run + 1)) == Some(1 + run as u32));
        assert!(rt; parts.place_of(Key::of_u64(3 * run + 2)).is_none());
    }
    Ok(())
}

// A key of an old run is found by a load, however many generations came after it.
#[test]
fn a_taken_key_of_an_old_run_is_told(rt: HostRuntime) -> Result<(), Fail> {
    let alloc = rt.alloc();
    let mut parts = Parts::new(alloc, ListIndex::new(alloc), HashKey::known());
    let value = Value::new(b"a").ok_or("a value")?;
    for run in 0..150 {
        let pairs = [(Key::of_u64(2 * run), value)];
        assert!(rt; parts.append_run(&Listed { records: &pairs }) == Ok(()));
    }
    let pairs = [1, 2, 3].map(|key| (Key::of_u64(key), value));
    assert!(rt; parts.append_run(&Listed { records: &pairs }) == Err(RunFault::Taken));
    assert!(rt; parts.place_of(Key::of_u64(1)).is_none());
    assert!(rt; parts.runs() == 150);
    Ok(())
}
