use crate::sorted_records::SortedRecords;
use am_record::{Key, Value};

#[test]
fn a_deleted_record_is_not_replaced(rt: HostRuntime) {
    let mut records = SortedRecords::new(rt.alloc());
    let (key, value) = (Key::of_u64(5), Value::new(b"a").unwrap());
    assert!(rt; records.set(key, None).is_ok());
    assert!(rt; !records.replace(key, value));
    assert!(rt; records.get(key).is_none());
}
