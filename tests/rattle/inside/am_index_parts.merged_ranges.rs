use crate::merged_ranges::union;
use am_record::{Key, Range};

fn range(lo: u64, hi: u64) -> Range {
    Range::new(Key::of_u64(lo), Key::of_u64(hi)).unwrap()
}

#[test]
fn ranges_that_meet_become_one(rt: HostRuntime) {
    assert!(rt; union(range(1, 5), range(5, 9)) == Some(range(1, 9)));
    assert!(rt; union(range(1, 4), range(6, 9)).is_none());
}
