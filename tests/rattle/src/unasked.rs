//! What is left to merge where nobody asked.

use crate::entries::{add, dead, live};
use crate::loads::no_entries;
use am_index_list::ListIndex;
use am_index_parts::Parts;
use am_record::{Key, Range, Reply};
use am_store_locks::LockTable;
use am_store_merge::{Wishes, merge_step, next_in_runs};
use std::alloc::Global;
use std::process::Abort;

fn range(rt: &impl Abort, lo: u64, hi: u64) -> Range {
    Range::new(Key::of_u64(lo), Key::of_u64(hi)).expect(rt, "the ends stand in order")
}

// Run 1 with 0, 10 .. 190, run 2 with 1 to 12, run 3 with ghosts of 3, 13 .. 193, and the final partition with 194 to 230.
fn three_runs(rt: &impl Abort, alloc: Global) -> Parts<ListIndex> {
    let mut parts = no_entries(alloc);
    for number in 0..20 {
        add(&mut parts, live(1, number * 10, b'a')).expect(rt, "memory");
        add(&mut parts, dead(3, number * 10 + 3, b'c')).expect(rt, "memory");
    }
    for number in 1..=12 {
        add(&mut parts, live(2, number, b'b')).expect(rt, "memory");
    }
    for number in 194..=230 {
        add(&mut parts, live(0, number, b'd')).expect(rt, "memory");
    }
    parts
}

// The next piece of the range goes up to that key.
fn ends_at(rt: &impl Abort, parts: &Parts<ListIndex>, lo: u64, hi: u64, end: u64) {
    let piece = next_in_runs(parts, range(rt, lo, hi));
    assert!(rt; piece == Some(range(rt, lo, end)), "of {lo} to {hi}");
}

#[test]
fn a_piece_ends_at_the_first_sixteenth_entry(rt: HostRuntime) {
    let parts = three_runs(&rt, rt.alloc());
    // The sixteenth entry of run 1 is 150, that of run 3 is 153, and run 2 has none.
    ends_at(&rt, &parts, 0, 500, 150);
    ends_at(&rt, &parts, 0, 150, 150);
    ends_at(&rt, &parts, 0, 149, 149);
    // From 1 on that of run 3 comes first, and run 1 has its own at 160.
    ends_at(&rt, &parts, 1, 500, 153);
    ends_at(&rt, &parts, 5, 500, 160);
    ends_at(&rt, &parts, 151, 500, 500);
}

#[test]
fn there_is_a_piece_while_a_run_has_something(rt: HostRuntime) {
    let parts = three_runs(&rt, rt.alloc());
    ends_at(&rt, &parts, 191, 193, 193);
    ends_at(&rt, &parts, 190, 190, 190);
    for (lo, hi) in [(191, 192), (14, 19), (194, 500)] {
        assert!(rt;
            next_in_runs(&parts, range(&rt, lo, hi)).is_none(),
            "of {lo} to {hi}"
        );
    }
    let none = no_entries(rt.alloc());
    assert!(rt; next_in_runs(&none, range(&rt, 0, 500)).is_none());
}

#[test]
fn pieces_are_merged_to_the_end(rt: HostRuntime) {
    let alloc = rt.alloc();
    let mut parts = three_runs(&rt, alloc);
    let mut wishes = Wishes::new(alloc).expect(&rt, "memory");
    let locks = LockTable::new(alloc).expect(&rt, "memory");
    let mut ends = [0; 4];
    let mut count = 0;
    let mut lo = 0;
    while let Some(piece) = next_in_runs(&parts, range(&rt, lo, 500)) {
        wishes.wish(piece);
        while !matches!(
            merge_step(&mut parts, &mut wishes, &locks, 16),
            Reply::MergeDone
        ) {}
        ends[count] = number_of(&piece.hi());
        lo = ends[count];
        count += 1;
    }
    assert!(rt; (count, ends) == (2, [150, 500, 0, 0]));
    assert!(rt; parts.figures().in_runs == 0);
}

// The number of a key.
fn number_of(key: &Key) -> u64 {
    let mut bytes = [0; 8];
    bytes.copy_from_slice(key.bytes());
    u64::from_be_bytes(bytes)
}
