//! Ranges that were merged.

use crate::entries::{add, live};
use crate::loads::{loads_all, no_entries};
use am_index_list::ListIndex;
use am_index_parts::Parts;
use am_record::{Key, Range, Reply};
use am_store_locks::LockTable;
use am_store_merge::{Wishes, merge_step};
use am_store_undo::{Note, UndoLog};
use std::alloc::Global;
use std::process::Abort;

fn range(rt: &impl Abort, lo: u64, hi: u64) -> Range {
    Range::new(Key::of_u64(lo), Key::of_u64(hi)).expect(rt, "the ends stand in order")
}

// Three runs, with the keys 0 to 99, 100 to 199 and 200 to 299.
fn three_runs(rt: &impl Abort, alloc: Global) -> Parts<ListIndex> {
    let mut parts = no_entries(alloc);
    loads_all(rt, alloc, &mut parts, 0, 99, Reply::Done);
    loads_all(rt, alloc, &mut parts, 100, 199, Reply::Done);
    loads_all(rt, alloc, &mut parts, 200, 299, Reply::Done);
    parts
}

// Merges the keys of the range, until no run has one.
fn merge(rt: &impl Abort, alloc: Global, parts: &mut Parts<ListIndex>, lo: u64, hi: u64) {
    let mut wishes = Wishes::new(alloc).expect(rt, "memory");
    let locks = LockTable::new(alloc).expect(rt, "memory");
    wishes.wish(range(rt, lo, hi));
    for _ in 0..20 {
        match merge_step(parts, &mut wishes, &locks, 64) {
            Reply::MergeDone => return,
            Reply::Moved(..) => {}
            _ => panic!(rt; "no such reply is due"),
        }
    }
    panic!(rt; "twenty steps were too few");
}

// Whether a look for entries of the range begins at that run.
fn begins(rt: &impl Abort, parts: &Parts<ListIndex>, lo: u64, hi: u64, run: u32) {
    let first = parts.first_run(range(rt, lo, hi));
    assert!(rt; first == run, "{first} from {lo} to {hi}");
}

#[test]
fn a_look_in_a_merged_range_begins_behind_its_runs(rt: HostRuntime) {
    let alloc = rt.alloc();
    let mut parts = three_runs(&rt, alloc);
    begins(&rt, &parts, 50, 120, 1);
    merge(&rt, alloc, &mut parts, 50, 120);
    begins(&rt, &parts, 50, 120, 4);
    begins(&rt, &parts, 60, 70, 4);
    begins(&rt, &parts, 49, 120, 1);
    begins(&rt, &parts, 50, 121, 1);
    // Ranges that meet become one.
    merge(&rt, alloc, &mut parts, 200, 220);
    merge(&rt, alloc, &mut parts, 110, 150);
    begins(&rt, &parts, 50, 150, 4);
    begins(&rt, &parts, 50, 220, 1);
    merge(&rt, alloc, &mut parts, 140, 210);
    begins(&rt, &parts, 50, 220, 4);
    // What is added to a run by hand is in any range.
    add(&mut parts, live(2, 1_000, b'a')).expect(&rt, "memory");
    begins(&rt, &parts, 60, 70, 1);
}

#[test]
fn many_merged_ranges_are_known(rt: HostRuntime) {
    let alloc = rt.alloc();
    let mut parts = three_runs(&rt, alloc);
    for number in 0..150 {
        // In no order: 7 and 150 have no common divisor.
        let key = number * 7 % 150 * 2;
        merge(&rt, alloc, &mut parts, key, key);
    }
    for number in 0..150 {
        begins(&rt, &parts, number * 2, number * 2, 4);
        begins(&rt, &parts, number * 2, number * 2 + 1, 1);
    }
    // One that has all of them stands in their place.
    merge(&rt, alloc, &mut parts, 0, 299);
    begins(&rt, &parts, 0, 299, 4);
}

#[test]
fn a_range_that_is_merged_in_part_begins_where_something_is_left(rt: HostRuntime) {
    let alloc = rt.alloc();
    let mut parts = three_runs(&rt, alloc);
    let mut wishes = Wishes::new(alloc).expect(&rt, "memory");
    let locks = LockTable::new(alloc).expect(&rt, "memory");
    wishes.wish(range(&rt, 50, 250));
    // The first step works off what run 1 has there, the second ends by its limit within run 2.
    for run in [2, 2, 3, 4] {
        merge_step(&mut parts, &mut wishes, &locks, 64);
        begins(&rt, &parts, 50, 250, run);
    }
}

#[test]
fn of_a_range_that_says_less_the_rest_stays(rt: HostRuntime) {
    let alloc = rt.alloc();
    let mut parts = three_runs(&rt, alloc);
    merge(&rt, alloc, &mut parts, 0, 400);
    loads_all(&rt, alloc, &mut parts, 300, 399, Reply::Done);
    begins(&rt, &parts, 0, 400, 4);
    merge(&rt, alloc, &mut parts, 320, 330);
    begins(&rt, &parts, 320, 330, 5);
    begins(&rt, &parts, 0, 320, 4);
    begins(&rt, &parts, 330, 400, 4);
    merge(&rt, alloc, &mut parts, 310, 399);
    begins(&rt, &parts, 310, 399, 5);
    begins(&rt, &parts, 0, 310, 4);
    begins(&rt, &parts, 399, 400, 4);
}

// Makes the keys from one number to another the next run, and notes it.
fn load_noted(
    rt: &impl Abort,
    alloc: Global,
    parts: &mut Parts<ListIndex>,
    log: &mut UndoLog,
    from: u64,
    to: u64,
) {
    log.reserve_one().expect(rt, "memory");
    loads_all(rt, alloc, parts, from, to, Reply::Done);
    log.note(Note::RunMade(parts.runs()));
}

fn is_in_a_run(parts: &Parts<ListIndex>, number: u64) -> bool {
    parts.live_in_runs(Key::of_u64(number)).is_some()
}

#[test]
fn loads_that_are_taken_back_beside_a_merged_range(rt: HostRuntime) {
    let alloc = rt.alloc();
    let mut parts = three_runs(&rt, alloc);
    merge(&rt, alloc, &mut parts, 0, 400);
    let mut log = UndoLog::new(alloc);
    load_noted(&rt, alloc, &mut parts, &mut log, 300, 349);
    log.mark().expect(&rt, "memory");
    load_noted(&rt, alloc, &mut parts, &mut log, 350, 399);
    begins(&rt, &parts, 0, 400, 4);
    // Back leaves the first of them, and an abort none. Both runs have their ghosts still.
    assert!(rt; log.back(&mut parts));
    begins(&rt, &parts, 0, 400, 4);
    assert!(rt; is_in_a_run(&parts, 300) && !is_in_a_run(&parts, 350));
    log.take_back(&mut parts);
    begins(&rt, &parts, 0, 400, 4);
    assert!(rt; !is_in_a_run(&parts, 300) && !is_in_a_run(&parts, 350));
    // What comes again is looked for, and found.
    loads_all(&rt, alloc, &mut parts, 300, 399, Reply::Done);
    begins(&rt, &parts, 0, 400, 4);
    assert!(rt; is_in_a_run(&parts, 300) && is_in_a_run(&parts, 399));
    merge(&rt, alloc, &mut parts, 0, 400);
    begins(&rt, &parts, 0, 400, 7);
    for number in 0..400 {
        assert!(rt; matches!(parts.find(0, Key::of_u64(number)), Some((_, false))));
    }
}
