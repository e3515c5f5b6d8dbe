//! Scans and cursors.

use crate::entries::{add, byte, dead, live, over};
use am_index::{Hint, Listed, PartIndex};
use am_index_btree::BTree;
use am_index_list::ListIndex;
use am_index_parts::Parts;
use am_record::{Entry, HashKey, Key, NoMemory, Range, Value};
use am_store_scan::{Cursor, scan, scan_back};
use std::alloc::Global;
use std::process::Abort;

fn row(number: u64, value: u8) -> (Key, Value) {
    (Key::of_u64(number), byte(value))
}

// The key of a text, or the least one where it is too long.
fn named(text: &[u8]) -> Key {
    Key::new(text).unwrap_or(Key::least())
}

fn range(rt: &impl Abort, lo: u64, hi: u64) -> Range {
    Range::new(Key::of_u64(lo), Key::of_u64(hi)).expect(rt, "in order")
}

// The rows the other way round.
fn turned(rt: &impl Abort, alloc: Global, rows: &[(Key, Value)]) -> Vec<(Key, Value)> {
    let mut turned = Vec::new(alloc);
    for row in rows.iter().rev() {
        turned.push(*row).expect(rt, "memory");
    }
    turned
}

// A scan back has these rows. Where memory was refused it is asked again, since nothing was changed.
fn scans_back<I: PartIndex + Drop>(
    rt: &impl Abort,
    alloc: Global,
    parts: &Parts<I>,
    range: Range,
    max: u64,
    rows: &[(Key, Value)],
) {
    let found = match scan_back(alloc, parts, range, max) {
        Ok(found) => found,
        Err(NoMemory) => scan_back(alloc, parts, range, max).expect(rt, "memory"),
    };
    assert!(rt; found.as_slice() == rows);
}

// A scan has these rows. Where memory was refused it is asked again, since nothing was changed.
fn scans<I: PartIndex + Drop>(
    rt: &impl Abort,
    alloc: Global,
    parts: &Parts<I>,
    range: Range,
    max: u64,
    rows: &[(Key, Value)],
) {
    let found = match scan(alloc, parts, range, max) {
        Ok(found) => found,
        Err(NoMemory) => scan(alloc, parts, range, max).expect(rt, "memory"),
    };
    assert!(rt; found.as_slice() == rows);
}

// A cursor before the first record of the range. Where memory was refused it is opened again.
fn opened<'a, I: PartIndex + Drop>(
    rt: &impl Abort,
    alloc: Global,
    parts: &'a Parts<I>,
    range: Range,
) -> Cursor<'a, I> {
    match Cursor::open(alloc, parts, range) {
        Ok(cursor) => cursor,
        Err(NoMemory) => Cursor::open(alloc, parts, range).expect(rt, "memory"),
    }
}

// The cursor's next record.
fn reads<I: PartIndex + Drop>(
    rt: &impl Abort,
    cursor: &mut Cursor<'_, I>,
    row: Option<(Key, Value)>,
) {
    assert!(rt; cursor.next() == row);
}

// Each of the first numbers is live in one of three partitions, and a ghost in the next one.
fn striped(rt: &impl Abort, alloc: Global, count: u32) -> Parts<ListIndex> {
    let mut parts = Parts::new(alloc, ListIndex::new(alloc), HashKey::known());
    for number in 0..count {
        let key = u64::from(number);
        add(&mut parts, live(number % 3, key, b'a')).expect(rt, "memory");
        add(&mut parts, dead((number % 3) + 1, key, b'b')).expect(rt, "memory");
    }
    parts
}

#[test]
fn scan_reads_every_partition(rt: HostRuntime) {
    let entries = [
        live(0, 1, b'c'),
        dead(1, 1, b'a'),
        dead(1, 2, b'b'),
        live(2, 2, b'd'),
    ];
    let parts = over(&rt, rt.alloc(), &entries);
    let all = range(&rt, 0, 9);
    let rows = [row(1, b'c'), row(2, b'd')];
    scans(&rt, rt.alloc(), &parts, all, 9, &rows);
    scans(&rt, rt.alloc(), &parts, all, 1, &[row(1, b'c')]);
}

#[test]
fn scan_back_reads_every_partition(rt: HostRuntime) {
    let entries = [
        live(0, 1, b'c'),
        dead(1, 1, b'a'),
        dead(1, 2, b'b'),
        live(2, 2, b'd'),
        dead(2, 3, b'e'),
    ];
    let parts = over(&rt, rt.alloc(), &entries);
    let all = range(&rt, 0, 9);
    let rows = [row(2, b'd'), row(1, b'c')];
    scans_back(&rt, rt.alloc(), &parts, all, 9, &rows);
    scans_back(&rt, rt.alloc(), &parts, all, 1, &[row(2, b'd')]);
    scans_back(&rt, rt.alloc(), &parts, all, 0, &[]);
    let one = range(&rt, 1, 1);
    scans_back(&rt, rt.alloc(), &parts, one, 9, &[row(1, b'c')]);
    scans_back(&rt, rt.alloc(), &parts, range(&rt, 3, 3), 9, &[]);
    scans_back(&rt, rt.alloc(), &parts, range(&rt, 4, 8), 9, &[]);
}

#[test]
fn scan_back_keeps_to_its_range(rt: HostRuntime) {
    let entries = [
        live(0, 2, b'a'),
        live(0, 3, b'b'),
        live(0, 7, b'c'),
        live(1, 1, b'd'),
        live(1, 5, b'e'),
        live(3, 8, b'f'),
    ];
    let parts = over(&rt, rt.alloc(), &entries);
    let inner = [row(7, b'c'), row(5, b'e'), row(3, b'b')];
    scans_back(&rt, rt.alloc(), &parts, range(&rt, 3, 7), 9, &inner);
    scans_back(&rt, rt.alloc(), &parts, range(&rt, 3, 7), 2, &inner[..2]);
    scans_back(&rt, rt.alloc(), &parts, range(&rt, 6, 6), 9, &[]);
    scans_back(&rt, rt.alloc(), &parts, range(&rt, 9, 20), 9, &[]);
}

#[test]
fn scan_back_of_nothing(rt: HostRuntime) {
    let parts = over(&rt, rt.alloc(), &[]);
    scans_back(&rt, rt.alloc(), &parts, range(&rt, 0, 9), 9, &[]);
    let parts = over(&rt, rt.alloc(), &[dead(0, 1, b'a'), dead(2, 1, b'b')]);
    scans_back(&rt, rt.alloc(), &parts, range(&rt, 0, 9), 9, &[]);
}

#[test]
fn scan_cuts_after_sorting(rt: HostRuntime) {
    let entries = [live(1, 5, b'e'), live(0, 9, b'z'), live(2, 3, b'd')];
    let parts = over(&rt, rt.alloc(), &entries);
    let rows = [row(3, b'd'), row(5, b'e')];
    scans(&rt, rt.alloc(), &parts, range(&rt, 0, 9), 2, &rows);
}

#[test]
fn scan_keeps_to_its_range(rt: HostRuntime) {
    let entries = [
        live(0, 2, b'a'),
        live(0, 3, b'b'),
        live(0, 7, b'c'),
        live(1, 1, b'd'),
        live(1, 5, b'e'),
        live(3, 8, b'f'),
    ];
    let parts = over(&rt, rt.alloc(), &entries);
    let inner = [row(3, b'b'), row(5, b'e'), row(7, b'c')];
    scans(&rt, rt.alloc(), &parts, range(&rt, 3, 7), 9, &inner);
    scans(&rt, rt.alloc(), &parts, range(&rt, 6, 6), 9, &[]);
    scans(&rt, rt.alloc(), &parts, range(&rt, 9, 20), 9, &[]);
}

// The entry of a text in a run.
fn of_text(text: &[u8], value: u8) -> Entry {
    Entry {
        part: 1,
        key: named(text),
        value: byte(value),
        is_ghost: false,
    }
}

#[test]
fn scan_goes_by_the_order_of_strings(rt: HostRuntime) {
    let entries = [
        of_text(b"a", b'1'),
        of_text(b"ab", b'2'),
        of_text(b"b", b'3'),
    ];
    let parts = over(&rt, rt.alloc(), &entries);
    let (a, ab) = (named(b"a"), named(b"ab"));
    let from_a = Range::new(a, named(b"az")).expect(&rt, "in order");
    let rows = [(a, byte(b'1')), (ab, byte(b'2'))];
    scans(&rt, rt.alloc(), &parts, from_a, 9, &rows);
    let from_capital = Range::new(named(b"B"), a).expect(&rt, "in order");
    scans(&rt, rt.alloc(), &parts, from_capital, 9, &[(a, byte(b'1'))]);
}

#[test]
fn a_cursor_over_all_partitions(rt: HostRuntime) {
    let entries = [
        live(0, 1, b'c'),
        dead(1, 1, b'a'),
        dead(1, 2, b'b'),
        live(2, 2, b'd'),
    ];
    let parts = over(&rt, rt.alloc(), &entries);
    let mut cursor = opened(&rt, rt.alloc(), &parts, range(&rt, 0, 9));
    for row in [Some(row(1, b'c')), Some(row(2, b'd')), None, None] {
        reads(&rt, &mut cursor, row);
    }
}

#[test]
fn a_dropped_cursor_changes_nothing(rt: HostRuntime) {
    let entries = [live(0, 1, b'c'), dead(1, 1, b'a'), live(2, 2, b'd')];
    let parts = over(&rt, rt.alloc(), &entries);
    let mut cursor = opened(&rt, rt.alloc(), &parts, range(&rt, 0, 9));
    reads(&rt, &mut cursor, Some(row(1, b'c')));
    drop(cursor);
    for entry in entries {
        let stands = Some((entry.value, entry.is_ghost));
        assert!(rt; parts.find(entry.part, entry.key) == stands);
    }
}

#[test]
fn a_cursor_reads_on_in_every_partition(rt: HostRuntime) {
    let parts = striped(&rt, rt.alloc(), 60);
    let mut cursor = opened(&rt, rt.alloc(), &parts, range(&rt, 1, 57));
    for number in 1..58 {
        reads(&rt, &mut cursor, Some(row(number, b'a')));
    }
    reads(&rt, &mut cursor, None);
}

#[test]
fn partitions_with_entries_are_told_in_turn(rt: HostRuntime) {
    let entries = [live(0, 1, b'a'), dead(3, 1, b'b'), live(7, 2, b'c')];
    let parts = over(&rt, rt.alloc(), &entries);
    for (from, part) in [(0, Some(0)), (1, Some(3)), (4, Some(7)), (8, None)] {
        assert!(rt; parts.next_part(from) == part);
    }
}

// How many numbers stand in the runs of the tests below.
const NUMBERS: u64 = 1200;

// The numbers are dealt to so many runs, or cut into them one after another; every fifth is marked as deleted.
fn dealt(rt: &impl Abort, alloc: Global, runs: u64, in_turn: bool) -> Parts<BTree> {
    let tree = BTree::new(alloc).expect(rt, "memory");
    let mut parts = Parts::new(alloc, tree, HashKey::known());
    for run in 0..runs {
        let mut pairs = Vec::new(alloc);
        for number in 0..NUMBERS {
            let home = if in_turn {
                number % runs
            } else {
                number * runs / NUMBERS
            };
            if home == run {
                pairs.push(row(number, b'a')).expect(rt, "memory");
            }
        }
        let run = Listed { records: &pairs };
        if parts.append_run(&run).is_err() {
            parts.append_run(&run).expect(rt, "memory");
        }
        for pair in &pairs {
            let part = parts.runs();
            if pair.0.front().is_multiple_of(5) {
                parts.set(part, pair.0, byte(b'g'), true, Hint::none());
            }
        }
    }
    parts
}

// The rows of a scan from that number on: of the numbers that aren't marked, the first ones.
fn first_numbers(rt: &impl Abort, alloc: Global, lo: u64, hi: u64, max: u64) -> Vec<(Key, Value)> {
    let mut rows = Vec::new(alloc);
    for number in lo..NUMBERS.min(hi + 1) {
        if number % 5 != 0 && (rows.len() as u64) < max {
            rows.push(row(number, b'a')).expect(rt, "memory");
        }
    }
    rows
}

// The rows of a scan back up to that number: of the numbers that aren't marked, the last ones.
fn last_numbers(rt: &impl Abort, alloc: Global, lo: u64, hi: u64, max: u64) -> Vec<(Key, Value)> {
    let mut rows = turned(rt, alloc, &first_numbers(rt, alloc, lo, hi, NUMBERS));
    rows.truncate(max as usize);
    rows
}

// Scans of many limits give the first numbers, and scans back the last ones, in however many runs these stand.
fn scans_by_limit(rt: &impl Abort, alloc: Global, runs: u64) {
    for in_turn in [true, false] {
        let parts = dealt(rt, alloc, runs, in_turn);
        for (lo, hi) in [(0, NUMBERS), (17, 18), (600, 900), (1190, NUMBERS)] {
            for max in [1, 2, 3, 10, 64, 65, 100, 999, 1000] {
                let rows = first_numbers(rt, alloc, lo, hi, max);
                scans(rt, alloc, &parts, range(rt, lo, hi), max, &rows);
                let rows = last_numbers(rt, alloc, lo, hi, max);
                scans_back(rt, alloc, &parts, range(rt, lo, hi), max, &rows);
            }
        }
    }
}

#[test]
fn scans_of_any_limit_over_a_few_runs(rt: HostRuntime) {
    for runs in [1, 2, 3, 5] {
        scans_by_limit(&rt, rt.alloc(), runs);
    }
}

#[test]
fn scans_of_any_limit_over_many_runs(rt: HostRuntime) {
    for runs in [16, 40, 300] {
        scans_by_limit(&rt, rt.alloc(), runs);
    }
}
