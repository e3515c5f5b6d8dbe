//! The index that is a list.

use crate::entries::{byte, dead, live};
use am_index::{Batch, Hint, PartIndex};
use am_index_list::ListIndex;
use am_record::{Entry, Key, NoMemory, Range, Value};
use std::alloc::Global;
use std::process::Abort;

// Adds the entry, unless its place is taken.
fn add<I: PartIndex>(index: &mut I, entry: Entry) -> Result<(), NoMemory> {
    if index.find(entry.part, entry.key).is_none() {
        index.insert(entry, Hint::none())?;
    }
    Ok(())
}

// Takes the entry of the place out, where one stands there.
fn take<I: PartIndex>(index: &mut I, part: u32, key: Key) -> Option<Entry> {
    if index.find(part, key).is_none() {
        return None;
    }
    Some(index.remove(part, key))
}

// An index with the entries. (A test whose parts borrow what it holds is proved sooner than a long one.)
fn of(rt: &impl Abort, alloc: Global, entries: &[Entry]) -> ListIndex {
    let mut index = ListIndex::new(alloc);
    for entry in entries {
        add(&mut index, *entry).expect(rt, "memory");
    }
    index
}

fn finds_entries(rt: &impl Abort, index: &ListIndex) {
    assert!(rt; index.find(0, Key::of_u64(5)) == Some((byte(b'g'), true)));
    assert!(rt; index.find(1, Key::of_u64(5)) == Some((byte(b'd'), false)));
    assert!(rt; index.find(0, Key::of_u64(1)).is_none());
}

fn walks_from_a_key(rt: &impl Abort, index: &ListIndex) {
    assert!(rt; index.next_from(0, Key::least()) == Some(live(0, 2, b'a')));
    assert!(rt; index.next_from(0, Key::of_u64(3)) == Some(dead(0, 5, b'g')));
    assert!(rt; index.next_from(0, Key::of_u64(5)) == Some(dead(0, 5, b'g')));
    assert!(rt; index.next_from(0, Key::of_u64(6)).is_none());
    assert!(rt; index.next_from(2, Key::least()).is_none());
}

fn walks_behind_a_key(rt: &impl Abort, index: &ListIndex) {
    assert!(rt; index.after(0, Key::of_u64(2)) == Some(dead(0, 5, b'g')));
    assert!(rt; index.after(0, Key::of_u64(5)).is_none());
    assert!(rt; index.after(1, Key::of_u64(1)) == Some(live(1, 5, b'd')));
}

fn walks_into_the_next_partition(rt: &impl Abort, index: &ListIndex) {
    assert!(rt; index.next_any(0, Key::of_u64(3)) == Some(dead(0, 5, b'g')));
    assert!(rt; index.next_any(0, Key::of_u64(6)) == Some(live(1, 1, b'c')));
    assert!(rt; index.next_any(1, Key::of_u64(6)).is_none());
}

fn walks_over_ghosts(rt: &impl Abort, index: &ListIndex) {
    assert!(rt; index.next_ghost(0, Key::least()) == Some(dead(0, 5, b'g')));
    assert!(rt; index.next_ghost(0, Key::of_u64(5)) == Some(dead(0, 5, b'g')));
    assert!(rt; index.next_ghost(0, Key::of_u64(6)).is_none());
}

#[test]
fn walks_over_two_partitions_and_their_ghosts(rt: HostRuntime) {
    let entries = [
        live(1, 5, b'd'),
        live(0, 2, b'a'),
        dead(0, 5, b'g'),
        live(1, 1, b'c'),
    ];
    let index = of(&rt, rt.alloc(), &entries);
    finds_entries(&rt, &index);
    walks_from_a_key(&rt, &index);
    walks_behind_a_key(&rt, &index);
    walks_into_the_next_partition(&rt, &index);
    walks_over_ghosts(&rt, &index);
}

// The entry of partition 1 with the number, each third one a ghost.
fn numbered(number: u64) -> Entry {
    if number % 3 == 0 {
        dead(1, number, b'g')
    } else {
        live(1, number, b'n')
    }
}

// Whether the batch has the entries with these numbers.
fn has_read(batch: &Batch, numbers: &[u64]) -> bool {
    let entries = batch.entries();
    entries.len() == numbers.len()
        && entries
            .iter()
            .zip(numbers)
            .all(|(e, number)| *e == numbered(*number))
}

// The numbers below 20 in one partition, between entries of two others.
fn of_three_partitions(rt: &impl Abort, alloc: Global) -> ListIndex {
    let mut index = of(rt, alloc, &[live(0, 5, b'a'), live(2, 5, b'z')]);
    for number in 1..20_u64 {
        add(&mut index, numbered(number)).expect(rt, "memory");
    }
    index
}

// Reads on, and then the batch has the entries with these numbers.
fn reads(
    rt: &impl Abort,
    index: &ListIndex,
    batch: &mut Batch,
    part: u32,
    from: Key,
    numbers: &[u64],
) {
    index.read_on(part, from, batch);
    assert!(rt; has_read(batch, numbers));
    assert!(rt; batch.is_full() == (numbers.len() == 16));
}

#[test]
fn reads_on_as_far_as_there_is_room(rt: HostRuntime) {
    let index = of_three_partitions(&rt, rt.alloc());
    let mut batch = Batch::new();
    reads(&rt, &index, &mut batch, 3, Key::least(), &[]);
    reads(&rt, &index, &mut batch, 1, Key::of_u64(17), &[18, 19]);
    let read = [18, 19, 3, 4, 5, 6, 7, 8, 9, 10, 11, 12, 13, 14, 15, 16];
    reads(&rt, &index, &mut batch, 1, Key::of_u64(2), &read);
    reads(&rt, &index, &mut batch, 1, Key::least(), &read);

    batch.clear();
    let first = [1, 2, 3, 4, 5, 6, 7, 8, 9, 10, 11, 12, 13, 14, 15, 16];
    reads(&rt, &index, &mut batch, 1, Key::least(), &first);
}

#[test]
fn reads_from_a_key_on(rt: HostRuntime) {
    let index = of_three_partitions(&rt, rt.alloc());
    let mut batch = Batch::new();
    index.read_from(1, Key::of_u64(17), &mut batch);
    assert!(rt; has_read(&batch, &[17, 18, 19]));
    index.read_from(1, Key::least(), &mut batch);
    let read = [17, 18, 19, 1, 2, 3, 4, 5, 6, 7, 8, 9, 10, 11, 12, 13];
    assert!(rt; has_read(&batch, &read));
}

// The rows behind those that are there have these numbers.
fn copies(
    rt: &impl Abort,
    index: &ListIndex,
    rows: &mut Vec<(Key, Value)>,
    max: u64,
    numbers: &[u64],
) {
    let range = Range::new(Key::of_u64(2), Key::of_u64(9)).expect(rt, "in order");
    assert!(rt; rows.len() as u64 <= max);
    index
        .copy_rows(1, range, max, rows, Hint::none())
        .expect(rt, "memory");
    assert!(rt; rows.len() == numbers.len());
    for (row, number) in rows.iter().zip(numbers) {
        assert!(rt; *row == (Key::of_u64(*number), byte(b'n')));
    }
}

#[test]
fn copies_live_rows_of_one_partition(rt: HostRuntime) {
    let index = of_three_partitions(&rt, rt.alloc());
    let mut rows = Vec::new(rt.alloc());
    copies(&rt, &index, &mut rows, 3, &[2, 4, 5]);
    copies(&rt, &index, &mut rows, 5, &[2, 4, 5, 2, 4]);
    let mut rows = Vec::new(rt.alloc());
    copies(&rt, &index, &mut rows, 99, &[2, 4, 5, 7, 8]);
}

// The same from the highest key down.
fn copies_back(
    rt: &impl Abort,
    index: &ListIndex,
    rows: &mut Vec<(Key, Value)>,
    max: u64,
    numbers: &[u64],
) {
    let range = Range::new(Key::of_u64(2), Key::of_u64(9)).expect(rt, "in order");
    assert!(rt; rows.len() as u64 <= max);
    index
        .copy_rows_back(1, range, max, rows, Hint::none())
        .expect(rt, "memory");
    assert!(rt; rows.len() == numbers.len());
    for (row, number) in rows.iter().zip(numbers) {
        assert!(rt; *row == (Key::of_u64(*number), byte(b'n')));
    }
}

#[test]
fn copies_live_rows_of_one_partition_back(rt: HostRuntime) {
    let index = of_three_partitions(&rt, rt.alloc());
    let mut rows = Vec::new(rt.alloc());
    copies_back(&rt, &index, &mut rows, 1, &[8]);
    copies_back(&rt, &index, &mut rows, 1, &[8]);
    copies_back(&rt, &index, &mut rows, 4, &[8, 8, 7, 5]);
    let mut rows = Vec::new(rt.alloc());
    copies_back(&rt, &index, &mut rows, 99, &[8, 7, 5, 4, 2]);
}

fn has(rt: &impl Abort, index: &ListIndex, entries: &[Entry]) {
    assert!(rt; index.entries() == entries);
}

#[test]
fn edits_the_entry_of_a_place(rt: HostRuntime) {
    has(&rt, &ListIndex::new(rt.alloc()), &[]);
    let entries = [live(1, 5, b'b'), live(0, 5, b'a'), live(1, 7, b'c')];
    let mut index = of(&rt, rt.alloc(), &entries);
    let in_order = [live(0, 5, b'a'), live(1, 5, b'b'), live(1, 7, b'c')];
    has(&rt, &index, &in_order);

    let key = Key::of_u64(5);
    if index.find(1, key).is_some() {
        index.set(1, key, byte(b'x'), true, Hint::none());
    }
    let changed = [live(0, 5, b'a'), dead(1, 5, b'x'), live(1, 7, b'c')];
    has(&rt, &index, &changed);

    assert!(rt; take(&mut index, 1, key) == Some(dead(1, 5, b'x')));
    has(&rt, &index, &[live(0, 5, b'a'), live(1, 7, b'c')]);
    assert!(rt; take(&mut index, 1, key).is_none());
}

// Adds the entry of the number, which is less than all others: where memory is refused, once more.
fn add_below(rt: &impl Abort, index: &mut ListIndex, number: u64) {
    let (key, count) = (Key::of_u64(number), index.entries().len());
    if add(index, live(0, number, b'a')).is_err() {
        assert!(rt; index.entries().len() == count);
        assert!(rt; index.find(0, key).is_none());
        assert!(rt; index.next_from(0, Key::least()) == index.after(0, key));
        add(index, live(0, number, b'a')).expect(rt, "memory");
    }
    assert!(rt; index.next_from(0, Key::least()) == Some(live(0, number, b'a')));
}

#[test]
fn refused_insert_changes_nothing(rt: HostRuntime) {
    let mut index = ListIndex::new(rt.alloc());
    for number in 0..9_u64 {
        assert!(rt; index.entries().len() == number as usize);
        add_below(&rt, &mut index, 20 - number);
        assert!(rt; index.entries().len() == number as usize + 1);
    }
    assert!(rt; index.after(0, Key::of_u64(19)) == Some(live(0, 20, b'a')));
}
