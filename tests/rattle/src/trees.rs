//! The tree beside the list, as indexes.

use crate::entries::byte;
use am_index::{Batch, Hint, PartIndex};
use am_index_btree::BTree;
use am_index_list::ListIndex;
use am_record::{Entry, Key, NoMemory, Range, Value};
use std::alloc::Global;
use std::process::Abort;
use std::test::Fail;

// The entry of a number, each third one a ghost.
fn numbered(part: u32, number: u64) -> Entry {
    Entry {
        part,
        key: Key::of_u64(number),
        value: Value::new(&number.to_be_bytes()).unwrap(),
        is_ghost: number % 3 == 0,
    }
}

/// Adds the entry, unless its place is taken, and says whether it did.
pub(crate) fn add<I: PartIndex>(index: &mut I, entry: Entry) -> Result<bool, NoMemory> {
    let (found, hint) = index.look(entry.part, entry.key, Hint::none());
    let is_new = found.is_none();
    if is_new {
        index.insert(entry, hint)?;
    }
    Ok(is_new)
}

// Takes the entry of the place out, where one stands there.
fn take<I: PartIndex>(index: &mut I, part: u32, key: Key) -> Option<Entry> {
    if index.find(part, key).is_none() {
        return None;
    }
    Some(index.remove(part, key))
}

// Two hundred entries of one partition, between entries of two others.
fn fill<I: PartIndex>(rt: &impl Abort, index: &mut I) {
    for number in 0..200_u64 {
        add(index, numbered(1, number)).expect(rt, "memory");
    }
    add(index, numbered(0, 100)).expect(rt, "memory");
    add(index, numbered(2, 100)).expect(rt, "memory");
}

fn batch_from<I: PartIndex>(index: &I, number: u64) -> Batch {
    let mut batch = Batch::new();
    index.read_from(1, Key::of_u64(number), &mut batch);
    batch
}

// So many rows of the partition at most, from one number to another.
fn rows_of<I: PartIndex>(
    rt: &impl Abort,
    alloc: Global,
    index: &I,
    lo: u64,
    hi: u64,
    max: u64,
) -> Vec<(Key, Value)> {
    let range = Range::new(Key::of_u64(lo), Key::of_u64(hi)).expect(rt, "in order");
    let mut rows = Vec::new(alloc);
    index
        .copy_rows(1, range, max, &mut rows, Hint::none())
        .expect(rt, "memory");
    rows
}

// The same from the highest key down.
fn rows_back_of<I: PartIndex>(
    rt: &impl Abort,
    alloc: Global,
    index: &I,
    lo: u64,
    hi: u64,
    max: u64,
) -> Vec<(Key, Value)> {
    let range = Range::new(Key::of_u64(lo), Key::of_u64(hi)).expect(rt, "in order");
    let mut rows = Vec::new(alloc);
    index
        .copy_rows_back(1, range, max, &mut rows, Hint::none())
        .expect(rt, "memory");
    rows
}

// Whether both indexes give the same walks over the partition, of at most so many entries.
fn same_walks<A: PartIndex, B: PartIndex>(a: &A, b: &B, part: u32, most: usize) -> bool {
    let mut at = Key::least();
    for _ in 0..most {
        if a.next_from(part, at) != b.next_from(part, at) {
            return false;
        }
        let next = a.after(part, at);
        if next != b.after(part, at) {
            return false;
        }
        match next {
            Some(entry) => at = entry.key,
            None => return true,
        }
    }
    false
}

// Whether both indexes read the same batch.
fn same_batch<A: PartIndex, B: PartIndex>(a: &A, b: &B, part: u32, key: Key) -> bool {
    let mut batch = Batch::new();
    a.read_on(part, key, &mut batch);
    let mut other = Batch::new();
    b.read_on(part, key, &mut other);
    batch.entries() == other.entries()
}

// The numbers up to 1,008, each once and out of order.
fn scattered(i: u64) -> u64 {
    (7919 * i) % 1_009
}

// Gives both indexes the same inserts. Whether their walks are the same after each hundredth call,
// and after the last.
fn insert_all<A: PartIndex, B: PartIndex>(a: &mut A, b: &mut B) -> Result<bool, NoMemory> {
    for i in 0..1_009_u64 {
        let number = scattered(i);
        add(a, numbered(0, number))?;
        add(b, numbered(0, number))?;
        if (i + 1) % 100 == 0 && !same_walks(a, b, 0, 1_010) {
            return Ok(false);
        }
    }
    Ok(same_walks(a, b, 0, 1_010))
}

// The same with removals, which are to answer alike.
fn remove_all<A: PartIndex, B: PartIndex>(a: &mut A, b: &mut B) -> bool {
    for i in 0..1_009_u64 {
        let key = Key::of_u64(scattered(i));
        if take(a, 0, key) != take(b, 0, key) {
            return false;
        }
        if (1_010 + i) % 100 == 0 && !same_walks(a, b, 0, 1_010) {
            return false;
        }
    }
    same_walks(a, b, 0, 1)
}

#[test]
fn a_tree_reads_from_a_key_as_a_list(rt: HostRuntime) {
    let mut tree = BTree::new(rt.alloc()).expect(&rt, "memory");
    let mut list = ListIndex::new(rt.alloc());
    fill(&rt, &mut tree);
    fill(&rt, &mut list);
    for number in [0, 15, 31, 32, 100, 190, 199, 300] {
        let read = batch_from(&tree, number);
        assert!(rt; read.entries() == batch_from(&list, number).entries());
    }
}

#[test]
fn a_tree_copies_rows_as_a_list(rt: HostRuntime) {
    let mut tree = BTree::new(rt.alloc()).expect(&rt, "memory");
    let mut list = ListIndex::new(rt.alloc());
    fill(&rt, &mut tree);
    fill(&rt, &mut list);
    for (lo, hi, max, count) in [
        (40, 160, 999, 81),
        (40, 160, 20, 20),
        (0, 999, 999, 133),
        (201, 999, 9, 0),
    ] {
        let rows = rows_of(&rt, rt.alloc(), &tree, lo, hi, max);
        assert!(rt; rows.len() == count);
        assert!(rt; rows == rows_of(&rt, rt.alloc(), &list, lo, hi, max));
    }
}

#[test]
fn a_tree_copies_rows_back_as_a_list(rt: HostRuntime) {
    let mut tree = BTree::new(rt.alloc()).expect(&rt, "memory");
    let mut list = ListIndex::new(rt.alloc());
    fill(&rt, &mut tree);
    fill(&rt, &mut list);
    for (lo, hi, max, count) in [
        (40, 160, 999, 81),
        (40, 160, 20, 20),
        (0, 999, 999, 133),
        (0, 999, 1, 1),
        (100, 100, 9, 1),
        (201, 999, 9, 0),
    ] {
        let rows = rows_back_of(&rt, rt.alloc(), &tree, lo, hi, max);
        assert!(rt; rows.len() == count);
        assert!(rt; rows == rows_back_of(&rt, rt.alloc(), &list, lo, hi, max));
        let mut all = rows_of(&rt, rt.alloc(), &tree, lo, hi, 999);
        all.reverse();
        all.truncate(count);
        assert!(rt; rows == all);
    }
}

#[test]
fn inserts_and_removals_beside_a_list(rt: HostRuntime) {
    let mut tree = BTree::new(rt.alloc()).expect(&rt, "memory");
    let mut list = ListIndex::new(rt.alloc());
    assert!(rt; insert_all(&mut tree, &mut list).expect(&rt, "memory"));
    assert!(rt; remove_all(&mut tree, &mut list));
    assert!(rt; tree.next_any(0, Key::least()).is_none());
    assert!(rt; list.next_any(0, Key::least()).is_none());
    add(&mut tree, numbered(0, 5)).expect(&rt, "memory");
    add(&mut list, numbered(0, 5)).expect(&rt, "memory");
    assert!(rt; tree.next_any(0, Key::least()) == Some(numbered(0, 5)));
    assert!(rt; same_walks(&tree, &list, 0, 2));
}

#[test]
fn reads_on_past_the_end_of_a_leaf(rt: HostRuntime) {
    let mut tree = BTree::new(rt.alloc()).expect(&rt, "memory");
    let mut list = ListIndex::new(rt.alloc());
    for number in 0..200_u64 {
        let part = if number < 90 { 1 } else { 2 };
        add(&mut tree, numbered(part, number)).expect(&rt, "memory");
        add(&mut list, numbered(part, number)).expect(&rt, "memory");
    }
    for number in 0..200_u64 {
        assert!(rt; same_batch(&tree, &list, 1, Key::of_u64(number)));
        assert!(rt; same_batch(&tree, &list, 2, Key::of_u64(number)));
    }
    assert!(rt; same_batch(&tree, &list, 3, Key::least()));
}

#[test]
fn refused_insert_changes_nothing(rt: HostRuntime) -> Result<(), Fail> {
    let Ok(mut tree) = BTree::new(rt.alloc()) else {
        return Ok(());
    };
    let mut list = ListIndex::new(rt.alloc());
    for number in 0..40_u64 {
        if add(&mut tree, numbered(0, 40 - number)).is_err() {
            assert!(rt; same_walks(&tree, &list, 0, 41));
            add(&mut tree, numbered(0, 40 - number))?;
        }
        if add(&mut list, numbered(0, 40 - number)).is_err() {
            add(&mut list, numbered(0, 40 - number))?;
        }
        assert!(rt; same_walks(&tree, &list, 0, 41));
    }
    Ok(())
}

// Takes a hundred neighbours of the partition out, from the tenth on, and answers in how many calls.
fn take_hundred<I: PartIndex>(index: &mut I) -> u64 {
    let mut calls: u64 = 0;
    let mut gone: usize = 0;
    while gone < 100 {
        let key = Key::of_u64(10 + gone as u64);
        gone += index.remove_from(1, key, 100 - gone);
        calls += 1;
    }
    calls
}

fn hundred_are_gone<I: PartIndex>(rt: &impl Abort, index: &I) {
    for number in 0..200_u64 {
        let stands = index.find(1, Key::of_u64(number)).is_some();
        assert!(rt; stands == !(10..110).contains(&number), "{number}");
    }
    assert!(rt; index.find(0, Key::of_u64(100)).is_some());
    assert!(rt; index.find(2, Key::of_u64(100)).is_some());
}

#[test]
fn neighbours_are_taken_out_leaf_by_leaf(rt: HostRuntime) {
    let alloc = rt.alloc();
    let mut list = ListIndex::new(alloc);
    fill(&rt, &mut list);
    assert!(rt; take_hundred(&mut list) == 100);
    hundred_are_gone(&rt, &list);
    let mut tree = BTree::new(alloc).expect(&rt, "memory");
    fill(&rt, &mut tree);
    // A leaf has sixteen entries at least.
    assert!(rt; take_hundred(&mut tree) <= 8);
    hundred_are_gone(&rt, &tree);
}

fn adds_once<I: PartIndex>(rt: &impl Abort, index: &mut I) {
    let entry = numbered(1, 7);
    assert!(rt; add(index, entry) == Ok(true));
    let other = Entry {
        is_ghost: true,
        ..entry
    };
    assert!(rt; add(index, other) == Ok(false));
    assert!(rt; index.find(1, entry.key) == Some((entry.value, entry.is_ghost)));
}

#[test]
fn what_is_new_is_added_once(rt: HostRuntime) {
    adds_once(&rt, &mut ListIndex::new(rt.alloc()));
    let mut tree = BTree::new(rt.alloc()).expect(&rt, "memory");
    adds_once(&rt, &mut tree);
}

// A tree of one leaf, of the numbers 10, 20 and so on up to 200.
fn tens(rt: &impl Abort, alloc: Global) -> BTree {
    let mut tree = BTree::new(alloc).expect(rt, "memory");
    for ten in 1..21_u64 {
        add(&mut tree, numbered(0, 10 * ten)).expect(rt, "memory");
    }
    tree
}

// Of the entries the first so many go between those of the tens, and the tree is then as with each of them added.
fn goes_between(rt: &impl Abort, alloc: Global, tree: &mut BTree, more: &[Entry], count: usize) {
    let mut other = tens(rt, alloc);
    for entry in &more[..count] {
        add(&mut other, *entry).expect(rt, "memory");
    }
    let added = tree.insert_among(more);
    assert!(rt; added == count, "{added} of {count}");
    assert!(rt; same_walks(tree, &other, 0, 40));
}

// The same of numbers.
fn numbers_go_between(rt: &impl Abort, alloc: Global, numbers: &[u64], count: usize) {
    let mut more = Vec::new(alloc);
    for number in numbers {
        more.push(numbered(0, *number)).expect(rt, "memory");
    }
    goes_between(rt, alloc, &mut tens(rt, alloc), &more, count);
}

#[test]
fn entries_go_between_others_of_a_leaf(rt: HostRuntime) {
    let alloc = rt.alloc();
    numbers_go_between(&rt, alloc, &[11, 12, 25, 199], 4);
    numbers_go_between(&rt, alloc, &[15], 1);
    numbers_go_between(&rt, alloc, &[], 0);
    // A taken place ends it, and the first leaf's beginning. Nothing stands behind the last leaf.
    numbers_go_between(&rt, alloc, &[11, 20, 25], 1);
    numbers_go_between(&rt, alloc, &[30, 31], 0);
    numbers_go_between(&rt, alloc, &[198, 199, 201], 3);
    numbers_go_between(&rt, alloc, &[201, 202], 2);
    numbers_go_between(&rt, alloc, &[9, 11], 0);
    // The leaf is full with 32.
    let many = [11, 12, 13, 14, 15, 16, 17, 18, 19, 21, 22, 23, 24, 25];
    numbers_go_between(&rt, alloc, &many, 12);
    let mut empty = BTree::new(alloc).expect(&rt, "memory");
    assert!(rt; empty.insert_among(&[numbered(0, 1)]) == 0);
}

#[test]
fn what_has_no_room_in_a_leaf_does_not_go_between(rt: HostRuntime) {
    let alloc = rt.alloc();
    let long_value = Entry {
        value: Value::new(&[7; 40]).expect(&rt, "a value"),
        ..numbered(0, 12)
    };
    let more = [numbered(0, 11), long_value, numbered(0, 13)];
    goes_between(&rt, alloc, &mut tens(&rt, alloc), &more, 1);
    let mut roomy = tens(&rt, alloc);
    let made = roomy.make_room(0, Key::of_u64(10), 40, Hint::none());
    assert!(rt; made.is_ok());
    goes_between(&rt, alloc, &mut roomy, &more, 3);

    // It stands between 11 and 12.
    let mut bytes = [0; 20];
    bytes[..8].copy_from_slice(&11_u64.to_be_bytes());
    let long_key = Entry {
        key: Key::new(&bytes).expect(&rt, "a key"),
        ..numbered(0, 11)
    };
    let more = [numbered(0, 11), long_key, numbered(0, 12)];
    goes_between(&rt, alloc, &mut tens(&rt, alloc), &more, 1);
}

// The numbers 10, 20 and so on up to 1,000, but for two of each thirty-two: so there is room in each leaf of a tree.
fn add_tens_with_gaps<I: PartIndex>(rt: &impl Abort, index: &mut I) {
    for ten in 1..101_u64 {
        add(index, numbered(0, 10 * ten)).expect(rt, "memory");
    }
    for gone in [20, 30, 340, 350, 660, 670] {
        index.remove(0, Key::of_u64(gone));
    }
}

#[test]
fn entries_go_from_leaf_to_leaf(rt: HostRuntime) {
    let mut tree = BTree::new(rt.alloc()).expect(&rt, "memory");
    add_tens_with_gaps(&rt, &mut tree);
    let mut list = ListIndex::new(rt.alloc());
    add_tens_with_gaps(&rt, &mut list);
    // 325, 645 and 965 go behind the last ones of their leaves, which end where the next ones begin.
    let more = [15, 325, 335, 645, 655, 965, 1001].map(|number| numbered(0, number));
    let added = tree.insert_among(&more);
    assert!(rt; added == 7, "{added}");
    for entry in more {
        add(&mut list, entry).expect(&rt, "memory");
    }
    assert!(rt; same_walks(&tree, &list, 0, 200));
    // The first leaf is full now.
    assert!(rt; tree.insert_among(&[numbered(0, 16)]) == 0);
}

// Adds every number below 1,000 between every tenth one, and answers how many went between others at once.
fn thousand_between<I: PartIndex>(rt: &impl Abort, alloc: Global, index: &mut I) -> u64 {
    for number in 0..100_u64 {
        add(index, numbered(0, 10 * number)).expect(rt, "memory");
    }
    let mut more = Vec::new(alloc);
    for number in 0..1000_u64 {
        if number % 10 > 0 {
            more.push(numbered(0, number)).expect(rt, "memory");
        }
    }
    let mut between: u64 = 0;
    let mut at = 0;
    while at < more.len() {
        assert!(rt; add(index, more[at]) == Ok(true));
        at += 1;
        let to = more.len().min(at + 15);
        let count = index.insert_among(&more[at..to]);
        between = between.saturating_add(count as u64);
        at += count;
    }
    between
}

#[test]
fn neighbours_go_between_others_leaf_by_leaf(rt: HostRuntime) {
    let alloc = rt.alloc();
    let mut list = ListIndex::new(alloc);
    assert!(rt; thousand_between(&rt, alloc, &mut list) == 0);
    let mut tree = BTree::new(alloc).expect(&rt, "memory");
    let between = thousand_between(&rt, alloc, &mut tree);
    assert!(rt; between == 843, "{between}");
    assert!(rt; same_walks(&tree, &list, 0, 1_001));
}

// Of a stretch that begins in a leaf only what is of that leaf goes into it, though it has room for more.
#[test]
fn a_stretch_parts_behind_a_leaf_with_room(rt: HostRuntime) {
    let mut tree = BTree::new(rt.alloc()).expect(&rt, "memory");
    add_tens_with_gaps(&rt, &mut tree);
    let mut list = ListIndex::new(rt.alloc());
    add_tens_with_gaps(&rt, &mut list);
    let more = [325, 335].map(|number| numbered(0, number));
    assert!(rt; tree.insert_among(&more) == 2);
    for entry in more {
        add(&mut list, entry).expect(&rt, "memory");
    }
    assert!(rt; same_walks(&tree, &list, 0, 200));
}

// Each number's hint, of those that stand in the index and of those between.
fn hints_of<I: PartIndex>(rt: &impl Abort, alloc: Global, index: &I, last: u64) -> Vec<Hint> {
    let mut hints = Vec::new(alloc);
    for number in 0..last {
        let (_, hint) = index.look(0, Key::of_u64(number), Hint::none());
        hints.push(hint).expect(rt, "memory");
    }
    hints
}

// Whether each number is found as without a hint, by its own hint and by those of the numbers so much before and after.
fn hints_change_nothing<I: PartIndex>(index: &I, hints: &[Hint], last: u64) -> bool {
    (0..last).all(|number| {
        let key = Key::of_u64(number);
        let found = index.find(0, key);
        let at = number as usize;
        [at, at.saturating_sub(1), at + 1, at / 2]
            .iter()
            .all(|other| {
                let hint = hints.get(*other).copied().unwrap_or(Hint::none());
                index.look(0, key, hint).0 == found
            })
    })
}

// A hint of the entry itself, of its neighbour and one from before a change lead to the same answers and changes.
#[test]
fn hints_cost_time_at_most(rt: HostRuntime) {
    let alloc = rt.alloc();
    let mut tree = BTree::new(alloc).expect(&rt, "memory");
    let mut list = ListIndex::new(alloc);
    add_tens_with_gaps(&rt, &mut tree);
    add_tens_with_gaps(&rt, &mut list);
    let hints = hints_of(&rt, alloc, &tree, 1100);
    assert!(rt; hints_change_nothing(&tree, &hints, 1100));
    assert!(rt; hints_change_nothing(&list, &hints, 1100));

    for number in 0..1100_u64 {
        let entry = numbered(0, number);
        let hint = hints[(number as usize * 7) % 1100];
        if tree.find(0, entry.key).is_some() {
            let was_live = tree.set(0, entry.key, byte(b'n'), true, hint);
            assert!(rt; list.set(0, entry.key, byte(b'n'), true, hint) == was_live);
        } else {
            let hint = hints[number as usize];
            tree.insert(entry, hint).expect(&rt, "memory");
            list.insert(entry, hint).expect(&rt, "memory");
        }
    }
    assert!(rt; hints_change_nothing(&tree, &hints, 1100));
    assert!(rt; same_walks(&tree, &list, 0, 1200));
    assert!(rt; tree.next_ghost(0, Key::least()) == list.next_ghost(0, Key::least()));
}

// Hints that were looked for side by side lead where one by one did; of more than sixteen the last are none.
#[test]
fn sixteen_places_are_looked_for_at_once(rt: HostRuntime) {
    let alloc = rt.alloc();
    let mut tree = BTree::new(alloc).expect(&rt, "memory");
    add_tens_with_gaps(&rt, &mut tree);
    for count in [0, 1, 15, 16, 17] {
        let mut places = Vec::new(alloc);
        for number in 0..count {
            places
                .push((0, Key::of_u64(61 * number)))
                .expect(&rt, "memory");
        }
        let hints = tree.hints(&places);
        for (place, hint) in places.iter().zip(&hints) {
            assert!(rt; tree.look(0, place.1, *hint).0 == tree.find(0, place.1));
        }
    }
}
