//! Values of each length in a tree, whose leaves have room for short ones at first.

use crate::trees::add;
use am_index::{Hint, Listed, PartIndex};
use am_index_btree::BTree;
use am_record::{Entry, Key, Range, Value};
use std::alloc::Global;
use std::process::Abort;

const LENGTHS: [usize; 8] = [0, 1, 15, 16, 17, 32, 63, 64];

// So few that one leaf has them all, and so many that leaves are split.
const SIZES: [u64; 2] = [3, 200];

// A value of so many bytes, each of them the number's last.
fn value(bytes: usize, number: u64) -> Value {
    let all = [number.to_be_bytes()[7]; 64];
    Value::new(&all[..bytes]).unwrap()
}

// The entry of a number with a value of so many bytes, each third one a ghost.
fn entry(bytes: usize, number: u64) -> Entry {
    Entry {
        part: 1,
        key: Key::of_u64(number),
        value: value(bytes, number),
        is_ghost: number % 3 == 0,
    }
}

// A tree of short values: those of so many even numbers.
fn short_tree(rt: &impl Abort, alloc: Global, many: u64) -> BTree {
    let mut tree = BTree::new(alloc).expect(rt, "memory");
    for number in 0..many {
        let is_new = add(&mut tree, entry(8, 2 * number));
        assert!(rt; is_new == Ok(true));
    }
    tree
}

// Whether the value of a number is found, and has so many bytes.
fn has(tree: &BTree, bytes: usize, number: u64) -> bool {
    let Entry {
        key,
        value,
        is_ghost,
        ..
    } = entry(bytes, number);
    tree.find(1, key) == Some((value, is_ghost))
}

// The tree has the values of these numbers with so many bytes each, by looks and by a walk. The numbers rise.
fn has_all(rt: &impl Abort, alloc: Global, tree: &BTree, due: &[(usize, u64)]) {
    let mut live = Vec::new(alloc);
    for (bytes, number) in due {
        assert!(rt; has(tree, *bytes, *number), "{number}");
        let entry = entry(*bytes, *number);
        if !entry.is_ghost {
            live.push((entry.key, entry.value)).expect(rt, "memory");
        }
    }
    let range = Range::new(Key::of_u64(0), Key::of_u64(9_999)).expect(rt, "in order");
    let mut rows = Vec::new(alloc);
    tree.copy_rows(1, range, 9_999, &mut rows, Hint::none())
        .expect(rt, "memory");
    assert!(rt; rows == live);
}

// The even numbers of a tree of short values, and others behind them with values of each length.
fn short_and_each(
    rt: &impl Abort,
    alloc: Global,
    many: u64,
    odd: &[(usize, u64)],
) -> Vec<(usize, u64)> {
    let mut due = Vec::new(alloc);
    for number in 0..2 * many {
        if number % 2 == 0 {
            due.push((8, number)).expect(rt, "memory");
        }
        for one in odd {
            if one.1 == number {
                due.push(*one).expect(rt, "memory");
            }
        }
    }
    for one in odd {
        if one.1 >= 2 * many {
            due.push(*one).expect(rt, "memory");
        }
    }
    due
}

#[test]
fn values_of_each_length_are_inserted_among_short_ones(rt: HostRuntime) {
    for many in SIZES {
        let mut tree = short_tree(&rt, rt.alloc(), many);
        let mut odd = Vec::new(rt.alloc());
        for (at, bytes) in LENGTHS.into_iter().enumerate() {
            let number = 48 * at as u64 + 1;
            tree.insert(entry(bytes, number), Hint::none())
                .expect(&rt, "memory");
            odd.push((bytes, number)).expect(&rt, "memory");
            assert!(rt; add(&mut tree, entry(bytes, number + 2)) == Ok(true));
            odd.push((bytes, number + 2)).expect(&rt, "memory");
        }
        let due = short_and_each(&rt, rt.alloc(), many, &odd);
        has_all(&rt, rt.alloc(), &tree, &due);
    }
}

// The records of a run: values of this length, but each tenth one of that.
fn run_of(rt: &impl Abort, alloc: Global, usual: usize, tenth: usize) -> Vec<(Key, Value)> {
    let mut pairs = Vec::new(alloc);
    for number in 0..100_u64 {
        let bytes = if number % 10 == 9 { tenth } else { usual };
        pairs
            .push((Key::of_u64(number), value(bytes, number)))
            .expect(rt, "memory");
    }
    pairs
}

// Whether the tree has the records as the run of a partition, by looks and by a walk.
fn has_run(
    rt: &impl Abort,
    alloc: Global,
    tree: &BTree,
    part: u32,
    pairs: &[(Key, Value)],
) -> bool {
    let range = Range::new(Key::of_u64(0), Key::of_u64(9_999)).expect(rt, "in order");
    let mut rows = Vec::new(alloc);
    tree.copy_rows(part, range, 9_999, &mut rows, Hint::none())
        .expect(rt, "memory");
    rows.as_slice() == pairs
        && pairs.iter().all(|(key, value)| tree.find(part, *key) == Some((*value, false)))
}

#[test]
fn runs_of_each_length_are_appended_to_short_values(rt: HostRuntime) {
    for many in SIZES {
        let mut tree = short_tree(&rt, rt.alloc(), many);
        let mut part = 2;
        for usual in LENGTHS {
            for tenth in LENGTHS {
                let pairs = run_of(&rt, rt.alloc(), usual, tenth);
                tree.append_run(part, &Listed { records: &pairs })
                    .expect(&rt, "memory");
                assert!(rt;
                    has_run(&rt, rt.alloc(), &tree, part, &pairs),
                    "{usual} {tenth}"
                );
                part += 1;
            }
        }
        let due = short_and_each(&rt, rt.alloc(), many, &[]);
        has_all(&rt, rt.alloc(), &tree, &due);
    }
}

// Gets room at a number, and sets a value of so many bytes there.
fn set_with_room(rt: &impl Abort, tree: &mut BTree, bytes: usize, number: u64) {
    let Entry {
        key,
        value,
        is_ghost,
        ..
    } = entry(bytes, number);
    tree.make_room(1, key, bytes, Hint::none())
        .expect(rt, "memory");
    assert!(rt; tree.set(1, key, value, is_ghost, Hint::none()) == !is_ghost);
}

#[test]
fn values_of_each_length_are_set_where_room_was_made(rt: HostRuntime) {
    for many in SIZES {
        let mut tree = short_tree(&rt, rt.alloc(), many);
        for bytes in LENGTHS {
            for number in 0..many {
                set_with_room(&rt, &mut tree, bytes, 2 * number);
                assert!(rt; has(&tree, bytes, 2 * number));
            }
            let mut due = Vec::new(rt.alloc());
            for number in 0..many {
                due.push((bytes, 2 * number)).expect(&rt, "memory");
            }
            has_all(&rt, rt.alloc(), &tree, &due);
        }
    }
}

// Sets a value of so many bytes at a number, and asks for no room.
fn set_back(rt: &impl Abort, tree: &mut BTree, bytes: usize, number: u64) {
    let Entry {
        key,
        value,
        is_ghost,
        ..
    } = entry(bytes, number);
    assert!(rt; tree.set(1, key, value, is_ghost, Hint::none()) == !is_ghost);
}

// The even numbers below 100 have long values once, and short ones after that.
fn were_long(rt: &impl Abort, alloc: Global) -> BTree {
    let mut tree = short_tree(rt, alloc, 50);
    for number in 0..50_u64 {
        set_with_room(rt, &mut tree, 64, 2 * number);
    }
    for number in 0..50_u64 {
        set_back(rt, &mut tree, 3, 2 * number);
    }
    tree
}

#[test]
fn a_long_value_comes_back_in_a_split_leaf_and_no_room_is_asked(rt: HostRuntime) {
    let mut tree = were_long(&rt, rt.alloc());
    let before = tree.depth();
    // Short ones come between and behind them, so that their leaves are split.
    for number in 0..2_000_u64 {
        assert!(rt; add(&mut tree, entry(3, number)) == Ok(number >= 100 || number % 2 == 1));
    }
    assert!(rt; tree.depth() > before);
    let mut due = Vec::new(rt.alloc());
    for number in 0..2_000_u64 {
        let was_long = number < 100 && number % 2 == 0;
        if was_long {
            set_back(&rt, &mut tree, 64, number);
        }
        due.push((if was_long { 64 } else { 3 }, number))
            .expect(&rt, "memory");
    }
    has_all(&rt, rt.alloc(), &tree, &due);
}

#[test]
fn a_long_value_comes_back_where_its_neighbours_are_gone(rt: HostRuntime) {
    let mut tree = were_long(&rt, rt.alloc());
    let mut due = Vec::new(rt.alloc());
    for number in 0..50_u64 {
        if number % 10 == 5 {
            due.push((64, 2 * number)).expect(&rt, "memory");
        } else {
            tree.remove(1, Key::of_u64(2 * number));
        }
    }
    for (bytes, number) in &due {
        set_back(&rt, &mut tree, *bytes, *number);
    }
    has_all(&rt, rt.alloc(), &tree, &due);
}
