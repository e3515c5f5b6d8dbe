use crate::BTree;
use crate::node::{Node, Subtree};
use crate::read::Start;
use am_index::{Hint, Listed, PartIndex};
use am_record::{Entry, Key, NoMemory, Value};
use std::alloc::Global;
use std::test::Fail;
use std::thread;

fn numbered(part: u32, number: u64) -> Entry {
    Entry {
        part,
        key: Key::of_u64(number),
        value: Value::new(&number.to_be_bytes()).unwrap(),
        is_ghost: number % 3 == 0,
    }
}

// How many leaves there are.
fn leaves(tree: &Subtree) -> usize {
    match &tree.node {
        Node::Leaf(_) => 1,
        Node::Inner(_, children, _) => {
            let mut count = 0_usize;
            for child in children {
                count = count.saturating_add(leaves(child));
            }
            count
        }
    }
}

// The numbers up to 10,006, each once and out of order.
fn scattered(i: u64) -> u64 {
    (7919 * i) % 10_007
}

// A tree of the numbers below 2,000, of which these are ghosts. The upper half stands in partition 1.
fn with_ghosts(alloc: Global, ghosts: &[u64]) -> Result<BTree, NoMemory> {
    let mut tree = BTree::new(alloc)?;
    for number in 0..2000_u64 {
        let is_ghost = ghosts.contains(&number);
        let entry = numbered(part_of(number), number);
        tree.insert(Entry { is_ghost, ..entry }, Hint::none())?;
    }
    Ok(tree)
}

fn part_of(number: u64) -> u32 {
    if number < 1000 { 0 } else { 1 }
}

// Whether the first ghost from each number on is the least of these that isn't below it.
fn finds(tree: &BTree, ghosts: &[u64]) -> bool {
    for number in 0..2000_u64 {
        let due = ghosts.iter().copied().find(|due| *due >= number);
        let found = tree.next_ghost(part_of(number), Key::of_u64(number));
        if found.map(|entry| entry.key) != due.map(|due| Key::of_u64(due)) {
            return false;
        }
    }
    true
}

#[test]
fn finds_the_next_ghost(rt: HostRuntime) -> Result<(), Fail> {
    let at_the_ends = [0, 1999];
    assert!(rt; finds(&with_ghosts(rt.alloc(), &at_the_ends)?, &at_the_ends));
    let in_the_middle = [31, 32, 33, 999, 1000, 1500];
    assert!(rt; finds(&with_ghosts(rt.alloc(), &in_the_middle)?, &in_the_middle));
    let none = with_ghosts(rt.alloc(), &[])?;
    assert!(rt; finds(&none, &[]));
    assert!(rt; none.next_ghost(2, Key::least()).is_none());
    Ok(())
}

#[test]
fn scattered_inserts_leave_leaves_half_full(rt: HostRuntime) -> Result<(), Fail> {
    let mut tree = Subtree::new(rt.alloc())?;
    for i in 0..1500_u64 {
        let entry = numbered(0, 7919 * i % 1500);
        if tree.look(entry.part, entry.key, Hint::none()).0.is_none() {
            tree.insert(rt.alloc(), &entry, Hint::none())?;
        }
    }
    assert!(rt; leaves(&tree) <= 100);
    Ok(())
}

#[test]
fn all_leaves_stand_at_one_depth(rt: HostRuntime) -> Result<(), Fail> {
    let mut tree = BTree::new(rt.alloc())?;
    assert!(rt; tree.depth() == 0);
    for number in 0..3200_u64 {
        tree.insert(numbered(0, 3200 - number), Hint::none())?;
    }
    assert!(rt; tree.depth() == 2);
    for number in 0..3200_u64 {
        assert!(rt; tree.depth_at(0, Key::of_u64(number)) == 2);
    }
    for number in 0..3200_u64 {
        let key = Key::of_u64(3200 - number);
        if tree.look(0, key, Hint::none()).0.is_some() {
            tree.remove(0, key);
        }
    }
    assert!(rt; tree.depth() == 0);
    Ok(())
}

#[test]
fn what_comes_in_order_fills_its_leaves(rt: HostRuntime) -> Result<(), Fail> {
    let mut tree = Subtree::new(rt.alloc())?;
    for number in 0..32_u64 {
        tree.insert(rt.alloc(), &numbered(0, number), Hint::none())?;
    }
    for number in 0..32_u64 {
        tree.insert(rt.alloc(), &numbered(2, number), Hint::none())?;
    }
    assert!(rt; leaves(&tree) == 2);
    // They go behind the one leaf and before the other.
    for number in 0..3200_u64 {
        tree.insert(rt.alloc(), &numbered(1, number), Hint::none())?;
    }
    assert!(rt; leaves(&tree) == 102);
    Ok(())
}

#[test]
fn a_loaded_run_fills_its_leaves(rt: HostRuntime) -> Result<(), Fail> {
    let mut tree = Subtree::new(rt.alloc())?;
    for number in 0..3200_u64 {
        let entry = numbered(1, number);
        if tree.look(entry.part, entry.key, Hint::none()).0.is_none() {
            tree.insert(rt.alloc(), &entry, Hint::none())?;
        }
    }
    assert!(rt; leaves(&tree) == 100);
    Ok(())
}

// The tree with the entries of the numbers below 100.
fn filled(mut tree: BTree) -> Result<BTree, NoMemory> {
    for number in 0..100_u64 {
        tree.insert(numbered(0, number), Hint::none())?;
    }
    Ok(tree)
}

#[test]
fn a_tree_crosses_threads(rt: HostRuntime) -> Result<(), Fail> {
    let tree = BTree::new(rt.alloc())?;
    let filling = thread::spawn(&rt, move || filled(tree))?;
    let tree = filling.join(&rt)?;
    let (low, high) = thread::join(
        &rt,
        || tree.next_from(0, Key::least()),
        || tree.next_from(0, Key::of_u64(99)),
    );
    assert!(rt; low == Some(numbered(0, 0)));
    assert!(rt; high == Some(numbered(0, 99)));
    Ok(())
}

// Puts a record behind the others, if its key is above theirs.
fn push(pairs: &mut Vec<(Key, Value)>, number: u64) -> Result<(), NoMemory> {
    let Entry { key, value, .. } = numbered(1, number);
    if pairs.is_empty() || pairs[pairs.len() - 1].0 < key {
        pairs.push((key, value))?;
    }
    Ok(())
}

// The records of the even numbers below twice the count.
fn records(alloc: Global, count: u64) -> Result<Vec<(Key, Value)>, NoMemory> {
    let mut pairs = Vec::new(alloc);
    for number in 0..count {
        push(&mut pairs, number.saturating_mul(2))?;
    }
    Ok(pairs)
}

// Appends the records as a run of the partition, unless an entry stands in it or above.
fn append(
    tree: &mut Subtree,
    alloc: Global,
    part: u32,
    pairs: &[(Key, Value)],
) -> Result<(), NoMemory> {
    let found = tree.first_from(part, Key::least(), Start::At);
    if found.is_some() {
        return Ok(());
    }
    tree.append(alloc, part, &Listed { records: pairs })
}

// How many entries there are.
fn count(tree: &Subtree) -> usize {
    match &tree.node {
        Node::Leaf(leaf) => leaf.len(),
        Node::Inner(_, children, _) => {
            let mut all = 0_usize;
            for child in children {
                all = all.saturating_add(count(child));
            }
            all
        }
    }
}

// Adds the entry to a tree, unless its place is taken.
fn add_to(tree: &mut Subtree, alloc: Global, entry: Entry) -> Result<(), NoMemory> {
    let (found, hint) = tree.look(entry.part, entry.key, Hint::none());
    if found.is_none() {
        tree.insert(alloc, &entry, hint)?;
    }
    Ok(())
}

// A tree with so many entries of partition 0, out of order.
fn with_scattered(alloc: Global, many: u64) -> Result<Subtree, NoMemory> {
    let mut tree = Subtree::new(alloc)?;
    for i in 0..many.min(10_007) {
        add_to(&mut tree, alloc, numbered(0, scattered(i)))?;
    }
    Ok(tree)
}

// Whether the tree has the run, and besides it as many entries.
fn has_run(tree: &Subtree, many: usize, part: u32, pairs: &[(Key, Value)]) -> bool {
    count(tree) == many.saturating_add(pairs.len())
        && pairs.iter().all(|(key, value)| tree.look(part, *key, Hint::none()).0
            == Some((*value, false)))
}

// A run of so many records is appended to a tree of so many entries.
fn is_appended(rt: &impl Abort, alloc: Global, many: u64, length: u64) -> Result<(), Fail> {
    let mut tree = with_scattered(alloc, many)?;
    let before = leaves(&tree);
    let pairs = records(alloc, length)?;
    append(&mut tree, alloc, 1, &pairs)?;
    assert!(rt; has_run(&tree, many as usize, 1, &pairs));
    // The last leaf and the new ones are full, but for the last.
    assert!(rt; leaves(&tree) <= before.saturating_add(pairs.len().div_ceil(32)));
    assert!(rt; tree.depth_at(1, Key::least()) <= 3);
    Ok(())
}

#[test]
fn runs_are_appended(rt: HostRuntime) -> Result<(), Fail> {
    for length in [1, 31, 32, 33, 1_025] {
        is_appended(&rt, rt.alloc(), 0, length)?;
        is_appended(&rt, rt.alloc(), 1000, length)?;
    }
    is_appended(&rt, rt.alloc(), 1000, 40_000)
}

#[test]
fn many_small_runs_share_leaves(rt: HostRuntime) -> Result<(), Fail> {
    let mut tree = Subtree::new(rt.alloc())?;
    let pairs = records(rt.alloc(), 5)?;
    for part in 1..321 {
        append(&mut tree, rt.alloc(), part, &pairs)?;
    }
    assert!(rt; count(&tree) == 1600);
    assert!(rt; leaves(&tree) == 50);
    Ok(())
}

#[test]
fn a_loaded_run_takes_inserts_in_its_middle(rt: HostRuntime) -> Result<(), Fail> {
    let mut tree = with_scattered(rt.alloc(), 40)?;
    let pairs = records(rt.alloc(), 3_200)?;
    append(&mut tree, rt.alloc(), 1, &pairs)?;
    for number in 0..3_200_u64 {
        add_to(&mut tree, rt.alloc(), numbered(1, 2 * number + 1))?;
    }
    assert!(rt; count(&tree) == 6_440);
    for number in 0..6_400_u64 {
        assert!(rt; tree.look(1, Key::of_u64(number), Hint::none()).0.is_some());
    }
    Ok(())
}

// A key between the new separator and the old one is reached by the new one.
#[test]
fn a_lowered_separator_is_reached_from_its_new_key_on(rt: HostRuntime) {
    let mut separators = crate::separators::Separators::with_room(rt.alloc()).expect(&rt, "memory");
    separators.put(0, crate::separator::Separator::of(&numbered(0, 5)));
    separators.lower(0, &numbered(0, 3));
    assert!(rt; separators.reached(0, Key::of_u64(4)) == 1);
}
