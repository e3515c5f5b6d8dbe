use crate::RawLeaf;
use am_record::{Entry, Key, NoMemory, Value};
use std::alloc::Global;
use std::test::Fail;

// The entry of a number, of partition 0; odd ones are ghosts.
fn entry(number: u64) -> Entry {
    Entry {
        part: 0,
        key: Key::of_u64(number),
        value: Value::new(&number.to_be_bytes()).unwrap(),
        is_ghost: number % 2 == 1,
    }
}

// The place of one number with the value and ghost bit of another.
fn entry_like(number: u64, like: u64) -> Entry {
    let like = entry(like);
    Entry {
        part: 0,
        key: Key::of_u64(number),
        value: like.value,
        is_ghost: like.is_ghost,
    }
}

// Adds the entry, unless its place is taken or the leaf is full.
fn add(alloc: Global, leaf: &mut RawLeaf, entry: Entry) -> Result<(), NoMemory> {
    leaf.widen(alloc, entry.key.bytes().len(), entry.value.len())?;
    if leaf.len() < 32 {
        if let Err(at) = leaf.find(entry.part, entry.key) {
            leaf.insert_at(at, entry);
        }
    }
    Ok(())
}

// A leaf of the entries of 0 to 31, added from both ends.
fn full(alloc: Global) -> Result<RawLeaf, NoMemory> {
    let mut leaf = RawLeaf::new(alloc, 16, 16)?;
    for number in 0..16_u64 {
        add(alloc, &mut leaf, entry(31 - number))?;
        add(alloc, &mut leaf, entry(number))?;
    }
    Ok(leaf)
}

// Whether these are the entries of count numbers from the first on.
fn holds(leaf: &RawLeaf, first: u64, count: usize) -> bool {
    for at in 0..leaf.len() {
        if leaf.get(at) != entry(first.wrapping_add(at as u64)) {
            return false;
        }
    }
    leaf.len() == count
}

fn remove_first(leaf: &mut RawLeaf) -> Option<Entry> {
    if leaf.len() == 0 {
        return None;
    }
    Some(leaf.remove_at(0))
}

fn get(leaf: &RawLeaf, at: usize) -> Option<Entry> {
    if at >= leaf.len() {
        return None;
    }
    Some(leaf.get(at))
}

fn ghost_from(leaf: &RawLeaf, at: usize) -> Option<Entry> {
    if at > leaf.len() {
        return None;
    }
    leaf.ghost_from(at)
}

// Gives the entry at the index the value and ghost bit of another.
fn set(alloc: Global, leaf: &mut RawLeaf, at: usize, like: Entry) -> Result<(), NoMemory> {
    leaf.widen(alloc, 0, like.value.len())?;
    if at < leaf.len() {
        leaf.set_at(at, like.value, like.is_ghost);
    }
    Ok(())
}

// Splits the leaf, at its end at most.
fn split(alloc: Global, leaf: &mut RawLeaf, at: usize) -> Result<RawLeaf, NoMemory> {
    let end = leaf.len();
    leaf.split_off(alloc, at.min(end))
}

#[test]
fn an_empty_leaf_finds_nothing(rt: HostRuntime) -> Result<(), Fail> {
    let leaf = RawLeaf::new(rt.alloc(), 16, 16)?;
    assert_eq!(rt; leaf.len(), 0);
    assert!(rt; leaf.find(0, Key::least()) == Err(0));
    assert!(rt; leaf.find(7, Key::of_u64(7)) == Err(0));
    Ok(())
}

#[test]
fn ghosts_move_with_their_slots(rt: HostRuntime) -> Result<(), Fail> {
    let mut leaf = full(rt.alloc())?;
    assert!(rt; holds(&leaf, 0, 32));
    assert!(rt; leaf.find(0, Key::of_u64(9)) == Ok(9));
    assert!(rt; leaf.find(1, Key::least()) == Err(32));

    assert!(rt; remove_first(&mut leaf) == Some(entry(0)));
    assert!(rt; holds(&leaf, 1, 31));

    let none = split(rt.alloc(), &mut leaf, 31)?;
    assert!(rt; holds(&leaf, 1, 31) && none.len() == 0);
    let mut back = split(rt.alloc(), &mut leaf, 16)?;
    assert!(rt; holds(&leaf, 1, 16) && holds(&back, 17, 15));
    assert!(rt; ghost_from(&leaf, 16).is_none());
    let all = split(rt.alloc(), &mut back, 0)?;
    assert!(rt; back.len() == 0 && holds(&all, 17, 15));
    Ok(())
}

#[test]
fn an_entry_gets_its_value_and_bit(rt: HostRuntime) -> Result<(), Fail> {
    let mut leaf = full(rt.alloc())?;
    set(rt.alloc(), &mut leaf, 9, entry(4))?;
    assert!(rt; get(&leaf, 9) == Some(entry_like(9, 4)));
    assert!(rt; get(&leaf, 8) == Some(entry(8)));
    assert!(rt; get(&leaf, 11) == Some(entry(11)));
    assert!(rt; leaf.len() == 32);
    Ok(())
}

#[test]
fn finds_the_next_ghost(rt: HostRuntime) -> Result<(), Fail> {
    let mut leaf = full(rt.alloc())?;
    for at in 0..leaf.len() {
        assert!(rt; leaf.ghost_from(at) == Some(entry(at as u64 | 1)));
    }
    assert!(rt; leaf.ghost_from(leaf.len()).is_none());
    set(rt.alloc(), &mut leaf, 31, entry(0))?;
    assert!(rt; ghost_from(&leaf, 29) == Some(entry(29)));
    assert!(rt; ghost_from(&leaf, 30).is_none());
    assert!(rt; ghost_from(&leaf, 32).is_none());
    Ok(())
}

// A run of one partition with a key and a value of so many bytes at its end.
fn run(alloc: Global, key_len: usize, value_len: usize) -> Result<Vec<(Key, Value)>, NoMemory> {
    let mut pairs = Vec::with_capacity(alloc, 4)?;
    let bytes = [0xFF; 64];
    for number in 0..3_u64 {
        pairs.push((Key::of_u64(number), entry(number).value))?;
    }
    let key = Key::new(&bytes[..key_len.min(32)]).unwrap();
    let value = Value::new(&bytes[..value_len.min(64)]).unwrap();
    pairs.push((key, value))?;
    Ok(pairs)
}

// Adds the records one by one.
fn added(alloc: Global, pairs: &[(Key, Value)]) -> Result<RawLeaf, NoMemory> {
    let mut leaf = RawLeaf::new(alloc, 16, 16)?;
    for pair in pairs {
        let entry = Entry {
            part: 7,
            key: pair.0,
            value: pair.1,
            is_ghost: false,
        };
        add(alloc, &mut leaf, entry)?;
    }
    Ok(leaf)
}

// Whether these are the records, live.
fn holds_run(leaf: &RawLeaf, pairs: &[(Key, Value)]) -> bool {
    for (at, pair) in pairs.iter().enumerate() {
        let Some(entry) = get(leaf, at) else {
            return false;
        };
        if entry.key != pair.0 || entry.value != pair.1 || entry.is_ghost {
            return false;
        }
    }
    leaf.len() == pairs.len()
}

#[test]
fn records_of_every_length_stand(rt: HostRuntime) -> Result<(), Fail> {
    for key_len in 9..33 {
        for value_len in [0, 1, 15, 16, 17, 32, 63, 64] {
            let pairs = run(rt.alloc(), key_len, value_len)?;
            let mut leaf = added(rt.alloc(), &pairs)?;
            assert!(rt; holds_run(&leaf, &pairs));
            assert!(rt; leaf.find(7, pairs[3].0) == Ok(3));
            let upper = split(rt.alloc(), &mut leaf, 2)?;
            assert!(rt; holds_run(&leaf, &pairs[..2]));
            assert!(rt; holds_run(&upper, &pairs[2..]));
            set(rt.alloc(), &mut leaf, 0, get(&upper, 1).unwrap())?;
            assert!(rt; get(&leaf, 0).unwrap().value == pairs[3].1);
            assert!(rt; get(&leaf, 1).unwrap().value == pairs[1].1);
        }
    }
    Ok(())
}
