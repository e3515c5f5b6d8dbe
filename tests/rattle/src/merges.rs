//! Merge steps, clean steps and their wishes.

use am_index::{Hint, PartIndex};
use am_index_btree::BTree;
use am_index_list::ListIndex;
use am_index_parts::Parts;
use am_record::{Entry, HashKey, Key, Lock, Mode, NoMemory, Range, Refusal, Reply, Value};
use am_store_locks::{Asked, LockTable};
use am_store_merge::{Wishes, clean_step, merge_step};
use std::alloc::Global;
use std::process::Abort;

// An entry: its partition, key and value, and whether it is a ghost.
type Standing = (u32, u64, u8, bool);

fn value(byte: u8) -> Value {
    Value::new(&[byte]).unwrap()
}

fn range(rt: &impl Abort, lo: u64, hi: u64) -> Range {
    Range::new(Key::of_u64(lo), Key::of_u64(hi)).expect(rt, "the ends stand in order")
}

// Adds the entry, unless its place is taken or a live one's key is live elsewhere.
fn add<I: PartIndex + Drop>(
    parts: &mut Parts<I>,
    part: u32,
    number: u64,
    byte: u8,
    is_ghost: bool,
) -> Result<(), NoMemory> {
    let (key, value) = (Key::of_u64(number), value(byte));
    if parts.find(part, key).is_some() {
        return Ok(());
    }
    if !is_ghost && parts.place_of(key).is_some() {
        return Ok(());
    }
    parts.add(
        Entry {
            part,
            key,
            value,
            is_ghost,
        },
        Hint::none(),
    )
}

fn over(rt: &impl Abort, alloc: Global, entries: &[Standing]) -> Parts<ListIndex> {
    let mut parts = Parts::new(alloc, ListIndex::new(alloc), HashKey::known());
    for &(part, number, byte, is_ghost) in entries {
        add(&mut parts, part, number, byte, is_ghost).expect(rt, "memory");
    }
    parts
}

// The entries stand, among others.
fn has(rt: &impl Abort, parts: &Parts<ListIndex>, entries: &[Standing]) {
    for &(part, number, byte, is_ghost) in entries {
        let found = parts.find(part, Key::of_u64(number));
        assert!(rt;
            found == Some((value(byte), is_ghost)),
            "{number} in {part}"
        );
    }
}

// How many entries of the keys 0 to 299 stand in the partition.
fn count_in(parts: &Parts<ListIndex>, part: u32) -> u64 {
    let mut count: u64 = 0;
    for number in 0..300 {
        if parts.find(part, Key::of_u64(number)).is_some() {
            count = count.saturating_add(1);
        }
    }
    count
}

// A table in which transaction 2 has the key exclusively locked.
fn locked(rt: &impl Abort, alloc: Global, number: u64) -> LockTable {
    let mut locks = LockTable::new(alloc).expect(rt, "memory");
    assert!(rt; locks.owners() == 0 && !locks.is_owner(2));
    locks.enter(2);
    assert!(rt; locks.is_owner(2));
    let lock = Lock {
        mode: Mode::Exclusive,
        range: Range::point(Key::of_u64(number)),
    };
    assert!(rt; locks.ask(2, lock) == Asked::Granted);
    locks
}

fn merges(
    rt: &impl Abort,
    parts: &mut Parts<ListIndex>,
    wishes: &mut Wishes,
    locks: &LockTable,
    reply: Reply,
) {
    assert!(rt; merge_step(parts, wishes, locks, 16) == reply);
}

#[test]
fn merge_goes_home_over_a_ghost(rt: HostRuntime) {
    let entries = [(0, 5, b'a', true), (1, 5, b'b', false), (1, 7, b'c', false)];
    let mut parts = over(&rt, rt.alloc(), &entries);
    let mut wishes = Wishes::new(rt.alloc()).expect(&rt, "memory");
    let locks = LockTable::new(rt.alloc()).expect(&rt, "memory");
    wishes.wish(Range::point(Key::of_u64(5)));
    wishes.wish(Range::point(Key::of_u64(5)));
    merges(&rt, &mut parts, &mut wishes, &locks, Reply::Moved(1, 1));
    merges(&rt, &mut parts, &mut wishes, &locks, Reply::MergeDone);
    merges(&rt, &mut parts, &mut wishes, &locks, Reply::MergeDone);
    merges(&rt, &mut parts, &mut wishes, &locks, Reply::Idle);
    has(&rt, &parts, &[(0, 5, b'b', false), (1, 7, b'c', false)]);
    assert!(rt; parts.find(1, Key::of_u64(5)).is_none());
}

// Merges until no candidate is left. Where memory is refused the step ends, and is taken again.
fn merge_all(
    rt: &impl Abort,
    parts: &mut Parts<ListIndex>,
    wishes: &mut Wishes,
    locks: &LockTable,
) -> u64 {
    let mut moved: u64 = 0;
    for _ in 0..10 {
        match merge_step(parts, wishes, locks, 64) {
            Reply::Moved(n, 1) => moved = moved.saturating_add(n),
            Reply::Refused(Refusal::NoMemory) => {}
            Reply::MergeDone => return moved,
            _ => panic!(rt; "no such reply is due"),
        }
    }
    moved
}

#[test]
fn merges_add_up_where_memory_is_refused(rt: HostRuntime) {
    let mut parts = over(&rt, rt.alloc(), &[]);
    let mut wishes = Wishes::new(rt.alloc()).expect(&rt, "memory");
    let locks = LockTable::new(rt.alloc()).expect(&rt, "memory");
    for number in 0..8 {
        add(&mut parts, 1, number, b'a', false).expect(&rt, "memory");
    }
    wishes.wish(range(&rt, 0, 9));
    assert!(rt; merge_all(&rt, &mut parts, &mut wishes, &locks) == 8);
    assert!(rt; count_in(&parts, 0) == 8 && count_in(&parts, 1) == 0);
}

// A run of the keys 0 to 99, each fourth one a ghost, over a final partition with every tenth key as a ghost.
fn hundred<I: PartIndex + Drop>(rt: &impl Abort, alloc: Global, index: I) -> Parts<I> {
    let mut parts = Parts::new(alloc, index, HashKey::known());
    for number in 0..100_u64 {
        add(&mut parts, 1, number, b'r', number % 4 == 0).expect(rt, "memory");
        if number % 10 == 0 {
            add(&mut parts, 0, number, b'f', true).expect(rt, "memory");
        }
    }
    parts
}

// What stands of the hundred in the final partition and in the run, once the first `moved` are worked off.
fn is_moved<I: PartIndex + Drop>(rt: &impl Abort, parts: &Parts<I>, moved: u64) {
    for number in 0..100_u64 {
        let is_ghost = number % 4 == 0;
        let home = if number < moved && !is_ghost {
            Some((value(b'r'), false))
        } else if number % 10 == 0 {
            Some((value(b'f'), true))
        } else {
            None
        };
        let left = (number >= moved).then_some((value(b'r'), is_ghost));
        let key = Key::of_u64(number);
        assert!(rt; parts.find(0, key) == home, "{number} in 0");
        assert!(rt; parts.find(1, key) == left, "{number} in 1");
    }
}

// Merges the hundred by steps of the limit, up to where the locks end it.
fn moves<I: PartIndex + Drop>(
    rt: &impl Abort,
    alloc: Global,
    index: I,
    locks: &LockTable,
    limit: u64,
    steps: &[u64],
) {
    let mut parts = hundred(rt, alloc, index);
    let mut wishes = Wishes::new(alloc).expect(rt, "memory");
    wishes.wish(range(rt, 0, 200));
    let mut moved: u64 = 0;
    for step in steps {
        let reply = merge_step(&mut parts, &mut wishes, locks, limit);
        assert!(rt; reply == Reply::Moved(*step, 1));
        moved = moved.saturating_add(*step);
        is_moved(rt, &parts, moved);
    }
    let end = if moved == 100 {
        Reply::MergeDone
    } else {
        Reply::Ended(Key::of_u64(moved), 2)
    };
    let reply = merge_step(&mut parts, &mut wishes, locks, limit);
    assert!(rt; reply == end);
    is_moved(rt, &parts, moved);
}

// The same over a list, and over a tree, whose leaves have fewer entries than a step may move.
fn moves_over_both(rt: &impl Abort, alloc: Global, locks: &LockTable, limit: u64, steps: &[u64]) {
    moves(rt, alloc, ListIndex::new(alloc), locks, limit, steps);
    let tree = BTree::new(alloc).expect(rt, "memory");
    moves(rt, alloc, tree, locks, limit, steps);
}

#[test]
fn a_stretch_ends_at_the_limit_and_at_the_end_of_its_run(rt: HostRuntime) {
    let locks = LockTable::new(rt.alloc()).expect(&rt, "memory");
    moves_over_both(&rt, rt.alloc(), &locks, 64, &[64, 36]);
    moves_over_both(&rt, rt.alloc(), &locks, 33, &[33, 33, 33, 1]);
    moves_over_both(&rt, rt.alloc(), &locks, 16, &[16, 16, 16, 16, 16, 16, 4]);
    moves_over_both(&rt, rt.alloc(), &locks, 1, &[1; 100]);
}

#[test]
fn a_stretch_ends_at_a_lock(rt: HostRuntime) {
    for at in [1_u64, 15, 16, 17, 40, 63, 64, 65] {
        let locks = locked(&rt, rt.alloc(), at);
        if at < 65 {
            moves_over_both(&rt, rt.alloc(), &locks, 64, &[at]);
        } else {
            moves_over_both(&rt, rt.alloc(), &locks, 64, &[64, 1]);
        }
    }
}

// A run of the keys 0 to 63, each second one a ghost, goes home over ghosts of every third key, by steps of sixteen.
fn alternate<I: PartIndex + Drop>(rt: &impl Abort, alloc: Global, index: I) {
    let mut parts = Parts::new(alloc, index, HashKey::known());
    for number in 0..64_u64 {
        add(&mut parts, 1, number, b'r', number % 2 == 0).expect(rt, "memory");
        if number % 3 == 0 {
            add(&mut parts, 0, number, b'f', true).expect(rt, "memory");
        }
    }
    let mut wishes = Wishes::new(alloc).expect(rt, "memory");
    let locks = LockTable::new(alloc).expect(rt, "memory");
    wishes.wish(range(rt, 0, 200));
    for _ in 0..4 {
        assert!(rt; merge_step(&mut parts, &mut wishes, &locks, 16) == Reply::Moved(16, 1));
    }
    for number in 0..64_u64 {
        let home = if number % 2 == 1 {
            Some((value(b'r'), false))
        } else {
            (number % 3 == 0).then_some((value(b'f'), true))
        };
        let key = Key::of_u64(number);
        assert!(rt; parts.find(0, key) == home, "{number}");
        assert!(rt; parts.find(1, key).is_none(), "{number}");
    }
}

#[test]
fn a_stretch_alternates_between_live_ones_and_ghosts(rt: HostRuntime) {
    alternate(&rt, rt.alloc(), ListIndex::new(rt.alloc()));
    let tree = BTree::new(rt.alloc()).expect(&rt, "memory");
    alternate(&rt, rt.alloc(), tree);
}

// Is one of the run that goes between final records: of four keys it has three.
fn is_between(number: u64) -> bool {
    number % 4 > 0
}

// Keys below 400, of which those go home.
fn goes_between<I: PartIndex + Drop>(rt: &impl Abort, alloc: Global, index: I) {
    let mut parts = Parts::new(alloc, index, HashKey::known());
    for number in 0..400_u64 {
        let part = u32::from(is_between(number));
        add(&mut parts, part, number, b'r', false).expect(rt, "memory");
    }
    let mut wishes = Wishes::new(alloc).expect(rt, "memory");
    let locks = LockTable::new(alloc).expect(rt, "memory");
    wishes.wish(range(rt, 0, 400));
    for moved in 1..19_u64 {
        assert!(rt; merge_step(&mut parts, &mut wishes, &locks, 16) == Reply::Moved(16, 1));
        let figures = parts.figures();
        assert!(rt; figures.in_final == 100 + 16 * moved && figures.ghosts == 0);
        assert!(rt; figures.entries == 400 && figures.in_runs == 300 - 16 * moved);
    }
    for number in 0..400_u64 {
        let part = u32::from(number >= 384 && is_between(number));
        assert!(rt; parts.find(part, Key::of_u64(number)) == Some((value(b'r'), false)));
    }
}

#[test]
fn a_run_goes_between_final_records(rt: HostRuntime) {
    goes_between(&rt, rt.alloc(), ListIndex::new(rt.alloc()));
    let tree = BTree::new(rt.alloc()).expect(&rt, "memory");
    goes_between(&rt, rt.alloc(), tree);
}

// The keys 2 to 9 are cleaned.
fn cleans(
    rt: &impl Abort,
    parts: &mut Parts<ListIndex>,
    locks: &LockTable,
    limit: u64,
    cleaned: u64,
) {
    let reply = clean_step(parts, locks, range(rt, 2, 9), limit);
    assert!(rt; reply == Reply::Cleaned(cleaned));
}

#[test]
fn clean_passes_over_locked_and_live_entries(rt: HostRuntime) {
    let entries = [
        (0, 3, b'a', true),
        (0, 4, b'b', false),
        (0, 12, b'c', true),
        (1, 2, b'd', true),
        (1, 5, b'e', true),
        (u32::MAX, 5, b'f', true),
        (u32::MAX, 9, b'g', true),
    ];
    let mut parts = over(&rt, rt.alloc(), &entries);
    let locks = locked(&rt, rt.alloc(), 5);
    cleans(&rt, &mut parts, &locks, 2, 2);
    has(&rt, &parts, &[(u32::MAX, 9, b'g', true)]);
    cleans(&rt, &mut parts, &locks, 2, 1);
    cleans(&rt, &mut parts, &locks, 64, 0);
    let kept = [
        (0, 4, b'b', false),
        (0, 12, b'c', true),
        (1, 5, b'e', true),
        (u32::MAX, 5, b'f', true),
    ];
    has(&rt, &parts, &kept);
}
