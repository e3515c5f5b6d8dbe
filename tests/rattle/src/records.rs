//! Keys, values, ranges and locks.

use am_record::{Key, Lock, Mode, Op, Range, Records, Reply, Step, Value};
use std::alloc::Global;
use std::process::Abort;

#[test]
fn values_of_64_and_65_bytes(rt: HostRuntime) {
    let longest = Value::new(&[7; 64]).expect(&rt, "64 bytes fit");
    assert_eq!(rt; longest.bytes(), [7; 64].as_slice());
    assert!(rt; Value::new(&[7; 65]).is_none());
    let empty = Value::new(&[]).expect(&rt, "no bytes fit");
    assert!(rt; empty.bytes().is_empty());
    assert!(rt; empty != longest);
}

#[test]
fn a_range_needs_its_ends_in_order(rt: HostRuntime) {
    let (one, two, three) = (Key::of_u64(1), Key::of_u64(2), Key::of_u64(3));
    assert!(rt; Range::new(two, one).is_none());
    assert_eq!(rt; Range::new(two, two), Some(Range::point(two)));
    let range = Range::new(one, two).expect(&rt, "the ends stand in order");
    assert_eq!(rt; (range.lo(), range.hi()), (one, two));
    assert!(rt; range.contains(one) && range.contains(two) && !range.contains(three));
    assert!(rt; range.encloses(&Range::point(two)) && range.meets(&Range::point(two)));
    assert!(rt; !range.encloses(&Range::point(three)) && !range.meets(&Range::point(three)));
}

// The keys of the numbers are as their places in a rising list.
fn are_ordered(rt: &impl Abort, i: usize, a: u64, j: usize, b: u64) {
    let (one, other) = (Key::of_u64(a), Key::of_u64(b));
    assert!(rt; one.cmp(&other) == i.cmp(&j), "at {a} and {b}");
    assert!(rt; (one == other) == (i == j), "at {a} and {b}");
}

#[test]
fn keys_by_their_order(rt: HostRuntime) {
    let numbers = [0, 1, 255, 256, 65_536, u64::MAX];
    for (i, a) in numbers.iter().enumerate() {
        for (j, b) in numbers.iter().enumerate() {
            are_ordered(&rt, i, *a, j, *b);
        }
        let key = Key::of_u64(*a);
        assert!(rt; key.bytes() == a.to_be_bytes().as_slice());
        assert!(rt; Key::least() <= key);
    }
}

#[test]
fn keys_by_their_bytes(rt: HostRuntime) {
    let mut longest = [b'a'; 32];
    longest[31] = 0;
    let strings = [
        b"".as_slice(),
        b"\0",
        b"\0\0",
        b"\0a",
        b"10",
        b"9",
        b"B",
        b"a",
        b"a\0",
        &longest[..31],
        &longest,
        b"ab",
        b"az",
        b"b",
        b"\x7F",
        b"\x80",
        b"\xFF\xFF\xFF\xFF\xFF\xFF\xFF\xFF",
    ];
    for (i, a) in strings.iter().enumerate() {
        let key = Key::new(a).expect(&rt, "short");
        assert_eq!(rt; key.bytes(), *a);
        for (j, b) in strings.iter().enumerate() {
            let other = Key::new(b).expect(&rt, "short");
            assert_eq!(rt; key.cmp(&other), i.cmp(&j), "at {i} and {j}");
        }
    }
    assert!(rt; Key::new(b"") == Some(Key::least()));
    assert!(rt; Key::new(&[b'a'; 32]).is_some() && Key::new(&[b'a'; 33]).is_none());
}

#[test]
fn locks_by_range_and_mode(rt: HostRuntime) {
    let range = Range::new(Key::of_u64(1), Key::of_u64(5)).expect(&rt, "the ends stand in order");
    let reader = Lock {
        mode: Mode::Shared,
        range,
    };
    let writer = Lock {
        mode: Mode::Exclusive,
        range: Range::point(Key::of_u64(5)),
    };
    assert!(rt;
        reader.conflicts(&writer) && writer.conflicts(&reader) && writer.conflicts(&writer)
    );
    assert!(rt; !reader.conflicts(&reader));
    assert!(rt; !reader.covers(&writer) && !writer.covers(&reader) && writer.covers(&writer));
}

// Two records, the later key first.
fn two_pairs(rt: &impl Abort, alloc: Global, value: Value) -> Records {
    let items = vec![in alloc; (Key::of_u64(2), value), (Key::of_u64(1), value)];
    Records::new(items.expect(rt, "memory"))
}

fn is_copied(rt: &impl Abort, alloc: Global, pairs: &Records) {
    let same = pairs.copy(alloc).expect(rt, "memory");
    assert!(rt; same == *pairs);
    assert!(rt; same.as_slice().len() == 2);
    step_is_copied(rt, alloc, Op::Load(same));
}

fn step_is_copied(rt: &impl Abort, alloc: Global, load: Op) {
    let copy = load.copy(alloc).expect(rt, "memory");
    assert!(rt; copy == load && copy != Op::Mark && Op::Mark != Op::Back);
    let step = Step::Do(1, copy);
    assert!(rt; step.copy(alloc).expect(rt, "memory") == step);
}

#[test]
fn pairs_copied_and_given_back(rt: HostRuntime) {
    let value = Value::new(b"a").expect(&rt, "one byte fits");
    let pairs = two_pairs(&rt, rt.alloc(), value);
    is_copied(&rt, rt.alloc(), &pairs);
    let mut rest = pairs.into_vec();
    assert!(rt; rest.pop() == Some((Key::of_u64(1), value)));
    let rows = Reply::Rows(Records::new(rest));
    assert!(rt; rows.copy(rt.alloc()).expect(&rt, "memory") == rows && rows != Reply::NoMark);
}

#[test]
fn a_value_of_16_bytes_is_short_and_one_of_17_is_not(rt: HostRuntime) {
    let short = Value::new(&[7; 16]).expect(&rt, "16 bytes fit");
    assert!(rt; short.short().map(|it| it.value()) == Some(short));
    assert!(rt;
        Value::new(&[7; 17])
            .expect(&rt, "17 bytes fit")
            .short()
            .is_none()
    );
}
