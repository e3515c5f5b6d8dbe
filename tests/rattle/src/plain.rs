//! Worked answers of the plain map.

use crate::keys::{key, range, value};
use am_record::{NoMemory, Op, Records, Reply};
use am_record_model::{Plain, alone};
use std::alloc::Global;
use std::process::Abort;

// The record of the key 9 with this value, as it is loaded and scanned.
fn nine(rt: &impl Abort, alloc: Global, text: &[u8]) -> Records {
    let pairs = Vec::from_array(alloc, [(key(rt, b"9"), value(rt, text))]);
    Records::new(pairs.expect(rt, "memory"))
}

// The operations are answered so by a plain map with nothing in it, from the one with this place on.
fn answers(rt: &impl Abort, alloc: Global, ops: &[Op], from: usize, expected: &[Reply]) {
    let mut plain = Plain::new(alloc);
    let replies = alone(alloc, &mut plain, ops).expect(rt, "memory");
    assert!(rt; replies.len() == ops.len() && from <= replies.len());
    assert!(rt; &replies[from..] == expected);
}

#[test]
fn an_insert_is_found_and_stays(rt: HostRuntime) {
    let (five, six) = (key(&rt, b"5"), key(&rt, b"6"));
    let (a, b) = (value(&rt, b"a"), value(&rt, b"b"));
    let ops = [
        Op::Get(five),
        Op::Insert(five, a),
        Op::Insert(five, b),
        Op::Replace(five, b),
        Op::Get(five),
        Op::Get(six),
    ];
    let expected = [
        Reply::Absent,
        Reply::Done,
        Reply::Exists(five),
        Reply::Done,
        Reply::Found(b),
        Reply::Absent,
    ];
    answers(&rt, rt.alloc(), &ops, 0, &expected);
}

#[test]
fn savepoints_are_nested(rt: HostRuntime) {
    let (a, b) = (key(&rt, b"a"), key(&rt, b"b"));
    let (one, two, three) = (value(&rt, b"1"), value(&rt, b"2"), value(&rt, b"3"));
    let ops = [
        Op::Insert(a, one),
        Op::Mark,
        Op::Replace(a, two),
        Op::Insert(b, three),
        Op::Mark,
        Op::Delete(a),
        Op::Back,
        Op::Get(a),
        Op::Back,
        Op::Get(a),
        Op::Get(b),
        Op::Back,
    ];
    let expected = [
        Reply::Done,
        Reply::Found(two),
        Reply::Done,
        Reply::Found(one),
        Reply::Absent,
        Reply::NoMark,
    ];
    answers(&rt, rt.alloc(), &ops, 6, &expected);
}

#[test]
fn a_value_that_changed_twice_goes_back_to_the_mark(rt: HostRuntime) {
    let a = key(&rt, b"a");
    let (one, two, three) = (value(&rt, b"1"), value(&rt, b"2"), value(&rt, b"3"));
    let ops = [
        Op::Insert(a, one),
        Op::Mark,
        Op::Replace(a, two),
        Op::Replace(a, three),
        Op::Back,
        Op::Get(a),
    ];
    answers(&rt, rt.alloc(), &ops, 5, &[Reply::Found(one)]);
}

#[test]
fn a_set_puts_its_value_over_another(rt: HostRuntime) {
    let a = key(&rt, b"a");
    let (one, two) = (value(&rt, b"1"), value(&rt, b"2"));
    let ops = [
        Op::Set(a, one),
        Op::Mark,
        Op::Set(a, two),
        Op::Get(a),
        Op::Back,
        Op::Get(a),
    ];
    let expected = [Reply::Found(two), Reply::Done, Reply::Found(one)];
    answers(&rt, rt.alloc(), &ops, 3, &expected);
}

#[test]
fn the_first_of_a_range_are_deleted_and_come_back(rt: HostRuntime) {
    let (a, b, c) = (key(&rt, b"a"), key(&rt, b"b"), key(&rt, b"c"));
    let one = value(&rt, b"1");
    let all = range(&rt, b"a", b"c");
    let ops = [
        Op::Set(a, one),
        Op::Set(b, one),
        Op::Set(c, one),
        Op::DeleteRange(all, 1),
        Op::Mark,
        Op::DeleteRange(all, 9),
        Op::Get(c),
        Op::Back,
        Op::Get(a),
        Op::Get(b),
        Op::Back,
    ];
    let expected = [
        Reply::Deleted(1),
        Reply::Done,
        Reply::Deleted(2),
        Reply::Absent,
        Reply::Done,
        Reply::Absent,
        Reply::Found(one),
        Reply::NoMark,
    ];
    answers(&rt, rt.alloc(), &ops, 3, &expected);
}

#[test]
fn rows_back_begin_at_the_highest_key(rt: HostRuntime) {
    let alloc = rt.alloc();
    let (one, two) = (value(&rt, b"1"), value(&rt, b"2"));
    let mut plain = Plain::new(alloc);
    for (name, held) in [(b"a", one), (b"b", two), (b"c", one)] {
        is_answered(&rt, &mut plain, Op::Set(key(&rt, name), held), Reply::Done);
    }
    is_answered(&rt, &mut plain, Op::Delete(key(&rt, b"c")), Reply::Done);
    let rows = vec![in alloc; (key(&rt, b"b"), two), (key(&rt, b"a"), one)];
    let both = Reply::Rows(Records::new(rows.expect(&rt, "memory")));
    let whole = range(&rt, b"a", b"z");
    is_answered(&rt, &mut plain, Op::ScanBack(whole, 9), both);
    let rows = vec![in alloc; (key(&rt, b"b"), two)];
    let last = Reply::Rows(Records::new(rows.expect(&rt, "memory")));
    is_answered(&rt, &mut plain, Op::ScanBack(whole, 1), last);
}

fn is_answered(rt: &impl Abort, plain: &mut Plain, op: Op, reply: Reply) {
    assert!(rt; plain.answer(&op) == Ok(reply));
}

#[test]
fn a_load_is_scanned_from_end_to_end(rt: HostRuntime) {
    let alloc = rt.alloc();
    let mut plain = Plain::new(alloc);
    let load = Op::Load(nine(&rt, alloc, b"z"));
    is_answered(&rt, &mut plain, load, Reply::Done);
    let again = Op::Load(nine(&rt, alloc, b"y"));
    is_answered(&rt, &mut plain, again, Reply::Exists(key(&rt, b"9")));
    let scan = Op::Scan(range(&rt, b"0", b"9"), 1);
    let row = Reply::Rows(nine(&rt, alloc, b"z"));
    is_answered(&rt, &mut plain, scan, row);
}

#[test]
fn a_refused_insert_may_be_asked_again(rt: HostRuntime) {
    let (five, a) = (key(&rt, b"5"), value(&rt, b"a"));
    let mut plain = Plain::new(rt.alloc());
    if plain.answer(&Op::Insert(five, a)) == Err(NoMemory) {
        is_answered(&rt, &mut plain, Op::Get(five), Reply::Absent);
        is_answered(&rt, &mut plain, Op::Insert(five, a), Reply::Done);
    }
    is_answered(&rt, &mut plain, Op::Get(five), Reply::Found(a));
}
