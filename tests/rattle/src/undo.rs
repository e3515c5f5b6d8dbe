//! What a transaction changed, taken back.

use crate::entries::{byte, dead, live, over};
use am_index::{Hint, PartIndex};
use am_index_parts::Parts;
use am_record::{Entry, Key, NoMemory};
use am_store_undo::{Note, UndoLog};
use std::alloc::Global;

// Makes an entry in partition 0, and notes it, unless the key has one there or is live elsewhere.
fn insert<I: PartIndex + Drop>(
    parts: &mut Parts<I>,
    log: &mut UndoLog,
    key: Key,
    new: u8,
) -> Result<(), NoMemory> {
    let value = byte(new);
    if parts.find(0, key).is_some() || parts.place_of(key).is_some() {
        return Ok(());
    }
    log.reserve_one()?;
    parts.add(
        Entry {
            part: 0,
            key,
            value,
            is_ghost: false,
        },
        Hint::none(),
    )?;
    log.note(Note::New(key));
    Ok(())
}

// Changes an entry, and notes what it was, unless there is none or its key is live elsewhere.
fn change<I: PartIndex + Drop>(
    parts: &mut Parts<I>,
    log: &mut UndoLog,
    part: u32,
    key: Key,
    new: u8,
    is_ghost: bool,
) -> Result<(), NoMemory> {
    let new = byte(new);
    let Some(old) = parts.find(part, key) else {
        return Ok(());
    };
    if let Some(place) = parts.place_of(key) {
        if place != part {
            return Ok(());
        }
    }
    log.reserve_one()?;
    parts.set(part, key, new, is_ghost, Hint::none());
    log.note(Note::Before {
        part,
        key,
        value: old.0,
        is_ghost: old.1,
    });
    Ok(())
}

#[test]
fn writes_of_one_key_are_taken_back_newest_first(rt: HostRuntime) {
    let key = Key::of_u64(5);
    let mut parts = over(&rt, rt.alloc(), &[]);
    let mut log = UndoLog::new(rt.alloc());
    insert(&mut parts, &mut log, key, b'a').expect(&rt, "memory");
    change(&mut parts, &mut log, 0, key, b'b', false).expect(&rt, "memory");
    change(&mut parts, &mut log, 0, key, b'b', true).expect(&rt, "memory");
    change(&mut parts, &mut log, 0, key, b'd', false).expect(&rt, "memory");
    change(&mut parts, &mut log, 0, key, b'e', false).expect(&rt, "memory");
    assert!(rt; parts.find(0, key) == Some((byte(b'e'), false)));
    log.take_back(&mut parts);

    assert!(rt; parts.next_any(0, Key::least()) == Some(dead(0, 5, b'a')));
    assert!(rt; parts.next_any(0, Key::of_u64(6)).is_none());
}

#[test]
fn two_replaces_restore_the_oldest(rt: HostRuntime) {
    let key = Key::of_u64(5);
    let mut parts = over(&rt, rt.alloc(), &[live(0, 5, b'a')]);
    let mut log = UndoLog::new(rt.alloc());
    change(&mut parts, &mut log, 0, key, b'b', false).expect(&rt, "memory");
    change(&mut parts, &mut log, 0, key, b'c', false).expect(&rt, "memory");
    log.take_back(&mut parts);
    assert!(rt; parts.find(0, key) == Some((byte(b'a'), false)));

    // The log has no note any more.
    log.take_back(&mut parts);
    assert!(rt; parts.find(0, key) == Some((byte(b'a'), false)));
}

// A log with one note.
fn run_made<I: PartIndex + Drop>(
    alloc: Global,
    parts: &Parts<I>,
    run: u32,
) -> Result<UndoLog, NoMemory> {
    let mut log = UndoLog::new(alloc);
    if parts.runs() < run {
        return Ok(log);
    }
    log.reserve_one()?;
    log.note(Note::RunMade(run));
    Ok(log)
}

#[test]
fn a_run_that_was_made_becomes_ghosts(rt: HostRuntime) {
    let before = [
        live(0, 1, b'a'),
        live(1, 2, b'b'),
        dead(1, 3, b'g'),
        live(1, 9, b'c'),
        dead(2, 2, b'h'),
        live(2, 5, b'd'),
    ];
    let mut parts = over(&rt, rt.alloc(), &before);
    for _ in 0..2_u8 {
        if parts.runs() < 65535 {
            parts.count_run();
        }
    }
    let mut log = run_made(rt.alloc(), &parts, 1).expect(&rt, "memory");
    log.take_back(&mut parts);
    for entry in before {
        let part = entry.part;
        let stands = Some((entry.value, part == 1 || entry.is_ghost));
        assert!(rt; parts.find(part, entry.key) == stands, "in {part}");
    }
    assert!(rt; parts.next_any(2, Key::of_u64(6)).is_none());
}

#[test]
fn reserve_one_wants_memory_for_the_fifth_note_alone(rt: HostRuntime) {
    let mut parts = over(&rt, rt.alloc(), &[live(0, 5, b'a')]);
    let key = Key::of_u64(5);
    let mut log = UndoLog::new(rt.alloc());
    for new in [b'b', b'c', b'd', b'e'] {
        assert!(rt; change(&mut parts, &mut log, 0, key, new, false).is_ok());
    }
    if change(&mut parts, &mut log, 0, key, b'f', false).is_err() {
        assert!(rt; parts.find(0, key) == Some((byte(b'e'), false)));
        change(&mut parts, &mut log, 0, key, b'f', false).expect(&rt, "memory");
    }
    assert!(rt; parts.find(0, key) == Some((byte(b'f'), false)));
    log.take_back(&mut parts);
    assert!(rt; parts.find(0, key) == Some((byte(b'a'), false)));
}
