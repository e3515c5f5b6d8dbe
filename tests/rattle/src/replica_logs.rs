//! The log of replicas: what counts of what the cluster takes.

use am_replica_log::{Deletion, Entry, Event, Floor, Log, LogFault, Name, Part, Snapshot, Text};
use std::alloc::Global;
use std::process::Abort;

fn name(writer: u128, number: u64) -> Name {
    Name { writer, number }
}

fn put(generation: u64, entry: Name, part: Part, is_new: bool) -> Event {
    Event::Put(generation, entry, part, is_new)
}

fn moved(since: u64, generation: u64, writer: u128) -> Event {
    Event::Moved(Floor {
        since,
        snapshot: Snapshot { generation, writer },
    })
}

// A letter by the number of the entry, and its text, or `?` where pieces are missing.
fn add(rt: &impl Abort, told: &mut Vec<u8>, name: Name, text: Option<&Text>) {
    told.push(b'a' + name.number as u8).expect(rt, "memory");
    let text = text.map_or(b"?".as_slice(), Text::as_slice);
    told.extend_from_slice(text).expect(rt, "memory");
}

// What a reader makes of each event: a letter of the entry that it ends, with its text, `.` for nothing, `!` for a fault.
fn read(rt: &impl Abort, alloc: Global, log: &mut Log, events: &[(u64, Event, &[u8])]) -> Vec<u8> {
    let mut told = Vec::new(alloc);
    for (revision, event, text) in events {
        match log.take(alloc, *revision, *event, text) {
            Ok(Some(Entry { name, text })) => add(rt, &mut told, name, text.as_ref()),
            Ok(None) => told.push(b'.').expect(rt, "memory"),
            Err(_) => told.push(b'!').expect(rt, "memory"),
        }
    }
    told
}

#[test]
fn each_entry_counts_once(rt: HostRuntime) {
    let alloc = rt.alloc();
    let mut log = Log::new(alloc);
    let events: [(u64, Event, &[u8]); 8] = [
        (2, put(0, name(7, 1), Part::Head, true), b"X"),
        // It comes once more.
        (3, put(0, name(7, 1), Part::Head, false), b"X"),
        (4, put(0, name(7, 2), Part::Piece(0), true), b"1"),
        (5, put(0, name(8, 2), Part::Piece(0), true), b"2"),
        (6, put(0, name(7, 2), Part::Piece(0), false), b"1"),
        (7, put(0, name(7, 2), Part::Piece(1), true), b"3"),
        (8, put(0, name(7, 2), Part::Head, true), b"4"),
        (9, put(0, name(8, 2), Part::Head, true), b"5"),
    ];
    let told = read(&rt, alloc, &mut log, &events);
    assert!(rt; told.as_slice() == b"bX.....c134c25".as_slice(), "{told:?}");
}

#[test]
fn a_floor_begins_a_generation(rt: HostRuntime) {
    let alloc = rt.alloc();
    let mut log = Log::new(alloc);
    let events: [(u64, Event, &[u8]); 7] = [
        (2, put(0, name(7, 1), Part::Piece(0), true), b"1"),
        (3, moved(0, 1, 9), b""),
        // Its generation is over, so its writer puts it under the next one.
        (4, put(0, name(7, 1), Part::Head, true), b"2"),
        (5, put(1, name(7, 1), Part::Piece(0), true), b"1"),
        (6, put(1, name(7, 1), Part::Head, true), b"2"),
        // A floor that was read already says nothing, and one that follows another is none of this log.
        (3, moved(0, 1, 9), b""),
        (7, moved(2, 2, 9), b""),
    ];
    let told = read(&rt, alloc, &mut log, &events);
    assert!(rt; told.as_slice() == b"....b12.!".as_slice(), "{told:?}");
    assert_eq!(rt; log.generation(), 1);
}

#[test]
fn a_reader_by_a_snapshot_misses_no_piece(rt: HostRuntime) {
    let alloc = rt.alloc();
    let mut log = Log::new(alloc);
    let events: [(u64, Event, &[u8]); 4] = [
        (2, moved(0, 1, 9), b""),
        (4, put(1, name(7, 1), Part::Piece(0), true), b"1"),
        (5, put(1, name(8, 1), Part::Head, true), b"2"),
        (6, put(1, name(7, 1), Part::Head, true), b"3"),
    ];
    assert!(rt; !log.may_be_left(0));
    let told = read(&rt, alloc, &mut log, &events[..3]);
    assert!(rt; told.as_slice() == b"..b2".as_slice(), "{told:?}");
    // A snapshot of revision 5: the log is read from behind revision 3 on.
    assert!(rt; log.may_be_left(5) && !log.may_be_left(2));
    assert_eq!(rt; log.first_behind(5), 3);
    let floor = Floor {
        since: 2,
        snapshot: Snapshot {
            generation: 2,
            writer: 9,
        },
    };
    let mut other = Log::behind(alloc, floor);
    let told = read(&rt, alloc, &mut other, &events[1..]);
    assert!(rt; told.as_slice() == b".b2b13".as_slice(), "{told:?}");
}

#[test]
fn a_missing_piece_is_told(rt: HostRuntime) {
    let alloc = rt.alloc();
    let mut log = Log::new(alloc);
    let events: [(u64, Event, &[u8]); 8] = [
        (2, put(0, name(7, 1), Part::Piece(1), true), b"1"),
        (3, put(0, name(7, 1), Part::Head, true), b"2"),
        // Another entry's piece isn't this one's.
        (4, put(0, name(8, 2), Part::Piece(0), true), b"3"),
        (5, put(0, name(7, 2), Part::Piece(1), true), b"4"),
        (6, put(0, name(7, 2), Part::Head, true), b"5"),
        (7, put(0, name(8, 2), Part::Piece(1), true), b"6"),
        (8, put(0, name(8, 2), Part::Piece(2), true), b"7"),
        (9, put(0, name(8, 2), Part::Head, true), b"8"),
    ];
    let told = read(&rt, alloc, &mut log, &events);
    assert!(rt; told.as_slice() == b".b?..c?..c3678".as_slice(), "{told:?}");
}

#[test]
fn a_deletion_is_of_its_own_floor(rt: HostRuntime) {
    let snapshot = Snapshot {
        generation: 5,
        writer: 9,
    };
    let Deletion {
        only_at,
        generation,
        through,
        but,
    } = snapshot.deletion();
    assert!(rt; only_at.is_some_and(|it| it.generation == 5 && it.writer == 9));
    assert!(rt; (generation, through, but.writer) == (4, 5, 9));
}

#[test]
fn who_went_back_is_told(rt: HostRuntime) {
    let alloc = rt.alloc();
    let mut log = Log::new(alloc);
    let fault = log
        .take(alloc, 9, moved(4, 1, 9), b"")
        .map_err(|it| it == LogFault::WentBack);
    assert!(rt; matches!(fault, Err(true)));
}
