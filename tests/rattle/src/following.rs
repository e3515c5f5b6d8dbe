//! A follower of the log over its store: what counts, in the order of the changes.

use am_record::{HashKey, Reply, Value};
use am_replica::{Outcome, Replica};
use am_replica_digest::AnswerDigest;
use am_replica_entries::{Block, entry_text};
use am_replica_follower::Follower;
use am_replica_log::{Event, Floor, LogFault, Name, Part, Snapshot};
use am_replica_records::{load_records, records};
use am_replica_store::ReplicaStore;
use am_replica_texts::EntryOutcome;
use std::alloc::Global;
use std::test::Fail;

fn entry(alloc: Global, lines: &[u8]) -> Result<Vec<u8>, Fail> {
    let block = Block {
        lines: Vec::from_slice(alloc, lines)?,
        told: None,
    };
    Ok(entry_text(alloc, &vec![in alloc; block]?)?)
}

fn put(generation: u64, number: u64, part: Part, is_new: bool) -> Event {
    Event::Put(generation, Name { writer: 7, number }, part, is_new)
}

fn follower(alloc: Global) -> Result<Follower<ReplicaStore, AnswerDigest>, Fail> {
    let replica = Replica {
        machine: ReplicaStore::new(alloc, HashKey::known())?,
        digest: AnswerDigest::new(alloc),
        commits: 0,
    };
    Ok(Follower::new(alloc, replica))
}

#[test]
fn each_entry_that_counts_is_taken_once(rt: HostRuntime) -> Result<(), Fail> {
    let alloc = rt.alloc();
    let mut follower = follower(alloc)?;
    let first = entry(alloc, b"INS ant 1\n")?;
    let told = follower
        .take(1, put(0, 1, Part::Head, true), &first)
        .unwrap();
    assert!(rt;
        matches!(told, Some(EntryOutcome::Applied(blocks)) if matches!(blocks[0], Outcome::Committed(1, _)))
    );
    // The same put once more says nothing.
    assert!(rt;
        follower
            .take(2, put(0, 1, Part::Head, false), &first)
            .unwrap()
            .is_none()
    );
    // In two pieces, the second of which is the head.
    let second = entry(alloc, b"REP ant 2\nGET ant\n")?;
    assert!(rt;
        follower
            .take(3, put(0, 2, Part::Piece(0), true), &second[..9])
            .unwrap()
            .is_none()
    );
    let told = follower
        .take(4, put(0, 2, Part::Head, true), &second[9..])
        .unwrap();
    let found = Reply::Found(Value::new(b"2").unwrap());
    let is_found =
        |blocks: &[Outcome]| matches!(&blocks[0], Outcome::Committed(2, replies) if replies[1] == found);
    assert!(rt; matches!(&told, Some(EntryOutcome::Applied(blocks)) if is_found(blocks)));
    // Of this one a piece is missing.
    let told = follower
        .take(5, put(0, 3, Part::Piece(1), true), &second[..9])
        .unwrap();
    assert!(rt; told.is_none());
    let told = follower
        .take(6, put(0, 3, Part::Head, true), &second[9..])
        .unwrap();
    assert!(rt; matches!(told, Some(EntryOutcome::Nothing)));
    // A generation begins, and a put of the one before it is late.
    let snapshot = Snapshot {
        generation: 1,
        writer: 7,
    };
    let moved = |since| Event::Moved(Floor { since, snapshot });
    assert!(rt; follower.take(7, moved(0), &[]).unwrap().is_none());
    assert!(rt;
        follower
            .take(8, put(0, 4, Part::Head, true), &first)
            .unwrap()
            .is_none()
    );
    assert_eq!(rt; follower.replica.commits, 2);
    assert!(rt; matches!(follower.take(9, moved(3), &[]), Err(LogFault::WentBack)));
    Ok(())
}

// What became of an entry, in a few letters.
fn outcome(told: Option<EntryOutcome>) -> &'static str {
    match told {
        None => "-",
        Some(EntryOutcome::Nothing) => "nothing",
        Some(EntryOutcome::Applied(blocks)) => match &blocks[0] {
            Outcome::Committed(2, _) => "commit 2",
            Outcome::Committed(3, _) => "commit 3",
            Outcome::Committed(_, _) => "commit",
            Outcome::Conflict => "conflict",
        },
    }
}

#[test]
fn one_that_begins_by_a_snapshot_is_where_another_is(rt: HostRuntime) -> Result<(), Fail> {
    let alloc = rt.alloc();
    let new_store = || ReplicaStore::new(alloc, HashKey::known());
    let mut writer = Follower::new(
        alloc,
        Replica {
            machine: new_store()?,
            digest: AnswerDigest::new(alloc),
            commits: 0,
        },
    );
    let first = entry(alloc, b"INS ant 1\n")?;
    let second = entry(alloc, b"REP ant 2\nGET ant\n")?;
    let third = entry(alloc, b"INS bee 3\n")?;
    let floor = Floor {
        since: 0,
        snapshot: Snapshot {
            generation: 1,
            writer: 7,
        },
    };
    // The second entry is on its way where the snapshot is taken, after revision 3.
    let changes: [(u64, Event, &[u8]); 6] = [
        (1, put(0, 1, Part::Head, true), &first),
        (2, put(0, 2, Part::Piece(0), true), &second[..9]),
        (3, put(0, 3, Part::Head, true), &third),
        (4, put(0, 2, Part::Head, true), &second[9..]),
        (5, Event::Moved(floor), &[]),
        (6, put(1, 4, Part::Head, true), &second),
    ];
    let told = |follower: &mut Follower<_, _>, (revision, event, text): (u64, Event, &[u8])| {
        outcome(follower.take(revision, event, text).unwrap())
    };
    for change in &changes[..3] {
        told(&mut writer, *change);
    }
    let rows = records(alloc, &mut writer.replica.machine)?;
    let commits = writer.replica.commits;
    let begin = writer.log.first_behind(3);
    assert!(rt; begin == 1 && commits == 2 && writer.log.may_be_left(3));
    let mut store = new_store()?;
    load_records(alloc, &mut store, rows.as_slice())?;
    let digest = AnswerDigest::new(alloc);
    let mut joined = Follower::begin_at(alloc, store, digest, commits, floor, 3);
    // It reads on from there. The third entry is in the snapshot, the second one isn't.
    for change in &changes[begin as usize..3] {
        assert_eq!(rt; told(&mut joined, *change), "-");
    }
    for change in &changes[3..] {
        assert_eq!(rt; told(&mut joined, *change), told(&mut writer, *change));
    }
    assert_eq!(rt; joined.replica.commits, 4);
    assert_eq!(rt; writer.replica.commits, 4);
    let rows = records(alloc, &mut writer.replica.machine)?;
    assert!(rt; records(alloc, &mut joined.replica.machine)?.as_slice() == rows.as_slice());
    Ok(())
}

// What amreplica put into a log: a transaction that was answered line by line, a load that was refused among its lines; one
// that was sent ahead; and one that came after the first line of another, which doesn't stand.
const TOLD: &[u8] =
    b"\x01\0\0\0\x01\0\0\0:GET ant\nSTAGE cow=1\nLOAD dog=2\nLOAD fox=1 eel=1\nINS ant 4\n\
    \x01\0\0\0\x05\n\x10\xff\xd3'\x0c\x05\x84\x9b8d\xac\xd7\xcb\x80R2*\x1b^f\xcedh0\xb8s\x18*o\xbb\x8f";

const AHEAD: &[u8] = b"\x01\0\0\0\x01\0\0\0\x12INS eel 5\nGET ant\n\0";

const BETWEEN: &[u8] = b"\x01\0\0\0\x01\0\0\0\nREP ant 6\n\0";

const OVERTAKEN: &[u8] = b"\x01\0\0\0\x01\0\0\0\x12GET ant\nINS fox 7\n\x01\0\0\0\x01\
    \xe6\xee\xc1\xfc }\x8c#=O\x80\xde\xfa\x006q}\xdb\xb8c\xa3T\xcb\xf5\xffJ\xf7\x04[zj\x86";

#[test]
fn what_amreplica_put_is_taken(rt: HostRuntime) -> Result<(), Fail> {
    let alloc = rt.alloc();
    let mut follower = follower(alloc)?;
    let found = Reply::Found(Value::new(b"4").unwrap());
    let told = follower.take(1, put(0, 1, Part::Head, true), TOLD).unwrap();
    let is_told = |replies: &[Reply]| {
        replies.len() == 4
            && replies[0] == Reply::Absent
            && replies[1] == Reply::Done
            && matches!(&replies[2], Reply::Refused(_))
            && replies[3] == Reply::Done
    };
    assert!(rt;
        matches!(&told, Some(EntryOutcome::Applied(blocks)) if matches!(&blocks[0], Outcome::Committed(1, replies) if is_told(replies)))
    );
    let told = follower
        .take(2, put(0, 2, Part::Head, true), AHEAD)
        .unwrap();
    assert!(rt;
        matches!(&told, Some(EntryOutcome::Applied(blocks)) if matches!(&blocks[0], Outcome::Committed(2, replies) if replies[1] == found))
    );
    let told = follower
        .take(3, put(0, 3, Part::Head, true), BETWEEN)
        .unwrap();
    assert!(rt;
        matches!(&told, Some(EntryOutcome::Applied(blocks)) if matches!(&blocks[0], Outcome::Committed(3, _)))
    );
    let told = follower
        .take(4, put(0, 4, Part::Head, true), OVERTAKEN)
        .unwrap();
    assert!(rt;
        matches!(&told, Some(EntryOutcome::Applied(blocks)) if matches!(&blocks[0], Outcome::Conflict))
    );
    Ok(())
}
