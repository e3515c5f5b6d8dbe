//! Entries that are put in parts, and read again; and who puts them.

use am_replica_log::{Entry, Event, Floor, Log, Name, Part, Snapshot};
use am_replica_pieces::{Writer, part_at, pieces_before_head};
use std::alloc::Global;
use std::process::Abort;

// The text of an entry that was put in parts of so many bytes, as a reader joins it.
fn joined(rt: &impl Abort, alloc: Global, most: usize, text: &[u8]) -> Vec<u8> {
    let mut log = Log::new(alloc);
    let mut told = Vec::new(alloc);
    let name = Name {
        writer: 7,
        number: 1,
    };
    let last = pieces_before_head(most, text);
    for number in 0..last + 1 {
        let (part, bytes) = part_at(most, text, number);
        let event = Event::Put(0, name, part, true);
        match log.take(alloc, number + 2, event, bytes) {
            Ok(None) => assert!(rt; matches!(part, Part::Piece(n) if n == number)),
            Ok(Some(Entry { name: _, text })) => {
                assert!(rt; matches!(part, Part::Head));
                let text = text.expect(rt, "all pieces came");
                told.extend_from_slice(text.as_slice()).expect(rt, "memory");
            }
            Err(_) => assert!(rt; false, "it is taken"),
        }
    }
    told
}

#[test]
fn what_is_cut_is_joined(rt: HostRuntime) {
    let alloc = rt.alloc();
    // Too short for a piece, just a part, one byte more, and many.
    for (text, pieces) in [
        (b"".as_slice(), 0),
        (b"ab".as_slice(), 0),
        (b"abc".as_slice(), 0),
        (b"abcd".as_slice(), 1),
        (b"abcdef".as_slice(), 1),
        (b"abcdefg".as_slice(), 2),
    ] {
        assert_eq!(rt; pieces_before_head(3, text), pieces);
        assert!(rt; joined(&rt, alloc, 3, text).as_slice() == text);
    }
    assert_eq!(rt; part_at(3, b"abcdefg", 1).1, b"def".as_slice());
    assert_eq!(rt; part_at(3, b"abcdefg", 2).1, b"g".as_slice());
}

// A log to which one writer puts its entry, and the revision of what was done last.
#[derive(Drop)]
struct Cluster {
    log: Log,
    writer: Writer,
    revision: u64,
}

impl Cluster {
    // What the log tells of an event, which the writer hears.
    fn tell(&mut self, rt: &impl Abort, alloc: Global, event: Event, bytes: &[u8]) {
        self.revision += 1;
        match self.log.take(alloc, self.revision, event, bytes) {
            Ok(told) => self.writer.hear(&self.log, &told),
            Err(_) => assert!(rt; false, "it is taken"),
        }
    }

    // The part that is to be put, which is.
    fn put(&mut self, rt: &impl Abort, alloc: Global, name: Name, text: &[u8]) {
        let (part, bytes) = self.writer.part(2, text);
        let generation = self.writer.generation();
        let event = Event::Put(generation, name, part, true);
        self.writer.answered(generation, 2, text);
        self.tell(rt, alloc, event, bytes);
    }
}

#[test]
fn an_entry_begins_anew_behind_a_floor(rt: HostRuntime) {
    let alloc = rt.alloc();
    let log = Log::new(alloc);
    let name = Name {
        writer: 7,
        number: 1,
    };
    let writer = Writer::new(name, &log);
    let mut cluster = Cluster {
        log,
        writer,
        revision: 1,
    };
    let text = b"abcde";
    cluster.put(&rt, alloc, name, text);
    cluster.put(&rt, alloc, name, text);
    assert!(rt; matches!(cluster.writer.part(2, text).0, Part::Head));
    // Its generation is over before its head came.
    let snapshot = Snapshot {
        generation: 1,
        writer: 9,
    };
    let moved = Event::Moved(Floor { since: 0, snapshot });
    cluster.tell(&rt, alloc, moved, b"");
    assert_eq!(rt; cluster.writer.generation(), 1);
    // An answer comes late, to a part that was put before the floor moved.
    cluster.writer.answered(0, 2, text);
    assert!(rt; matches!(cluster.writer.part(2, text).0, Part::Piece(0)));
    for _ in 0..3 {
        assert!(rt; !cluster.writer.is_seen());
        cluster.put(&rt, alloc, name, text);
    }
    assert!(rt; cluster.writer.is_seen());
}
