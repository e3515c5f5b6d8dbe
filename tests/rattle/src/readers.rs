//! A reader of the log, with the text of the entry that came last.

use am_replica_log::{Event, Floor, LogFault, Name, Part, Snapshot};
use am_replica_reader::{Came, Reader};
use std::alloc::Global;

fn floor(since: u64, generation: u64) -> Floor {
    Floor {
        since,
        snapshot: Snapshot {
            generation,
            writer: 9,
        },
    }
}

fn put(generation: u64, number: u64, part: Part, is_new: bool) -> Event {
    Event::Put(generation, Name { writer: 7, number }, part, is_new)
}

// What a change comes to.
fn came(reader: &mut Reader, revision: u64, event: Event, text: &[u8]) -> &'static str {
    match reader.take(revision, event, text) {
        Ok(Came::Nothing) => "nothing",
        Ok(Came::Whole) => "whole",
        Ok(Came::PartsMissing) => "missing",
        Err(LogFault::NoMemory) => "no memory",
        Err(LogFault::WentBack) => "went back",
    }
}

#[test]
fn the_text_of_an_entry_stands_until_the_next_change(rt: HostRuntime) {
    let mut reader = Reader::new(rt.alloc());
    let events: [(u64, Event, &[u8], &str, &[u8]); 9] = [
        (2, put(0, 1, Part::Piece(0), true), b"a", "nothing", b""),
        (3, put(0, 2, Part::Head, true), b"one", "whole", b"one"),
        (4, put(0, 1, Part::Piece(0), false), b"a", "nothing", b""),
        (5, put(0, 1, Part::Piece(1), true), b"nt", "nothing", b""),
        (6, put(0, 1, Part::Head, true), b" 6", "whole", b"ant 6"),
        (7, put(0, 3, Part::Piece(1), true), b"x", "nothing", b""),
        (8, put(0, 3, Part::Head, true), b"y", "missing", b""),
        (9, Event::Moved(floor(0, 1)), b"", "nothing", b""),
        (10, put(0, 4, Part::Head, true), b"late", "nothing", b""),
    ];
    for (revision, event, text, outcome, stands) in events {
        assert_eq!(rt; came(&mut reader, revision, event, text), outcome);
        assert_eq!(rt; reader.text(), stands);
    }
    assert!(rt; matches!(reader.generation(), Ok(1)));
}

#[test]
fn a_reader_is_over_where_the_cluster_went_back(rt: HostRuntime) {
    let mut reader = Reader::new(rt.alloc());
    assert_eq!(rt;
        came(&mut reader, 2, put(0, 1, Part::Head, true), b"one"),
        "whole"
    );
    assert_eq!(rt;
        came(&mut reader, 9, Event::Moved(floor(4, 1)), b""),
        "went back"
    );
    assert_eq!(rt; reader.text(), b"".as_slice());
    assert_eq!(rt;
        came(&mut reader, 10, put(0, 2, Part::Head, true), b"two"),
        "went back"
    );
    assert!(rt; matches!(reader.generation(), Err(LogFault::WentBack)));
    assert!(rt; matches!(reader.first_behind(3), Err(LogFault::WentBack)));
    assert!(rt; matches!(reader.may_be_left(3), Err(LogFault::WentBack)));
}

#[test]
fn a_reader_begins_behind(rt: HostRuntime) {
    let alloc: Global = rt.alloc();
    let mut reader = Reader::behind(alloc, floor(2, 2));
    assert!(rt; matches!(reader.generation(), Ok(1)));
    assert_eq!(rt;
        came(&mut reader, 4, put(1, 1, Part::Piece(0), true), b"a"),
        "nothing"
    );
    assert!(rt; matches!(reader.first_behind(5), Ok(3)));
    assert!(rt; matches!(reader.may_be_left(2), Ok(false)));
    assert!(rt; matches!(reader.may_be_left(5), Ok(true)));
    assert_eq!(rt;
        came(&mut reader, 6, put(1, 1, Part::Head, true), b"b"),
        "whole"
    );
    assert_eq!(rt; reader.text(), b"ab".as_slice());
    assert_eq!(rt;
        came(&mut reader, 7, Event::Moved(floor(2, 2)), b""),
        "nothing"
    );
    assert_eq!(rt;
        came(&mut reader, 7, Event::Moved(floor(2, 2)), b""),
        "nothing"
    );
    assert!(rt; matches!(reader.generation(), Ok(2)));
}
