//! Entries as texts, into a replica over its store.

use am_record::{HashKey, Reply, Value};
use am_replica::{Digest, Outcome, Replica};
use am_replica_digest::AnswerDigest;
use am_replica_entries::{Block, Told, entry_text};
use am_replica_store::ReplicaStore;
use am_replica_texts::{EntryOutcome, apply_text};
use std::alloc::Global;
use std::test::Fail;

fn replica(alloc: Global) -> Result<Replica<ReplicaStore, AnswerDigest>, Fail> {
    Ok(Replica {
        machine: ReplicaStore::new(alloc, HashKey::known())?,
        digest: AnswerDigest::new(alloc),
        commits: 0,
    })
}

fn block(alloc: Global, lines: &[u8], told: Option<Told>) -> Result<Block, Fail> {
    Ok(Block {
        lines: Vec::from_slice(alloc, lines)?,
        told,
    })
}

#[test]
fn replicas_of_one_log_tell_the_same(rt: HostRuntime) -> Result<(), Fail> {
    let alloc = rt.alloc();
    // Told that there is no `ant`, two sessions insert it.
    let absent = Told {
        lines: 1,
        digest: AnswerDigest::new(alloc).digest(&[Reply::Absent])?,
    };
    let first = entry_text(
        alloc,
        &vec![in alloc;
            block(alloc, b"STAGE cat=1 dog=2\nLOAD eel=3\nSCAN a z 9\n", None)?,
            block(alloc, b"GET ant\nINS ant 4\n", Some(absent))?,
            block(alloc, b"GET ant\nINS ant 5\n", Some(absent))?,
        ]?,
    )?;
    let second = entry_text(
        alloc,
        &vec![in alloc; block(alloc, b"GET ant\nGET bee", None)?]?,
    )?;
    for _ in 0..2 {
        let mut replica = replica(alloc)?;
        let EntryOutcome::Applied(told) = apply_text(&mut replica, alloc, &first)? else {
            panic!(rt; "an entry is one");
        };
        assert!(rt; matches!(&told[0], Outcome::Committed(1, replies) if replies.len() == 2));
        assert!(rt;
            matches!(&told[1], Outcome::Committed(2, replies) if replies[1] == Reply::Done)
        );
        assert!(rt; matches!(&told[2], Outcome::Conflict));
        // No entry, and one with a line that is none of a block's.
        let none = apply_text(&mut replica, alloc, b"1\n")?;
        assert!(rt; matches!(none, EntryOutcome::Nothing));
        let other = entry_text(
            alloc,
            &vec![in alloc; block(alloc, b"DEL ant\nCOMMIT\n", None)?]?,
        )?;
        assert!(rt;
            matches!(
                apply_text(&mut replica, alloc, &other)?,
                EntryOutcome::Nothing
            )
        );
        let EntryOutcome::Applied(told) = apply_text(&mut replica, alloc, &second)? else {
            panic!(rt; "an entry is one");
        };
        let found = Reply::Found(Value::new(b"4").unwrap());
        assert!(rt;
            matches!(&told[0], Outcome::Committed(3, replies) if replies[0] == found && replies[1] == Reply::Absent)
        );
    }
    Ok(())
}
