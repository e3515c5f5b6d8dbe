//! What the client of a block is told in the end.

use am_record::{Reply, Value};
use am_replica::Outcome;
use am_replica_entries::{Block, Told};
use am_replica_outcomes::outcome_text;
use std::alloc::Global;
use std::test::Fail;

// A block of four lines, of which so many were answered before.
fn block(alloc: Global, told: u32) -> Result<Block, Fail> {
    Ok(Block {
        lines: Vec::from_slice(alloc, b"GET ant\nSTAGE ant=2 bee=3\nLOAD cat=4\nGET ant\n")?,
        told: if told == 0 {
            None
        } else {
            Some(Told {
                lines: told,
                digest: [0; 32],
            })
        },
    })
}

#[test]
fn a_client_is_told_what_it_was_not_told_before(rt: HostRuntime) -> Result<(), Fail> {
    let alloc = rt.alloc();
    let replies = vec![in alloc;
        Reply::Absent,
        Reply::Done,
        Reply::Found(Value::new(b"2").unwrap()),
    ]?;
    let outcome = Outcome::Committed(7, replies);
    let ends: [(u32, &[u8]); 5] = [
        (0, b"NONE\nOK\nOK\nVAL 2\nCOMMITTED 7\n"),
        (1, b"OK\nOK\nVAL 2\nCOMMITTED 7\n"),
        (2, b"OK\nVAL 2\nCOMMITTED 7\n"),
        (3, b"VAL 2\nCOMMITTED 7\n"),
        (4, b"COMMITTED 7\n"),
    ];
    // Each line that has no answer yet has one, and so has COMMIT.
    let conflicts = b"ERR CONFLICT\n".repeat(alloc, 5)?;
    for (told, text) in ends {
        let block = block(alloc, told)?;
        assert_eq!(rt; outcome_text(alloc, &block, &outcome)?.as_slice(), text);
        let fails = outcome_text(alloc, &block, &Outcome::Conflict)?;
        assert_eq!(rt; fails.as_slice(), &conflicts[13 * (told as usize)..]);
    }
    Ok(())
}

#[test]
fn lines_beyond_a_run_wait_no_more(rt: HostRuntime) -> Result<(), Fail> {
    let alloc = rt.alloc();
    // One more record than a run may have is refused where it stands, and the block goes on.
    let mut lines = Vec::new(alloc);
    for _ in 0..65_536 {
        lines.extend_from_slice(b"STAGE a=1\n")?;
    }
    lines.extend_from_slice(b"STAGE b=1\nGET a\n")?;
    let told = Some(Told {
        lines: 65_536,
        digest: [0; 32],
    });
    let block = Block { lines, told };
    let outcome = Outcome::Committed(1, vec![in alloc; Reply::Absent]?);
    assert_eq!(rt;
        outcome_text(alloc, &block, &outcome)?.as_slice(),
        b"ERR LIMIT\nNONE\nCOMMITTED 1\n".as_slice()
    );
    Ok(())
}
