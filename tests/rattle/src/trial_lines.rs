//! Transactions of clients, line by line, and the blocks that they become.

use am_line_dialogue::Response;
use am_line_text::LineFault;
use am_record::{HashKey, NoMemory, Reply, Value};
use am_replica::{Machine, Outcome, Replica};
use am_replica_digest::AnswerDigest;
use am_replica_entries::entry_text;
use am_replica_store::ReplicaStore;
use am_replica_texts::{EntryOutcome, apply_text};
use am_replica_trials::{LineTransaction, OpenTrial, TrialAnswer};
use sha2::Sha256;
use std::alloc::Global;
use std::test::Fail;

// A replica, and what is open in its store.
#[derive(Drop)]
struct Own {
    replica: Replica<ReplicaStore, AnswerDigest>,
    trial: OpenTrial<Sha256>,
}

fn replica(alloc: Global) -> Result<Own, Fail> {
    let replica = Replica {
        machine: ReplicaStore::new(alloc, HashKey::known())?,
        digest: AnswerDigest::new(alloc),
        commits: 0,
    };
    Ok(Own {
        replica,
        trial: OpenTrial::none(alloc),
    })
}

fn take(
    alloc: Global,
    transaction: &mut LineTransaction,
    own: &mut Own,
    line: &[u8],
) -> Result<TrialAnswer, NoMemory> {
    let Replica {
        machine,
        digest,
        commits: _,
    } = &mut own.replica;
    transaction.take(alloc, machine, digest, &mut own.trial, line)
}

// What a line is answered, in a few letters.
fn answer(
    alloc: Global,
    transaction: &mut LineTransaction,
    own: &mut Own,
    line: &[u8],
) -> Result<&'static str, Fail> {
    Ok(match take(alloc, transaction, own, line)? {
        TrialAnswer::Reply(Reply::Done) => "OK",
        TrialAnswer::Reply(Reply::Absent) => "NONE",
        TrialAnswer::Reply(Reply::Found(value)) => {
            if value == Value::new(b"2").unwrap() {
                "VAL 2"
            } else {
                "VAL"
            }
        }
        TrialAnswer::Reply(Reply::Refused(_)) => "refused",
        TrialAnswer::Reply(_) => "reply",
        TrialAnswer::Stage(Response::Staged) => "staged",
        TrialAnswer::Stage(_) => "not staged",
        TrialAnswer::Conflict => "conflict",
        TrialAnswer::Limit => "limit",
        TrialAnswer::Faulty(Response::Faulty(LineFault::Syntax)) => "no line",
        TrialAnswer::Faulty(_) => "faulty",
        TrialAnswer::Other => "other",
    })
}

fn begun(alloc: Global) -> Result<LineTransaction, Fail> {
    Ok(LineTransaction::new(alloc, &AnswerDigest::new(alloc))?)
}

// The transaction as an entry of its own: whether it committed.
fn commits(alloc: Global, transaction: LineTransaction, own: &mut Own) -> Result<bool, Fail> {
    own.replica.machine.abort()?;
    own.trial = OpenTrial::none(alloc);
    let block = transaction.into_block(alloc)?.unwrap();
    let text = entry_text(alloc, &vec![in alloc; block]?)?;
    match apply_text(&mut own.replica, alloc, &text)? {
        EntryOutcome::Applied(told) => Ok(matches!(told[0], Outcome::Committed(_, _))),
        EntryOutcome::Nothing => Ok(false),
    }
}

#[test]
fn lines_are_tried_and_commit(rt: HostRuntime) -> Result<(), Fail> {
    let alloc = rt.alloc();
    let mut replica = replica(alloc)?;
    let mut first = begun(alloc)?;
    let lines: [(&[u8], &str); 10] = [
        (b"GET ant", "NONE"),
        (b"STAGE ant=2 bee=3", "staged"),
        // What isn't a transaction's, or no line at all, does nothing.
        (b"COMMIT", "other"),
        (b"GET", "no line"),
        (b"SCAN z a 1", "faulty"),
        (b"SCAN a z 1001", "refused"),
        (b"GET ant\r", "NONE"),
        (b"LOAD cat=4", "OK"),
        (b"GET ant", "VAL 2"),
        (b"SET ant 2", "OK"),
    ];
    for (line, told) in lines {
        assert_eq!(rt; answer(alloc, &mut first, &mut replica, line)?, told);
    }
    // Nothing of it stayed, and another one commits before it.
    let mut second = begun(alloc)?;
    assert_eq!(rt;
        answer(alloc, &mut second, &mut replica, b"GET ant")?,
        "NONE"
    );
    assert_eq!(rt;
        answer(alloc, &mut second, &mut replica, b"SET dog 2")?,
        "OK"
    );
    assert!(rt; commits(alloc, second, &mut replica)?);
    // What the first one was told still comes.
    assert_eq!(rt;
        answer(alloc, &mut first, &mut replica, b"GET dog")?,
        "VAL 2"
    );
    assert!(rt; commits(alloc, first, &mut replica)?);
    assert_eq!(rt; replica.replica.commits, 2);
    Ok(())
}

#[test]
fn a_block_tells_how_many_lines_were_answered(rt: HostRuntime) -> Result<(), Fail> {
    let alloc = rt.alloc();
    let mut replica = replica(alloc)?;
    let mut first = begun(alloc)?;
    answer(alloc, &mut first, &mut replica, b"GET ant")?;
    answer(alloc, &mut first, &mut replica, b"STAGE bee=1")?;
    answer(alloc, &mut first, &mut replica, b"LOAD cat=2")?;
    let block = first.into_block(alloc)?.unwrap();
    assert!(rt; block.told.is_some_and(|told| told.lines == 3));
    Ok(())
}

#[test]
fn a_conflict_stays(rt: HostRuntime) -> Result<(), Fail> {
    let alloc = rt.alloc();
    let mut replica = replica(alloc)?;
    let mut first = begun(alloc)?;
    let mut second = begun(alloc)?;
    for transaction in [&mut first, &mut second] {
        assert_eq!(rt;
            answer(alloc, transaction, &mut replica, b"GET ant")?,
            "NONE"
        );
        assert_eq!(rt;
            answer(alloc, transaction, &mut replica, b"SET ant 2")?,
            "OK"
        );
    }
    assert!(rt; commits(alloc, second, &mut replica)?);
    for line in [b"GET bee".as_slice(), b"STAGE bee=1", b"SET bee 1"] {
        assert_eq!(rt; answer(alloc, &mut first, &mut replica, line)?, "conflict");
    }
    assert_eq!(rt; answer(alloc, &mut first, &mut replica, b"ABORT")?, "other");
    assert!(rt; !commits(alloc, first, &mut replica)?);
    Ok(())
}

#[test]
fn a_block_has_a_bound(rt: HostRuntime) -> Result<(), Fail> {
    let alloc = rt.alloc();
    let mut replica = replica(alloc)?;
    let mut transaction = begun(alloc)?;
    // A line is counted with 100 bytes more: of these no more than 587,155 have room.
    for _ in 0..587_155 {
        let told = take(alloc, &mut transaction, &mut replica, b"STAGE a=1")?;
        assert!(rt; matches!(told, TrialAnswer::Stage(_)));
    }
    assert_eq!(rt;
        answer(alloc, &mut transaction, &mut replica, b"STAGE a=1")?,
        "limit"
    );
    // What is left is just enough for a shorter one.
    for told in ["NONE", "limit"] {
        assert_eq!(rt;
            answer(alloc, &mut transaction, &mut replica, b"GET a")?,
            told
        );
    }
    assert_eq!(rt;
        answer(alloc, &mut transaction, &mut replica, b"WHAT")?,
        "no line"
    );
    Ok(())
}

#[test]
fn transactions_take_turns(rt: HostRuntime) -> Result<(), Fail> {
    let alloc = rt.alloc();
    let mut replica = replica(alloc)?;
    let mut first = begun(alloc)?;
    let mut second = begun(alloc)?;
    // They have the same first line, and are told what each wrote alone.
    for transaction in [&mut first, &mut second] {
        assert_eq!(rt;
            answer(alloc, transaction, &mut replica, b"GET ant")?,
            "NONE"
        );
    }
    for (is_first, line, told) in [
        (true, b"SET ant 2".as_slice(), "OK"),
        (false, b"STAGE bee=2", "staged"),
        (true, b"GET ant", "VAL 2"),
        (false, b"GET ant", "NONE"),
        (false, b"LOAD cat=1", "OK"),
        (false, b"GET bee", "VAL 2"),
        (true, b"GET bee", "NONE"),
    ] {
        let transaction = if is_first { &mut first } else { &mut second };
        assert_eq!(rt; answer(alloc, transaction, &mut replica, line)?, told);
    }
    assert!(rt; commits(alloc, second, &mut replica)?);
    assert_eq!(rt;
        answer(alloc, &mut first, &mut replica, b"GET dog")?,
        "conflict"
    );
    Ok(())
}

#[test]
fn records_that_wait_make_no_block(rt: HostRuntime) -> Result<(), Fail> {
    let alloc = rt.alloc();
    let mut replica = replica(alloc)?;
    let mut transaction = begun(alloc)?;
    for (line, told) in [(b"GET ant".as_slice(), "NONE"), (b"STAGE ant=2", "staged")] {
        assert_eq!(rt; answer(alloc, &mut transaction, &mut replica, line)?, told);
    }
    assert!(rt; transaction.into_block(alloc)?.is_none());
    Ok(())
}
