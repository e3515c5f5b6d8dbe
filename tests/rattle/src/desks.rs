//! A replica at its desk.

use am_record::HashKey;
use am_replica_desk::{Desk, Fault};
use am_replica_digest::AnswerDigest;
use am_replica_trials::LineTransaction;
use std::alloc::Global;
use std::test::Fail;

fn begun(alloc: Global) -> Result<LineTransaction, Fail> {
    Ok(LineTransaction::new(alloc, &AnswerDigest::new(alloc))?)
}

// The answer to a line.
fn told<'a>(
    desk: &'a mut Desk,
    transaction: &mut LineTransaction,
    line: &[u8],
) -> Result<&'a [u8], Fail> {
    match desk.take_line(transaction, line) {
        Ok(()) => Ok(desk.answer()),
        Err(Fault::OtherLine) => Ok(b"other"),
        Err(_) => Ok(b"ended"),
    }
}

#[test]
fn a_transaction_is_tried_and_comes_in_the_log(rt: HostRuntime) -> Result<(), Fail> {
    let alloc = rt.alloc();
    let mut desk = Desk::new(alloc, HashKey::known())?;
    let mut first = begun(alloc)?;
    let mut second = begun(alloc)?;
    let lines: [(&[u8], &[u8]); 6] = [
        (b"GET ant", b"NONE\n"),
        (b"SET ant 6", b"OK\n"),
        (b"GET ant", b"VAL 6\n"),
        (b"GET", b"ERR SYNTAX\n"),
        (b"COMMIT", b""),
        (b"GET ant\nGET bee", b"other"),
    ];
    for (line, answer) in lines {
        assert_eq!(rt; told(&mut desk, &mut first, line)?, answer);
    }
    // Nothing of it stays.
    assert_eq!(rt;
        told(&mut desk, &mut second, b"GET ant")?,
        b"NONE\n".as_slice()
    );
    assert_eq!(rt; desk.commits(), Some(0));
    // The first one commits, and so the second one doesn't, which has read what that one wrote.
    for (transaction, answer, commits) in [
        (first, b"COMMITTED 1\n".as_slice(), 1),
        (second, b"ERR CONFLICT\n", 1),
    ] {
        assert!(rt; desk.put_block(transaction).is_ok());
        let entry = Vec::from_slice(alloc, desk.answer())?;
        assert!(rt; desk.take_text(&entry).is_ok());
        assert_eq!(rt; desk.answer(), answer);
        assert_eq!(rt; desk.commits(), Some(commits));
    }
    Ok(())
}

#[test]
fn a_desk_is_kept_up(rt: HostRuntime) -> Result<(), Fail> {
    let alloc = rt.alloc();
    let mut desk = Desk::new(alloc, HashKey::known())?;
    for text in [
        b"".as_slice(),
        b"\x01\0\0\0\x01",
        b"\x01\0\0\0\x01\0\0\0\x07COMMIT\n\0",
    ] {
        assert!(rt; matches!(desk.take_text(text), Err(Fault::NoEntry)));
        assert_eq!(rt; desk.answer(), b"".as_slice());
    }
    let loads = b"\x01\0\0\0\x01\0\0\0\x0eLOAD ant=6 b=1\0";
    let mut text = Vec::from_slice(alloc, b"\x01\0\0\0\x01\0\0\0\x0fLOAD ant=6 b=1\n\0")?;
    assert!(rt; desk.take_text(&text).is_ok());
    assert_eq!(rt; desk.answer(), b"OK\nCOMMITTED 1\n".as_slice());
    text.clear();
    // One with no LF at its end is the same, and is refused, as its records are there.
    assert!(rt; desk.take_text(loads).is_ok());
    assert_eq!(rt; desk.answer(), b"EXISTS ant\nCOMMITTED 2\n".as_slice());
    // A snapshot's records are those of that many commits.
    assert!(rt; desk.restore(41).is_ok());
    assert!(rt; desk.renew(HashKey::known()).is_ok());
    assert_eq!(rt; desk.commits(), Some(41));
    let mut look = begun(alloc)?;
    assert_eq!(rt;
        told(&mut desk, &mut look, b"SCAN a z 9")?,
        b"ROWS 2 ant=6 b=1\n".as_slice()
    );
    for (line, answer) in [
        (b"MERGE 8".as_slice(), b"MOVED 2 1\n".as_slice()),
        (b"CLEAN a z 8", b"CLEANED 0\n"),
    ] {
        assert!(rt; desk.keep_up(line).is_ok());
        assert_eq!(rt; desk.answer(), answer);
    }
    assert!(rt; matches!(desk.keep_up(b"GET ant"), Err(Fault::OtherLine)));
    Ok(())
}

#[test]
fn a_transaction_stays_open_beside_other_calls(rt: HostRuntime) -> Result<(), Fail> {
    let alloc = rt.alloc();
    let mut desk = Desk::new(alloc, HashKey::known())?;
    let mut first = begun(alloc)?;
    let mut second = begun(alloc)?;
    // Whatever comes between, its lines are answered as if it had come whole.
    for between in 0..6 {
        assert_eq!(rt;
            told(&mut desk, &mut first, b"SET ant 6")?,
            b"OK\n".as_slice()
        );
        match between {
            0 => assert!(rt; desk.keep_up(b"MERGE 8").is_ok()),
            1 => assert!(rt; desk.renew(HashKey::known()).is_ok()),
            2 => assert!(rt; desk.restore(41).is_ok()),
            3 => assert!(rt; matches!(desk.take_text(b"none"), Err(Fault::NoEntry))),
            4 => {
                let entry = b"\x01\0\0\0\x01\0\0\0\x0aSET bee 7\n\0";
                assert!(rt; desk.take_text(entry).is_ok());
                assert_eq!(rt; desk.answer(), b"OK\nCOMMITTED 42\n".as_slice());
            }
            _ => assert_eq!(rt;
                told(&mut desk, &mut second, b"GET ant")?,
                b"NONE\n".as_slice()
            ),
        }
        assert_eq!(rt;
            told(&mut desk, &mut first, b"GET ant")?,
            b"VAL 6\n".as_slice()
        );
    }
    assert_eq!(rt;
        told(&mut desk, &mut first, b"GET bee")?,
        b"VAL 7\n".as_slice()
    );
    assert_eq!(rt;
        told(&mut desk, &mut second, b"STAGE cow=1")?,
        b"OK\n".as_slice()
    );
    assert!(rt; matches!(desk.put_block(second), Err(Fault::Staged)));
    assert_eq!(rt; desk.answer(), b"".as_slice());
    assert!(rt; desk.put_block(first).is_ok());
    Ok(())
}
