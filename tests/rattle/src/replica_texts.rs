//! Entries of the replicas' log as bytes, and the bytes that are none.

use am_replica_entries::{Block, Fault, ReadError, Told, entry_text, read_entry};
use std::alloc::Global;
use std::test::Fail;

// A block that was told nothing, and one of whose lines one was answered, with a digest of 32 times 9.
const FRONT: &[u8] = b"\x01\0\0\0\x02\0\0\0\x06INS 1\n\0\0\0\0\x0cGET 1\nDEL 1\n\x01\0\0\0\x01";

fn two_blocks(alloc: Global) -> Result<Vec<u8>, Fail> {
    let mut bytes = Vec::from_slice(alloc, FRONT)?;
    bytes.extend_from_slice(&[9; 32])?;
    Ok(bytes)
}

fn fault(alloc: Global, text: &[u8]) -> Option<Fault> {
    match read_entry(alloc, text) {
        Err(ReadError::NoEntry(fault)) => Some(fault),
        _ => None,
    }
}

#[test]
fn an_entry_has_these_bytes(rt: HostRuntime) -> Result<(), Fail> {
    let alloc = rt.alloc();
    let told = Told {
        lines: 1,
        digest: [9; 32],
    };
    let blocks = vec![in alloc;
        Block {
            lines: Vec::from_slice(alloc, b"INS 1\n")?,
            told: None
        },
        Block {
            lines: Vec::from_slice(alloc, b"GET 1\nDEL 1\n")?,
            told: Some(told)
        },
    ]?;
    let text = entry_text(alloc, &blocks)?;
    assert!(rt; text.as_slice() == two_blocks(alloc)?.as_slice());
    // A block that was told nothing takes five bytes beside its lines.
    assert_eq!(rt; entry_text(alloc, &blocks[..1])?.len(), 5 + 5 + 6);
    assert_eq!(rt;
        entry_text(alloc, &[])?.as_slice(),
        b"\x01\0\0\0\0".as_slice()
    );
    Ok(())
}

#[test]
fn an_entry_is_read_again(rt: HostRuntime) -> Result<(), Fail> {
    let alloc = rt.alloc();
    let text = two_blocks(alloc)?;
    let blocks = read_entry(alloc, &text).ok().ok_or("it is an entry")?;
    assert_eq!(rt; blocks.len(), 2);
    assert!(rt; blocks[0].lines.as_slice() == b"INS 1\n".as_slice() && blocks[0].told.is_none());
    assert!(rt; blocks[1].lines.as_slice() == b"GET 1\nDEL 1\n".as_slice());
    assert!(rt;
        blocks[1]
            .told
            .is_some_and(|it| it.lines == 1 && it.digest == [9; 32])
    );
    Ok(())
}

#[test]
fn what_is_no_entry_has_a_fault(rt: HostRuntime) -> Result<(), Fail> {
    let alloc = rt.alloc();
    let mut text = two_blocks(alloc)?;
    // No front of it is one.
    for length in 0..text.len() {
        assert!(rt;
            fault(alloc, &text[..length]) == Some(Fault::Short),
            "{length}"
        );
    }
    text.push(0)?;
    assert!(rt; fault(alloc, &text) == Some(Fault::Trailing));
    // One of before there were forms, and one of a form to come.
    assert!(rt; fault(alloc, b"1\n6 1 0 e3b0\nBEGIN\nINS 1\nCOMMIT\n") == Some(Fault::OldForm));
    assert!(rt; fault(alloc, b"\x02\0\0\0\0") == Some(Fault::OtherForm));
    // Lines were answered or weren't, and a digest is of some answers.
    assert!(rt; fault(alloc, b"\x01\0\0\0\x01\0\0\0\0\x02") == Some(Fault::Flag));
    let told = b"\x01\0\0\0\x01\0\0\0\0\x01\0\0\0\0";
    assert!(rt; fault(alloc, told) == Some(Fault::NothingTold));
    // So many blocks want no memory before they are there.
    assert!(rt; fault(alloc, b"\x01\xff\xff\xff\xff") == Some(Fault::Short));
    Ok(())
}
