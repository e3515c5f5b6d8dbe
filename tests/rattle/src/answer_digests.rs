//! Digests of answers: those of Python's hashlib over the same lines.

use am_record::{Key, Records, Refusal, Reply, Value};
use am_replica::Digest;
use am_replica_digest::AnswerDigest;
use std::test::Fail;

// hashlib.sha256(b"OK\nVAL 6\nNONE\nROWS 2 ant=6 bee=7\n")
const OF_FOUR: [u8; 32] = [
    15, 95, 251, 31, 144, 117, 48, 235, 64, 102, 181, 5, 242, 234, 145, 74, 59, 90, 247, 129, 138,
    189, 187, 12, 67, 63, 30, 15, 68, 188, 36, 60,
];

fn value(text: &[u8]) -> Value {
    Value::new(text).unwrap()
}

#[test]
fn answers_have_the_digest_of_their_lines(rt: HostRuntime) -> Result<(), Fail> {
    let alloc = rt.alloc();
    let digest = AnswerDigest::new(alloc);
    let rows = Records::new(vec![in alloc;
        (Key::new(b"ant").unwrap(), value(b"6")),
        (Key::new(b"bee").unwrap(), value(b"7")),
    ]?);
    let mut replies = vec![in alloc;
        Reply::Done,
        Reply::Found(value(b"6")),
        Reply::Absent,
        Reply::Rows(rows),
    ]?;
    assert!(rt; digest.digest(&replies)? == OF_FOUR);
    // A line that was refused isn't among them.
    replies.push(Reply::Refused(Refusal::BadLimit))?;
    assert!(rt; digest.digest(&replies)? == OF_FOUR);
    replies.push(Reply::Done)?;
    assert!(rt; digest.digest(&replies)? != OF_FOUR);
    // Of none: e3b0c442..
    assert!(rt; digest.digest(&[])?[..4] == [0xe3, 0xb0, 0xc4, 0x42]);
    Ok(())
}
