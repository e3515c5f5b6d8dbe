//! The first session, its bytes cut and its streams failing.

use am_line_alone::serve_in_memory;
use am_line_session::End;
use am_line_sink::StopSink;
use am_line_source::PieceSource;
use am_record::{HashKey, NoMemory};
use std::alloc::Global;
use std::process::Abort;
use std::rt::Clock;
use std::sync::Wait;
use std::test::Fail;

const LINES: &[u8] = b"BEGIN\nINS 5 a\nGET 5\nCOMMIT\nQUIT\n";

const ANSWERS: &[u8] = b"BEGUN 1\nOK\nVAL a\nCOMMITTED 1\nBYE\n";

/// What a session writes for the lines, with a failure at these calls, and how it ends.
fn session<R: Wait + Clock>(
    rt: &R,
    alloc: Global,
    lines: &[u8],
    read_fails: u64,
    write_fails: u64,
) -> Result<(Vec<u8>, End), NoMemory> {
    let mut source = PieceSource::new(lines, &[], read_fails);
    let mut sink = StopSink::new(alloc, write_fails);
    let end = serve_in_memory(rt, alloc, &mut source, &mut sink, 0, HashKey::known());
    if end == End::NoMemory {
        return Err(NoMemory);
    }
    Ok((sink.into_bytes(), end))
}

/// Whether the session wrote a beginning of its answers.
fn begins<R: Wait + Abort + Clock>(
    rt: &R,
    alloc: Global,
    read_fails: u64,
    write_fails: u64,
) -> Result<End, NoMemory> {
    let (text, end) = session(rt, alloc, LINES, read_fails, write_fails)?;
    assert!(rt; ANSWERS.starts_with(text.as_slice()));
    Ok(end)
}

#[test]
fn first_session(rt: HostRuntime) -> Result<(), Fail> {
    let (text, end) = session(&rt, rt.alloc(), LINES, 0, 0)?;
    assert!(rt; text.as_slice() == ANSWERS && end == End::Quit);
    Ok(())
}

#[test]
fn first_session_with_each_read_failing(rt: HostRuntime) -> Result<(), Fail> {
    for call in 1..=LINES.len() as u64 {
        assert!(rt; begins(&rt, rt.alloc(), call, 0)? == End::ReadFailed);
    }
    Ok(())
}

#[test]
fn first_session_with_each_write_failing(rt: HostRuntime) -> Result<(), Fail> {
    for call in 1..=10 {
        assert!(rt; begins(&rt, rt.alloc(), 0, call)? == End::WriteFailed);
    }
    Ok(())
}

// The line that isn't ended is not answered.
#[test]
fn a_read_fails_within_a_line(rt: HostRuntime) -> Result<(), Fail> {
    let (text, end) = session(&rt, rt.alloc(), b"BEGIN\nINS 5 a", 14, 0)?;
    assert!(rt; text.as_slice() == b"BEGUN 1\n".as_slice() && end == End::ReadFailed);
    Ok(())
}
