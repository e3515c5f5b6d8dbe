//! Worked sessions over bytes in memory, from the first byte to the end.

use crate::rows;
use crate::scene::Exchange;
use am_line_alone::serve_in_memory;
use am_line_session::End;
use am_line_sink::StopSink;
use am_line_source::PieceSource;
use am_record::{HashKey, NoMemory};
use std::alloc::Global;
use std::process::Abort;
use std::rt::Clock;
use std::sync::Wait;

// Whether a line was answered with want of memory.
fn tells_no_memory(text: &[u8]) -> bool {
    text.windows(10)
        .any(|words| words == b"ERR MEMORY".as_slice())
}

/// Which call of the source or the sink fails.
#[derive(Clone, Copy, Debug, PartialEq, Eq)]
enum Failing {
    Nothing,
    Read(u64),
    Write(u64),
}

// What a session on the input, which comes in pieces of these sizes and then byte by byte, writes, and how it ends.
fn talk<R: Wait + Clock>(
    rt: &R,
    alloc: Global,
    input: &[u8],
    sizes: &[usize],
    failing: Failing,
    auto: u64,
) -> Result<(Vec<u8>, End), NoMemory> {
    let (read, write) = match failing {
        Failing::Nothing => (0, 0),
        Failing::Read(call) => (call, 0),
        Failing::Write(call) => (0, call),
    };
    let mut source = PieceSource::new(input, sizes, read);
    let mut sink = StopSink::new(alloc, write);
    let end = serve_in_memory(rt, alloc, &mut source, &mut sink, auto, HashKey::known());
    let text = sink.into_bytes();
    if wants_memory(failing, end) || tells_no_memory(text.as_slice()) {
        return Err(NoMemory);
    }
    Ok((text, end))
}

// Whether memory was refused, for which the sink fails too.
fn wants_memory(failing: Failing, end: End) -> bool {
    match end {
        End::NoMemory => true,
        End::WriteFailed => !matches!(failing, Failing::Write(_)),
        End::Quit | End::EndedItself | End::EndedByAnother | End::EndOfInput | End::ReadFailed =>
            false,
    }
}

// Whether the session on the input, in one piece and byte by byte, writes just this.
fn says<R: Wait + Abort + Clock>(
    rt: &R,
    alloc: Global,
    auto: u64,
    input: &[u8],
    expected: &[u8],
    expected_end: End,
) -> Result<(), NoMemory> {
    for sizes in [[input.len()].as_slice(), [].as_slice()] {
        let (text, end) = talk(rt, alloc, input, sizes, Failing::Nothing, auto)?;
        assert_eq!(rt; text.as_slice(), expected);
        assert_eq!(rt; end, expected_end);
    }
    Ok(())
}

fn push_line(text: &mut Vec<u8>, words: &[u8]) -> Result<(), NoMemory> {
    text.extend_from_slice(words)?;
    text.push(b'\n')?;
    Ok(())
}

/// The lines of some exchanges, and the lines of their answers.
#[derive(Drop)]
struct Script {
    input: Vec<u8>,
    output: Vec<u8>,
}

impl Script {
    fn of(alloc: Global, row: &[Exchange]) -> Result<Script, NoMemory> {
        let mut script = Script {
            input: Vec::new(alloc),
            output: Vec::new(alloc),
        };
        for (line, answer) in row {
            push_line(&mut script.input, line.as_bytes())?;
            push_line(&mut script.output, answer.as_bytes())?;
        }
        Ok(script)
    }

    // Whether a session says this up to the end of its input.
    fn is_said<R: Wait + Abort + Clock>(
        &self,
        rt: &R,
        alloc: Global,
        auto: u64,
    ) -> Result<(), NoMemory> {
        let (input, output) = (self.input.as_slice(), self.output.as_slice());
        says(rt, alloc, auto, input, output, End::EndOfInput)
    }
}

#[test]
fn rows_of_one_session(rt: HostRuntime) -> Result<(), NoMemory> {
    for row in rows::NEVER_MERGED {
        let script = Script::of(rt.alloc(), row)?;
        script.is_said(&rt, rt.alloc(), 0)?;
        script.is_said(&rt, rt.alloc(), 16)?;
    }
    for row in rows::MERGED {
        let script = Script::of(rt.alloc(), row)?;
        script.is_said(&rt, rt.alloc(), 0)?;
    }
    Ok(())
}

const FIRST_INPUT: &[u8] = b"BEGIN\nINS 5 a\nGET 5\nCOMMIT\nQUIT\n";

const FIRST_OUTPUT: &[u8] = b"BEGUN 1\nOK\nVAL a\nCOMMITTED 1\nBYE\n";

#[test]
fn first_session(rt: HostRuntime) -> Result<(), NoMemory> {
    says(&rt, rt.alloc(), 0, FIRST_INPUT, FIRST_OUTPUT, End::Quit)
}

#[test]
fn byte_by_byte(rt: HostRuntime) -> Result<(), NoMemory> {
    says(&rt, rt.alloc(), 16, FIRST_INPUT, FIRST_OUTPUT, End::Quit)
}

#[test]
fn empty_input_and_empty_line(rt: HostRuntime) -> Result<(), NoMemory> {
    says(&rt, rt.alloc(), 0, b"", b"", End::EndOfInput)?;
    says(&rt, rt.alloc(), 0, b"\n", b"ERR SYNTAX\n", End::EndOfInput)
}

#[test]
fn line_without_end(rt: HostRuntime) -> Result<(), NoMemory> {
    says(&rt, rt.alloc(), 0, b"BEGIN", b"BEGUN 1\n", End::EndOfInput)
}

#[test]
fn quit_ends_the_session(rt: HostRuntime) -> Result<(), NoMemory> {
    let input = b"BEGIN\nINS 1 a\nQUIT\nGET 1\n";
    says(&rt, rt.alloc(), 0, input, b"BEGUN 1\nOK\nBYE\n", End::Quit)
}

// Whether a line that begins so and goes on with this byte, so many times, and then the rest is answered so.
fn long_lines_say<R: Wait + Abort + Clock>(
    rt: &R,
    alloc: Global,
    line: (&[u8], u8, usize),
    rest: &[u8],
    expected: &[u8],
) -> Result<(), NoMemory> {
    let (start, byte, times) = line;
    let mut input = Vec::from_slice(alloc, start)?;
    input.extend_from_slice(vec![in alloc; byte; times]?.as_slice())?;
    input.extend_from_slice(rest)?;
    says(rt, alloc, 0, input.as_slice(), expected, End::EndOfInput)
}

#[test]
fn long_line(rt: HostRuntime) -> Result<(), NoMemory> {
    for (times, rest, expected) in [
        (
            4097,
            b"\nMERGE 1\n".as_slice(),
            b"ERR LONG\nIDLE\n".as_slice(),
        ),
        (4096, b"\nGET 5\n", b"ERR SYNTAX\nERR NOTX\n"),
        (4096, b"\r\nGET 5\n", b"ERR LONG\nERR NOTX\n"),
        (4095, b"\r\nGET 5\n", b"ERR SYNTAX\nERR NOTX\n"),
    ] {
        long_lines_say(&rt, rt.alloc(), (b"", b'A', times), rest, expected)?;
    }
    Ok(())
}

#[test]
fn long_key(rt: HostRuntime) -> Result<(), NoMemory> {
    for (rest, expected) in [
        (b"\nBEGIN\n".as_slice(), b"ERR RANGE\nBEGUN 1\n".as_slice()),
        (b"\r\nBEGIN\n", b"ERR LONG\nBEGUN 1\n"),
    ] {
        long_lines_say(&rt, rt.alloc(), (b"GET ", b'9', 4092), rest, expected)?;
    }
    Ok(())
}

#[test]
fn a_failing_source_ends_the_session(rt: HostRuntime) -> Result<(), NoMemory> {
    let input = b"BEGIN\nINS 5 a\n".as_slice();
    let (text, end) = talk(&rt, rt.alloc(), input, &[6, 7], Failing::Read(3), 0)?;
    assert_eq!(rt; end, End::ReadFailed);
    assert_eq!(rt; text.as_slice(), b"BEGUN 1\n".as_slice());
    Ok(())
}

// Whether the first session ends so where that call fails, and writes a beginning of its text.
fn breaks_off<R: Wait + Abort + Clock>(
    rt: &R,
    alloc: Global,
    sizes: &[usize],
    failing: Failing,
    expected_end: End,
) -> Result<(), NoMemory> {
    let (text, end) = talk(rt, alloc, FIRST_INPUT, sizes, failing, 0)?;
    assert_eq!(rt; end, expected_end);
    assert!(rt; FIRST_OUTPUT.starts_with(text.as_slice()), "{text:?}");
    Ok(())
}

#[test]
fn each_read_failing_leaves_a_beginning(rt: HostRuntime) -> Result<(), NoMemory> {
    let bytes = FIRST_INPUT.len() as u64;
    for call in 1..=bytes {
        breaks_off(&rt, rt.alloc(), &[], Failing::Read(call), End::ReadFailed)?;
    }
    Ok(())
}

#[test]
fn each_write_failing_leaves_a_beginning(rt: HostRuntime) -> Result<(), NoMemory> {
    // Byte by byte each of the five answers is given and sent on; all at once they are given, and sent on together.
    for (sizes, calls) in [([].as_slice(), 10), (&[FIRST_INPUT.len()], 6)] {
        for call in 1..=calls {
            breaks_off(
                &rt,
                rt.alloc(),
                sizes,
                Failing::Write(call),
                End::WriteFailed,
            )?;
        }
    }
    Ok(())
}
