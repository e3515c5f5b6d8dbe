//! Lines, however their bytes come.

use am_line_sink::{Sink, StopSink};
use am_line_source::{AnsweredSource, Coming, Input, LineBuffer, LineKind, PieceSource, read_line};
use std::alloc::Global;
use std::process::Abort;
use std::sync::Wait;

fn write(rt: &impl Abort, seen: &mut Vec<u8>, bytes: &[u8]) {
    seen.extend_from_slice(bytes).expect(rt, "memory");
}

/// The lines of a source, written down: a text and `|` where an LF ended it, else `$`; `LONG` for one that is too long.
/// A failure is written as `!`, and is the end.
pub fn lines_of<W: Wait + Abort, K: Sink, S: AnsweredSource<K>>(
    rt: &W,
    alloc: Global,
    source: &mut S,
    sink: &K,
) -> Vec<u8> {
    let mut input = Input::new(alloc).expect(rt, "memory");
    let mut line = LineBuffer::new(alloc).expect(rt, "memory");
    let mut seen = Vec::new(alloc);
    'lines: for _ in 0..100 {
        line.clear();
        let Ok(coming) = read_line(rt, &mut input, source, sink, &mut line, false) else {
            write(rt, &mut seen, b"!");
            return seen;
        };
        let Coming::Line(found) = coming else {
            return seen;
        };
        match found.kind {
            LineKind::Text => write(rt, &mut seen, line.as_slice()),
            LineKind::Long => write(rt, &mut seen, b"LONG"),
        }
        if !found.is_ended {
            write(rt, &mut seen, b"$");
            return seen;
        }
        write(rt, &mut seen, b"|");
    }
    seen
}

pub const LINES: &[u8] = b"BEGIN\r\nA\rB\n\nQUIT\r\r\nLAST";

pub const SEEN: &[u8] = b"BEGIN|A\rB||QUIT\r|LAST$";

// A source of these pieces of a text has these lines.
fn has_lines<W: Wait + Abort>(rt: &W, alloc: Global, text: &[u8], pieces: &[usize], lines: &[u8]) {
    let sink = StopSink::new(alloc, 0);
    let mut source = PieceSource::new(text, pieces, 0);
    let seen = lines_of(rt, alloc, &mut source, &sink);
    assert!(rt; seen.as_slice() == lines, "pieces of {pieces:?}");
}

#[test]
fn pieces_of_every_size_give_the_same_lines(rt: HostRuntime) {
    for size in 0..30 {
        has_lines(&rt, rt.alloc(), LINES, &[size; 30], SEEN);
    }
}

// A line of so many letters with this end, before another line.
fn long_then_short<W: Wait + Abort>(rt: &W, alloc: Global, len: usize, end: &[u8], is_long: bool) {
    let mut bytes = vec![in alloc; b'A'; len].expect(rt, "memory");
    let mut wanted = Vec::new(alloc);
    write(
        rt,
        &mut wanted,
        if is_long { b"LONG" } else { bytes.as_slice() },
    );
    write(rt, &mut wanted, b"|GET 5|");
    write(rt, &mut bytes, end);
    write(rt, &mut bytes, b"GET 5\n");
    has_lines(rt, alloc, &bytes, &[4096, 1, 4000], &wanted);
}

#[test]
fn a_line_has_at_most_4096_bytes_and_a_long_one_is_passed_over(rt: HostRuntime) {
    for (len, end, is_long) in [
        (4096, b"\n".as_slice(), false),
        (4095, b"\r\n", false),
        (4096, b"\r\n", true),
        (4097, b"\n", true),
        (9000, b"\n", true),
    ] {
        long_then_short(&rt, rt.alloc(), len, end, is_long);
    }
}
