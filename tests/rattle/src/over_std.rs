//! Streams of std that fail once.

use crate::streams::{LINES, SEEN, lines_of};
use am_line_sink::{Failed, Sink, StopSink, Writing};
use am_line_source::{Reading, Source};
use am_line_wire::put_reply;
use am_record::Reply;
use std::alloc::Global;
use std::io::{ErrorKind, Read, Write};
use std::process::Abort;
use std::sync::Wait;

/// What a call of a stream does.
#[derive(Clone, Copy)]
enum Call {
    Fails,
    GivesNothing,
    GivesOne,
}

/// A stream whose calls do these things in turn, and give one byte once they have ended.
#[derive(Drop)]
struct Script<'a> {
    calls: &'a [Call],
    left: &'a [u8],
    written: Vec<u8>,
}

impl<'a> Script<'a> {
    fn next(&mut self) -> Call {
        match self.calls.split_first() {
            Some((call, rest)) => {
                self.calls = rest;
                *call
            }
            None => Call::GivesOne,
        }
    }
}

impl<'a> Read for Script<'a> {
    fn read(&mut self, buf: &mut [u8]) -> std::io::Result<usize> {
        match self.next() {
            Call::Fails => Err(ErrorKind::Interrupted.into()),
            Call::GivesNothing => Ok(0),
            Call::GivesOne => match (self.left.split_first(), buf.first_mut()) {
                (Some((byte, rest)), Some(place)) => {
                    *place = *byte;
                    self.left = rest;
                    Ok(1)
                }
                _ => Ok(0),
            },
        }
    }
}

impl<'a> Write for Script<'a> {
    fn write(&mut self, buf: &[u8]) -> std::io::Result<usize> {
        match (self.next(), buf.first()) {
            (Call::Fails, _) => Err(ErrorKind::Interrupted.into()),
            (Call::GivesOne, Some(byte)) => {
                self.written.push(*byte)?;
                Ok(1)
            }
            _ => Ok(0),
        }
    }

    fn flush(&mut self) -> std::io::Result<()> {
        match self.next() {
            Call::Fails => Err(ErrorKind::Interrupted.into()),
            _ => Ok(()),
        }
    }
}

#[test]
fn a_reader_that_fails_once_is_not_asked_again(rt: HostRuntime) {
    let mut source = Reading::new(Script {
        calls: [Call::Fails, Call::GivesOne, Call::GivesNothing].as_slice(),
        left: b"ab",
        written: Vec::new(rt.alloc()),
    });
    let mut buffer = [0; 4];
    assert_eq!(rt; source.take(&mut buffer), Err(Failed));
    assert_eq!(rt; source.take(&mut buffer), Ok(1));
    assert_eq!(rt; buffer[0], b'a');
    assert_eq!(rt; source.take(&mut buffer), Ok(0));
}

#[test]
fn a_reader_is_not_asked_behind_its_end(rt: HostRuntime) {
    let sink = StopSink::new(rt.alloc(), 0);
    let mut source = Reading::new(Script {
        calls: [Call::GivesOne, Call::GivesNothing].as_slice(),
        left: b"ab\n",
        written: Vec::new(rt.alloc()),
    });
    let seen = lines_of(&rt, rt.alloc(), &mut source, &sink);
    assert!(rt; seen.as_slice() == b"a$".as_slice());
}

// The reader has the lines that were seen of pieces.
fn has_lines<W: Wait + Abort, S: Read + Drop>(rt: &W, alloc: Global, reader: S) {
    let sink = StopSink::new(alloc, 0);
    let mut source = Reading::new(reader);
    let seen = lines_of(rt, alloc, &mut source, &sink);
    assert!(rt; seen.as_slice() == SEEN);
}

#[test]
fn lines_of_a_reader(rt: HostRuntime) {
    has_lines(&rt, rt.alloc(), LINES);
    let bytewise = Script {
        calls: [].as_slice(),
        left: LINES,
        written: Vec::new(rt.alloc()),
    };
    has_lines(&rt, rt.alloc(), bytewise);
}

// A reply is put and sent on, or not, by a writer that does these things.
fn puts(rt: &impl Abort, alloc: Global, calls: &[Call], is_put: bool, is_flushed: bool) {
    let mut sink = Writing::new(Script {
        calls,
        left: b"",
        written: Vec::new(alloc),
    });
    assert!(rt; put_reply(&Reply::Done, &mut sink).is_ok() == is_put);
    assert!(rt; sink.flush().is_ok() == is_flushed);
}

#[test]
fn a_writer_that_fails_once_is_not_asked_again(rt: HostRuntime) {
    const ONE: Call = Call::GivesOne;
    let calls = [ONE, ONE, Call::Fails, ONE];
    puts(&rt, rt.alloc(), &calls, false, true);
    let calls = [ONE, Call::GivesNothing, ONE, ONE];
    puts(&rt, rt.alloc(), &calls, false, true);
    let calls = [Call::Fails, Call::Fails, ONE, ONE];
    puts(&rt, rt.alloc(), &calls, false, false);
    let calls = [ONE, ONE, ONE, Call::Fails];
    puts(&rt, rt.alloc(), &calls, true, false);
}

#[test]
fn a_writer_of_one_byte_gets_the_whole_text(rt: HostRuntime) {
    let mut script = Script {
        calls: [].as_slice(),
        left: b"",
        written: Vec::new(rt.alloc()),
    };
    let mut sink = Writing::new(&mut script);
    let is_whole = put_reply(&Reply::Begun(17), &mut sink).is_ok();
    assert_eq!(rt; sink.flush(), Ok(()));
    assert!(rt; !is_whole || script.written.as_slice() == b"BEGUN 17\n".as_slice());
}
