//! Answers and requests in redis's protocol.

use am_line_sink::StopSink;
use am_resp_text::{Bytes, Part, RequestFault, Words, put_answer, put_part, read_request};
use std::alloc::Global;
use std::process::Abort;

// What a sink was given of the parts. Where memory is refused it is given them again.
fn given(rt: &impl Abort, alloc: Global, parts: &[Part<'_>]) -> Vec<u8> {
    let mut sink = StopSink::new(alloc, 0);
    if put_answer(parts, &mut sink).is_err() {
        sink = StopSink::new(alloc, 0);
        assert!(rt;
            put_answer(parts, &mut sink).is_ok(),
            "the sink failed twice"
        );
    }
    sink.into_bytes()
}

fn has_text(rt: &impl Abort, alloc: Global, parts: &[Part<'_>], text: &[u8]) {
    assert_eq!(rt; given(rt, alloc, parts).as_slice(), text);
}

#[test]
fn a_part_alone_has_its_text(rt: HostRuntime) {
    let alloc = rt.alloc();
    has_text(&rt, alloc, &[Part::Simple(Bytes::new(b"OK"))], b"+OK\r\n");
    let busy = Part::Error(Bytes::new(b"BUSY 7"));
    has_text(&rt, alloc, &[busy], b"-BUSY 7\r\n");
    has_text(&rt, alloc, &[Part::Integer(0)], b":0\r\n");
    has_text(&rt, alloc, &[Part::Integer(-5)], b":-5\r\n");
    let least = b":-9223372036854775808\r\n";
    has_text(&rt, alloc, &[Part::Integer(i64::MIN)], least);
    let greatest = b":9223372036854775807\r\n";
    has_text(&rt, alloc, &[Part::Integer(i64::MAX)], greatest);
    has_text(&rt, alloc, &[Part::Bulk(Bytes::new(b""))], b"$0\r\n\r\n");
    let bytes = Part::Bulk(Bytes::new(b"a\r\n\0b"));
    has_text(&rt, alloc, &[bytes], b"$5\r\na\r\n\0b\r\n");
    has_text(&rt, alloc, &[Part::Nil], b"$-1\r\n");
    has_text(&rt, alloc, &[Part::NilArray], b"*-1\r\n");
    has_text(&rt, alloc, &[Part::Array(0)], b"*0\r\n");
}

#[test]
fn an_array_stands_in_an_array(rt: HostRuntime) {
    let scan = [
        Part::Array(2),
        Part::Bulk(Bytes::new(b"17")),
        Part::Array(2),
        Part::Bulk(Bytes::new(b"ant")),
        Part::Bulk(Bytes::new(b"bee")),
    ];
    let text = b"*2\r\n$2\r\n17\r\n*2\r\n$3\r\nant\r\n$3\r\nbee\r\n";
    has_text(&rt, rt.alloc(), &scan, text);
}

#[test]
fn a_sink_that_fails_was_given_a_beginning(rt: HostRuntime) {
    let bulk = Part::Bulk(Bytes::new(b"ant"));
    for (fail_at, text) in [(1, b"".as_slice()), (2, b"$3\r\n"), (3, b"$3\r\nant")] {
        let mut sink = StopSink::new(rt.alloc(), fail_at);
        assert!(&rt; put_part(&bulk, &mut sink).is_err());
        assert_eq!(&rt; sink.bytes(), text);
    }
}

// Reads the request at the front; once more where memory was refused.
fn read(alloc: Global, bytes: &[u8]) -> Result<(Words<'_>, &[u8]), RequestFault> {
    match read_request(alloc, bytes) {
        Err(RequestFault::NoMemory) => read_request(alloc, bytes),
        read => read,
    }
}

// The bytes begin with a request of these words, and these bytes stand behind it.
fn has_words(rt: &impl Abort, alloc: Global, bytes: &[u8], words: &[&[u8]], rest: &[u8]) {
    match read(alloc, bytes) {
        Ok((read, behind)) => {
            assert_eq!(rt; read.as_slice().len(), words.len());
            for (word, expected) in read.as_slice().iter().zip(words) {
                assert_eq!(rt; word.as_slice(), *expected);
            }
            assert_eq!(rt; behind, rest);
        }
        Err(fault) => panic!(rt; "{fault}"),
    }
}

fn is_refused(rt: &impl Abort, alloc: Global, bytes: &[u8], fault: RequestFault) {
    let read = read(alloc, bytes);
    assert!(rt; matches!(&read, Err(found) if *found == fault), "{bytes:?}");
}

#[test]
fn a_request_is_its_words(rt: HostRuntime) {
    let alloc = rt.alloc();
    let get = b"*2\r\n$3\r\nGET\r\n$3\r\nant\r\n*1\r\n";
    has_words(&rt, alloc, get, &[b"GET", b"ant"], b"*1\r\n");
    let empty = b"*2\r\n$4\r\nECHO\r\n$0\r\n\r\n";
    has_words(&rt, alloc, empty, &[b"ECHO", b""], b"");
    let any = b"*1\r\n$7\r\n\r\n$1\r\n\xFF\r\n";
    has_words(&rt, alloc, any, &[b"\r\n$1\r\n\xFF"], b"");
    has_words(&rt, alloc, b"*0\r\n\n", &[], b"\n");
}

#[test]
fn each_beginning_is_not_whole_yet(rt: HostRuntime) {
    let set = b"*3\r\n$3\r\nSET\r\n$10\r\nabcdefghij\r\n$0\r\n\r\n";
    for end in 0..set.len() {
        is_refused(&rt, rt.alloc(), &set[..end], RequestFault::Incomplete);
    }
    for text in [
        b"*131073\r\n".as_slice(),
        b"*131073\r",
        b"*13107",
        b"*1\r\n$536870912\r\n",
    ] {
        is_refused(&rt, rt.alloc(), text, RequestFault::Incomplete);
    }
}

#[test]
fn what_begins_no_request_is_told_at_once(rt: HostRuntime) {
    for text in [
        b"PING\r\n".as_slice(),
        b"$",
        b"*\r",
        b"*-",
        b"*+1",
        b"* 1",
        b"*01",
        b"*00",
        b"*1\n",
        b"*1\rx",
        b"*1\r\n:",
        b"*1\r\n$-1",
        b"*1\r\n$1\r\nab",
        b"*1\r\n$1\r\na\rb",
        b"*131074",
        b"*1310730",
        b"*99999999999999999999999",
        b"*1\r\n$536870913",
        b"*2\r\n$1\r\na\r\n*1\r\n",
    ] {
        is_refused(&rt, rt.alloc(), text, RequestFault::Bad);
    }
}
