//! Connections: what they pass on of what comes.

use crate::streams::lines_of;
use am_line_sink::StopSink;
use am_line_source::PieceSource;
use am_serve_connections::OwnLines;
use std::alloc::Global;
use std::process::Abort;
use std::sync::Wait;

// What a session reads of a connection by which these bytes come, in pieces of so many bytes.
fn passed<W: Wait + Abort>(rt: &W, alloc: Global, bytes: &[u8], size: usize) -> Vec<u8> {
    let sink = StopSink::new(alloc, 0);
    let sizes = [size; 400];
    let source = PieceSource::new(bytes, &sizes, 0);
    let mut connection = OwnLines::new(alloc, source).expect(rt, "memory");
    lines_of(rt, alloc, &mut connection, &sink)
}

fn passes<W: Wait + Abort>(rt: &W, alloc: Global, bytes: &[u8], lines: &[u8]) {
    for size in 1..30 {
        let seen = passed(rt, alloc, bytes, size);
        assert!(rt; seen.as_slice() == lines, "{size}: {bytes:?}");
    }
    let seen = passed(rt, alloc, bytes, 4000);
    assert!(rt; seen.as_slice() == lines, "{bytes:?}");
}

#[test]
fn the_first_byte_of_all_begins_a_line(rt: HostRuntime) {
    let alloc = rt.alloc();
    passes(&rt, alloc, b"A\n\nb\n", b"A||b|");
    passes(&rt, alloc, b"Z", b"Z$");
    passes(&rt, alloc, b"", b"");
    passes(&rt, alloc, b"\nBEGIN\n", b"|BEGIN|");
    passes(&rt, alloc, b"begin\n", b"begin|");
    passes(&rt, alloc, b"@\n", b"@|");
    passes(&rt, alloc, b"\x16\x03\x01\nBEGIN\n", b"!");
    passes(&rt, alloc, b"\0\n", b"!");
    passes(&rt, alloc, b"\xc3\xa9\n", b"!");
}

#[test]
fn a_request_of_http_is_no_line(rt: HostRuntime) {
    let alloc = rt.alloc();
    let requests: [&[u8]; 12] = [
        b"GET / HTTP/1.1\r\nBEGIN\n",
        b"GET / HTTP/1.1\n",
        b"GET / HTTP/1.1",
        b"PROPFIND /a HTTP/1.1\r\n",
        b"LOCK /a HTTP/1.1\r\n",
        b"LOCK s a HTTP/1.1\r\n",
        b"GET  /\t http/1.0 \r\n",
        b"GeT / hTtP/2\n",
        b"G a b HTTP/1.1\n",
        b"LOAD a=1 HTTP/1.1\n",
        b"A B HTTP/3.\n",
        b"INS\ta HTTP/1.1\n",
    ];
    for request in requests {
        passes(&rt, alloc, request, b"!");
        let mut behind = Vec::from_slice(alloc, b"BEGIN\n").expect(&rt, "memory");
        behind.extend_from_slice(request).expect(&rt, "memory");
        passes(&rt, alloc, behind.as_slice(), b"BEGIN|!");
    }
    passes(&rt, alloc, b"B\npost / HTTP/1.1\n", b"B|!");
}

#[test]
fn a_host_is_no_line(rt: HostRuntime) {
    let alloc = rt.alloc();
    passes(&rt, alloc, b"Host: a\n", b"!");
    passes(&rt, alloc, b"BEGIN\nhOST:\nCOMMIT\n", b"BEGIN|!");
    passes(&rt, alloc, b"BEGIN\nhost:", b"BEGIN|!");
    passes(
        &rt,
        alloc,
        b"Host\nHost :\n Host:\nHosts:\n",
        b"Host|Host :| Host:|Hosts:|",
    );
}

#[test]
fn lines_that_look_alike_are_passed_on(rt: HostRuntime) {
    let alloc = rt.alloc();
    let lines: [(&[u8], &[u8]); 6] = [
        (b"GET HTTP/1.1\r\n", b"GET HTTP/1.1|"),
        (
            b"INS a HTTP/1.1\nREP a HTTP/2\n",
            b"INS a HTTP/1.1|REP a HTTP/2|",
        ),
        (
            b"LOCK S a HTTP/1.1\nLOCK X a HTTP/1.1",
            b"LOCK S a HTTP/1.1|LOCK X a HTTP/1.1$",
        ),
        (
            b"GET / HTTP/1.1=2\nGET / HTTP/\n",
            b"GET / HTTP/1.1=2|GET / HTTP/|",
        ),
        (
            b"GET / HTTP/.1\nGET / XHTTP/1.1\n",
            b"GET / HTTP/.1|GET / XHTTP/1.1|",
        ),
        (
            b"HTTP/1.1\n  GET   HTTP/1.1\n",
            b"HTTP/1.1|  GET   HTTP/1.1|",
        ),
    ];
    for (given, right) in lines {
        passes(&rt, alloc, given, right);
    }
}

#[test]
fn a_line_that_is_too_long_is_none_of_http(rt: HostRuntime) {
    let alloc = rt.alloc();
    // So many bytes in all that the line's end is just within the bound, or one byte beyond it.
    for (count, right) in [(4082, &b"!"[..]), (4083, &b"LONG|B|"[..])] {
        let mut text = Vec::from_slice(alloc, b"GET /").expect(&rt, "memory");
        for _ in 0..count {
            text.push(b'a').expect(&rt, "memory");
        }
        text.extend_from_slice(b" HTTP/1.1\nB\n")
            .expect(&rt, "memory");
        for size in [7, 4000, 4096] {
            let seen = passed(&rt, alloc, text.as_slice(), size);
            assert!(rt; seen.as_slice() == right, "{count}, {size}");
        }
    }
    let mut text = Vec::from_slice(alloc, b"Host:").expect(&rt, "memory");
    for _ in 0..5000 {
        text.push(b'a').expect(&rt, "memory");
    }
    text.push(b'\n').expect(&rt, "memory");
    assert!(rt; passed(&rt, alloc, text.as_slice(), 4000).as_slice() == b"!".as_slice());
}
