//! Requests in redis's protocol that come in pieces.

use am_resp_source::{Heard, HeardWord, HeardWords, OwnBytes, RequestReader};
use std::alloc::{AllocError, Global};
use std::process::Abort;

fn note_bytes(told: &mut Vec<u8>, bytes: &OwnBytes) -> Result<(), AllocError> {
    told.extend_from_slice(bytes.as_slice())
}

// Notes the words: of long ones their lengths.
fn note_words(alloc: Global, told: &mut Vec<u8>, words: &HeardWords) -> Result<(), AllocError> {
    for word in words.as_slice() {
        told.push(b' ')?;
        match word {
            HeardWord::Kept(bytes) => note_bytes(told, bytes)?,
            HeardWord::Long(len) => {
                let len = format!(in alloc; "<{len}>")?;
                told.extend_from_slice(len.as_bytes())?;
            }
        }
    }
    told.push(b';')?;
    Ok(())
}

// Reads a piece, and notes what is heard.
fn read(
    alloc: Global,
    reader: &mut RequestReader,
    piece: &[u8],
    told: &mut Vec<u8>,
) -> Result<(), AllocError> {
    let mut rest = piece;
    for _ in 0..=piece.len() {
        let (heard, behind) = reader.read(rest);
        rest = behind;
        match heard {
            Heard::Request(words) => note_words(alloc, told, &words)?,
            Heard::NoMemory => told.extend_from_slice(b" MEMORY;")?,
            Heard::Bad => told.extend_from_slice(b" BAD;")?,
            Heard::Partial => return Ok(()),
        }
    }
    Ok(())
}

// What is heard of these pieces, one after another.
fn told(alloc: Global, most: u64, pieces: &[&[u8]]) -> Result<Vec<u8>, AllocError> {
    let mut reader = RequestReader::new(alloc, most);
    let mut told = Vec::new(alloc);
    for piece in pieces {
        read(alloc, &mut reader, piece, &mut told)?;
    }
    Ok(told)
}

// Of the bytes this is heard, whether they come in one piece, in any two, or byte by byte.
fn is_heard(
    rt: &impl Abort,
    alloc: Global,
    most: u64,
    bytes: &[u8],
    expected: &[u8],
) -> Result<(), AllocError> {
    for at in 0..=bytes.len() {
        let (front, back) = bytes.split_at(at);
        assert_eq!(rt; told(alloc, most, &[front, back])?.as_slice(), expected);
    }
    let mut reader = RequestReader::new(alloc, most);
    let mut told = Vec::new(alloc);
    for at in 0..bytes.len() {
        read(alloc, &mut reader, &bytes[at..at + 1], &mut told)?;
    }
    assert_eq!(rt; told.as_slice(), expected);
    Ok(())
}

#[test]
fn it_makes_no_difference_how_requests_are_cut(rt: HostRuntime) -> Result<(), AllocError> {
    let pipeline =
        b"*2\r\n$3\r\nGET\r\n$3\r\nant\r\n*0\r\n*3\r\n$3\r\nSET\r\n$2\r\n\r\n\r\n$0\r\n\r\n*1\r\n$4\r\nPI";
    is_heard(&rt, rt.alloc(), 64, pipeline, b" GET ant;; SET \r\n ;")
}

#[test]
fn of_a_long_word_its_length_is_kept(rt: HostRuntime) -> Result<(), AllocError> {
    let set = b"*3\r\n$3\r\nSET\r\n$12\r\nabcdefghijkl\r\n$4\r\nwxyz\r\n*1\r\n$4\r\nPING\r\n";
    is_heard(&rt, rt.alloc(), 4, set, b" SET <12> wxyz; PING;")?;
    is_heard(&rt, rt.alloc(), 3, set, b" SET <12> <4>; <4>;")?;
    is_heard(&rt, rt.alloc(), 0, set, b" <3> <12> <4>; <4>;")
}

#[test]
fn what_begins_no_request_is_told_once(rt: HostRuntime) -> Result<(), AllocError> {
    for bytes in [
        b"*1\r\n$4\r\nPING\r\nPING\r\n*1\r\n$4\r\nPING\r\n".as_slice(),
        b"*1\r\n$4\r\nPING\r\n*1\r\n$4\r\nPINGx\n",
        b"*1\r\n$4\r\nPING\r\n*1\r\n$4\r\nPING\rx",
        b"*1\r\n$4\r\nPING\r\n*131074\r\n*0\r\n",
        b"*1\r\n$4\r\nPING\r\n*1\r\n$536870913\r\n",
        b"*1\r\n$4\r\nPING\r\n*1\r\n$04\r\n",
    ] {
        is_heard(&rt, rt.alloc(), 64, bytes, b" PING; BAD;")?;
    }
    Ok(())
}

#[test]
fn a_request_that_finds_no_memory_is_passed_over(rt: HostRuntime) -> Result<(), AllocError> {
    let alloc = rt.alloc();
    let mut text = Vec::new(alloc);
    text.reserve(64)?;
    let mut reader = RequestReader::new(alloc, 64);
    // (any one allocation may be refused from here on, and is told of its own request alone)
    let set = b"*3\r\n$3\r\nSET\r\n$3\r\nant\r\n$1\r\n6\r\n*1\r\n$4\r\nPING\r\n";
    read(alloc, &mut reader, set, &mut text)?;
    let expected = [
        b" SET ant 6; PING;".as_slice(),
        b" MEMORY; PING;",
        b" SET ant 6; MEMORY;",
    ];
    assert!(&rt; expected.contains(&text.as_slice()), "{text:?}");
    Ok(())
}
