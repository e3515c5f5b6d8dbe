//! A sink that notes the calls to it.

use am_line_alone::serve_alone;
use am_line_sink::{Failed, Sink, StopSink};
use am_line_source::PieceSource;
use am_record::HashKey;
use std::alloc::Global;
use std::rt::Clock;
use std::sync::Wait;
use std::test::Fail;

/// A sink over memory, and its calls in order: g for `give`, f for `flush`.
#[derive(Drop)]
struct Noted {
    sink: StopSink,
    calls: Vec<u8>,
}

impl Sink for Noted {
    ghost use Rattle.std.specs.Prelude.{Some};

    ghost holds = { λ s. Some s.sink.bytes };

    ghost failures = { λ s. s.sink.failures };

    ghost pending = { λ s. s.sink.pending };

    fn give(&mut self, piece: &[u8]) -> Result<usize, Failed> {
        let _noted = self.calls.push(b'g');
        self.sink.give(piece)
    }

    fn flush(&mut self) -> Result<(), Failed> {
        let _noted = self.calls.push(b'f');
        self.sink.flush()
    }
}

// What a session calls its sink for, where the input comes in pieces of these sizes, and the text that it writes.
fn calls<R: Wait + Clock>(
    rt: &R,
    alloc: Global,
    input: &[u8],
    sizes: &[usize],
) -> (Vec<u8>, Vec<u8>) {
    let mut source = PieceSource::new(input, sizes, 0);
    let mut sink = Noted {
        sink: StopSink::new(alloc, 0),
        calls: Vec::new(alloc),
    };
    let _end = serve_alone(rt, alloc, &mut source, &mut sink, 16, HashKey::known());
    (sink.calls, sink.sink.into_bytes())
}

// Catches an answer that is not sent on before more is asked of the source, and a flush before its answer.
#[test]
fn answers_are_sent_on_where_no_whole_line_is_at_hand(rt: HostRuntime) -> Result<(), Fail> {
    for (input, sizes, expected) in [
        // byte by byte
        (
            b"BEGIN\nCOMMIT\n".as_slice(),
            [].as_slice(),
            b"gfgf".as_slice(),
        ),
        // both lines at once
        (b"BEGIN\nCOMMIT\n", &[13], b"ggf"),
        // two lines and a half, and the rest
        (b"BEGIN\nGET 5\nCOMMIT\n", &[15, 4], b"ggfgf"),
        // a last line that no LF ends
        (b"BEGIN\nCOMMIT", &[12], b"gfgf"),
        // with QUIT
        (b"BEGIN\nQUIT\n", &[11], b"ggf"),
    ] {
        let (noted, _text) = calls(&rt, rt.alloc(), input, sizes);
        assert_eq!(rt; noted.as_slice(), expected);
    }
    Ok(())
}

#[test]
fn a_thousand_lines_in_one_write(rt: HostRuntime) -> Result<(), Fail> {
    let input = vec![in rt.alloc(); b'\n'; 1000].expect(&rt, "room for the lines");
    let (noted, text) = calls(&rt, rt.alloc(), input.as_slice(), &[1000]);
    assert_eq!(rt; noted.len(), 1001);
    assert!(rt; noted.as_slice().ends_with(b"gf"));
    assert_eq!(rt; text.len(), 11_000);
    assert!(rt;
        text.as_slice()
            .chunks(11)
            .all(|line| line == b"ERR SYNTAX\n".as_slice())
    );
    Ok(())
}
