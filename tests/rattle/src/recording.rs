//! A backend that notes what is asked of it.

use am_line_dialogue::{EndAnswer, HoldAnswer, Standing, ToldSession, ToldSessions};
use am_line_session::{Backend, End, serve};
use am_line_sink::{Failed, Sink, StopSink};
use am_line_source::{PieceSource, Source};
use am_line_wire::WhichSessions;
use am_record::{NoMemory, Reply, Step};
use std::alloc::Global;
use std::process::Abort;
use std::rt::Clock;
use std::sync::Wait;
use std::sync::atomic::{AtomicU64, Ordering};
use std::test::Fail;

/// A store that begins and ends transactions, and counts those that it aborted.
#[derive(Drop)]
struct Noting<'a> {
    active: Option<u64>,
    aborts: &'a AtomicU64,
    // Another session ends this one before the line after so many.
    most_lines: u64,
    lines: AtomicU64,
}

fn to_note(aborts: &AtomicU64, most_lines: u64) -> Noting<'_> {
    Noting {
        active: None,
        aborts,
        most_lines,
        lines: AtomicU64::new(0),
    }
}

fn told(session: u64, tx: Option<u64>, seconds: u64, standing: Standing) -> ToldSession {
    ToldSession {
        session,
        tx,
        seconds,
        standing,
    }
}

impl<'a> Backend for Noting<'a> {
    ghost means = { record {
      active = λ b. b.active;
      steps = λ _ _ _ _. Unit {0};
      shows = λ _ _ _ _. Unit {0};
      holds = λ _ _ _. Unit {0};
      tells = λ _ _ _. Unit {0};
      ends = λ _ _ _. Unit {0};
      lapses = Unit {0};
    } };

    ghost ended = { Unit {0} };

    type Held = ();

    fn call<W: Wait>(&mut self, _rt: &W, _held: &mut Option<()>, step: Step) -> Reply {
        match step {
            Step::Begin => {
                self.active = Some(1);
                Reply::Begun(1)
            }
            Step::Commit(_) => {
                self.active = None;
                Reply::Committed(1)
            }
            Step::Abort(_) => {
                self.active = None;
                self.aborts.fetch_add(1, Ordering::SeqCst);
                Reply::Aborted
            }
            Step::Do(_, _) => Reply::Done,
            Step::Merge(_) => Reply::Idle,
            Step::Clean(_, _) => Reply::Cleaned(0),
        }
    }

    fn seen(&mut self) -> (u64, u64) {
        (0, 0)
    }

    fn hold<W: Wait + Clock>(&self, _rt: &W, _millis: u64) -> HoldAnswer {
        HoldAnswer::Granted
    }

    // Its number is 0, and that of another one 7.
    fn who<W: Wait + Clock>(
        &self,
        _rt: &W,
        alloc: Global,
        which: WhichSessions,
        _held: &Option<()>,
    ) -> Result<ToldSessions, NoMemory> {
        let mut sessions = Vec::new(alloc);
        if self.active.is_some() {
            sessions.push(told(0, self.active, 0, Standing::Free))?;
            sessions.push(told(7, Some(u64::MAX), 60, Standing::Free))?;
        }
        if which == WhichSessions::All {
            sessions.push(told(8, None, 1, Standing::Waits))?;
            sessions.push(told(9, Some(2), u64::MAX, Standing::Holds))?;
        }
        Ok(ToldSessions::new(sessions))
    }

    fn end<W: Wait>(&self, _rt: &W, session: u64, _held: &Option<()>) -> EndAnswer {
        match session {
            0 => EndAnswer::EndsItself,
            7 => EndAnswer::Ends,
            _ => EndAnswer::NoSession,
        }
    }

    fn is_ended(&self) -> bool {
        self.lines.fetch_add(1, Ordering::SeqCst) >= self.most_lines
    }

    fn may_lapse(&self) -> bool {
        true
    }

    fn await_turn<W: Wait + Clock>(&self, _rt: &W) {}

    fn await_ticket<W: Wait + Clock>(&self, _rt: &W) {}

    fn is_kept(&self) -> bool {
        false
    }

    fn end_turn<W: Wait>(&self, _rt: &W) {}

    fn end_session<W: Wait>(&self, _rt: &W) {}
}

// Wherever the transaction was active when a write failed, it was aborted.
#[test]
fn what_is_active_is_aborted(rt: HostRuntime) -> Result<(), Fail> {
    let lines = b"BEGIN\nGET 5\n".as_slice();
    for call in 0..=4 {
        let aborts = AtomicU64::new(0);
        let mut backend = to_note(&aborts, u64::MAX);
        let mut source = PieceSource::new(lines, &[], 0);
        let mut sink = StopSink::new(rt.alloc(), call);
        let end = serve(&rt, rt.alloc(), &mut source, &mut sink, &mut backend, 0);
        assert!(rt; end == End::NoMemory || aborts.load(Ordering::SeqCst) == 1);
    }
    Ok(())
}

// What came behind the END of the session itself is not answered, and what was active is aborted.
#[test]
fn who_ends_itself_is_done(rt: HostRuntime) -> Result<(), Fail> {
    let aborts = AtomicU64::new(0);
    let mut backend = to_note(&aborts, u64::MAX);
    let lines = b"WHO\nBEGIN\nWHO\nWHO ALL\nEND 7\nEND 8\nEND\nEND 0\nSEEN\nQUIT\n".as_slice();
    let mut source = PieceSource::new(lines, &[], 0);
    let mut sink = StopSink::new(rt.alloc(), 0);
    let end = serve(&rt, rt.alloc(), &mut source, &mut sink, &mut backend, 0);
    assert!(rt; end == End::EndedItself && aborts.load(Ordering::SeqCst) == 1);
    let told = b"WHO 0\nBEGUN 1\nWHO 2 0:1:0 7:18446744073709551615:60\n\
        WHO 4 0:1:0 7:18446744073709551615:60 8:0:1:w 9:2:18446744073709551615:h\n\
        OK\nERR SESSION\nERR SYNTAX\nOK\n";
    assert!(rt; sink.into_bytes().as_slice() == told.as_slice());
    Ok(())
}

// Of a session that another ended nothing further is taken, though it is at hand, and what was active is aborted.
#[test]
fn who_is_ended_is_done(rt: HostRuntime) -> Result<(), Fail> {
    let aborts = AtomicU64::new(0);
    for (most_lines, told) in [
        (0, b"".as_slice()),
        (1, b"BEGUN 1\n".as_slice()),
        (2, b"BEGUN 1\nOK\n".as_slice()),
    ] {
        aborts.store(0, Ordering::SeqCst);
        let mut backend = to_note(&aborts, most_lines);
        let lines = b"BEGIN\nINS a 1\nCOMMIT\nQUIT\n".as_slice();
        let mut source = PieceSource::new(lines, &[], 0);
        let mut sink = StopSink::new(rt.alloc(), 0);
        let end = serve(&rt, rt.alloc(), &mut source, &mut sink, &mut backend, 0);
        assert!(rt; end == End::EndedByAnother);
        assert!(rt; aborts.load(Ordering::SeqCst) == most_lines.min(1));
        assert!(rt; sink.into_bytes().as_slice() == told);
    }
    Ok(())
}

/// A source of some pieces, with a wait that is too long before each, where somebody waits in time.
#[derive(Drop)]
struct Slow<'a> {
    pieces: &'a [&'a [u8]],
    is_late: bool,
}

impl<'a> Source for Slow<'a> {
    ghost comes = { λ _ _. Unit {0} };

    ghost failures = { λ _. 0 };

    fn take(&mut self, into: &mut [u8]) -> Result<usize, Failed> {
        let Some((first, rest)) = self.pieces.split_first() else {
            return Ok(0);
        };
        into[..first.len()].copy_from_slice(first);
        self.pieces = rest;
        self.is_late = true;
        Ok(first.len())
    }

    fn await_more(&mut self) -> bool {
        !std::mem::replace(&mut self.is_late, false)
    }
}

// What a session answers whose lines come too late, and how many of its transactions were aborted.
fn has_lapsed(
    rt: &(impl Abort + AllocGlobal + Wait + Clock),
    pieces: &[&[u8]],
    answers: &[u8],
    count: u64,
) {
    let aborts = AtomicU64::new(0);
    let mut backend = to_note(&aborts, u64::MAX);
    let mut source = Slow {
        pieces,
        is_late: false,
    };
    let mut sink = StopSink::new(rt.alloc(), 0);
    let end = serve(rt, rt.alloc(), &mut source, &mut sink, &mut backend, 0);
    assert!(rt; end == End::Quit);
    assert!(rt; sink.into_bytes().as_slice() == answers);
    assert!(rt; aborts.load(Ordering::SeqCst) == count);
}

// A line that comes too late is told so, whatever it is, and does nothing; the next one is answered as ever. A line that
// had begun in time is late where it ends too late.
#[test]
fn late_lines_do_nothing(rt: HostRuntime) -> Result<(), Fail> {
    has_lapsed(
        &rt,
        &[
            b"SEEN\n",
            b"BEGIN\n",
            b"QUIT\n",
            b"BEGIN\nGET",
            b" 5\nCOMMIT\n",
            b"QUIT\n",
        ],
        b"SEEN 0 0\nBEGUN 1\nERR IDLE\nBEGUN 1\nERR IDLE\nERR NOTX\nBYE\n",
        2,
    );
    has_lapsed(
        &rt,
        &[b"BEGIN\nCOMMIT\n", b"QUIT\n"],
        b"BEGUN 1\nCOMMITTED 1\nBYE\n",
        0,
    );
    Ok(())
}

/// A sink that notes how many transactions were aborted when BYE was said.
#[derive(Drop)]
struct Parting<'a> {
    aborts: &'a AtomicU64,
    at_bye: Option<u64>,
}

impl<'a> Sink for Parting<'a> {
    ghost use Rattle.std.specs.Prelude.{None, false};

    ghost holds = { λ _. None };

    ghost failures = { λ _. 0 };

    ghost pending = { λ _. false };

    fn give(&mut self, piece: &[u8]) -> Result<usize, Failed> {
        if piece.starts_with(b"BYE") {
            self.at_bye = Some(self.aborts.load(Ordering::SeqCst));
        }
        Ok(piece.len())
    }

    fn flush(&mut self) -> Result<(), Failed> {
        Ok(())
    }
}

// Who reads BYE knows that nothing is active any more.
#[test]
fn what_is_active_is_aborted_before_bye(rt: HostRuntime) -> Result<(), Fail> {
    let aborts = AtomicU64::new(0);
    let mut backend = to_note(&aborts, u64::MAX);
    let mut source = PieceSource::new(b"BEGIN\nQUIT\n".as_slice(), &[], 0);
    let mut sink = Parting {
        aborts: &aborts,
        at_bye: None,
    };
    let end = serve(&rt, rt.alloc(), &mut source, &mut sink, &mut backend, 0);
    assert!(rt; end == End::Quit && sink.at_bye == Some(1));
    Ok(())
}
