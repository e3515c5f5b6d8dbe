//! Sessions on one store, line by line.

use am_index_btree::BTree;
use am_line_dialogue::{
    Action, EndAnswer, HoldAnswer, Response, Session, ToldSessions, parse, put_response,
};
use am_line_sink::StopSink;
use am_line_source::{LineKind, MAX_LINE_LEN};
use am_line_wire::reply_text;
use am_record::{Entry, HashKey, NoMemory};
use am_store::Store;
use std::alloc::Global;
use std::process::Abort;

/// A line of a session, and its answer.
pub(crate) type Exchange = (&'static str, &'static str);

/// Who speaks, the line and its answer.
pub(crate) type Turn = (Speaker, &'static str, &'static str);

/// An entry as it is told: partition, key, value, and whether it is live.
pub(crate) type Standing = (u32, &'static str, &'static str, Life);

/// One of the sessions.
#[derive(Clone, Copy, Debug, PartialEq, Eq)]
pub(crate) enum Speaker {
    S1,
    S2,
    S3,
}

/// Whether an entry counts.
#[derive(Clone, Copy, Debug, PartialEq, Eq)]
pub(crate) enum Life {
    Live,
    Ghost,
}

/// A store, and its sessions.
#[derive(Drop)]
pub(crate) struct Scene {
    alloc: Global,
    store: Store<BTree>,
    first: Session,
    second: Session,
    third: Session,
}

impl Scene {
    pub(crate) fn open(alloc: Global) -> Result<Scene, NoMemory> {
        Ok(Scene {
            alloc,
            store: Store::open(alloc, BTree::new(alloc)?, HashKey::known())?,
            first: Session::new(alloc),
            second: Session::new(alloc),
            third: Session::new(alloc),
        })
    }

    fn session(&mut self, speaker: Speaker) -> &mut Session {
        match speaker {
            Speaker::S1 => &mut self.first,
            Speaker::S2 => &mut self.second,
            Speaker::S3 => &mut self.third,
        }
    }

    // What the speaker is answered to the line, as text.
    fn answer(&mut self, speaker: Speaker, line: &[u8]) -> Result<Vec<u8>, NoMemory> {
        let parsed = parse(self.alloc, kind_of(line), line);
        match self.session(speaker).action(parsed) {
            Action::Answer(response) => text_of(self.alloc, &response),
            Action::Take(step) => {
                let reply = self.store.step(step);
                self.session(speaker).reply(&reply);
                reply_text(self.alloc, &reply)
            }
            Action::TellSeen => text_of(self.alloc, &Response::Seen(0, self.store.commits())),
            // (a scene has no turnstile, and no connections)
            Action::AskHold(_) => text_of(self.alloc, &Response::Hold(HoldAnswer::Granted)),
            Action::TellWho(_) => {
                let nobody = ToldSessions::new(Vec::new(self.alloc));
                text_of(self.alloc, &Response::Who(nobody))
            }
            Action::AskEnd(_) => text_of(self.alloc, &Response::End(EndAnswer::NoSession)),
        }
    }

    /// Lets the speaker say the line, which is to have this answer.
    ///
    /// # Errors
    /// NoMemory, where memory was refused on the way.
    pub(crate) fn hears<R: Abort>(
        &mut self,
        rt: &R,
        speaker: Speaker,
        line: &[u8],
        expected: &[u8],
    ) -> Result<(), NoMemory> {
        let answer = self.answer(speaker, line)?;
        if answer.as_slice() == b"ERR MEMORY\n".as_slice() {
            return Err(NoMemory);
        }
        assert!(rt;
            is_line_of(answer.as_slice(), expected),
            "{} gave {}",
            shown(line),
            shown(answer.as_slice())
        );
        Ok(())
    }

    /// Lets the first speaker say the lines.
    pub(crate) fn plays<R: Abort>(&mut self, rt: &R, row: &[Exchange]) -> Result<(), NoMemory> {
        for (line, answer) in row {
            self.hears(rt, Speaker::S1, line.as_bytes(), answer.as_bytes())?;
        }
        Ok(())
    }

    /// Lets the speakers say the lines.
    pub(crate) fn takes<R: Abort>(&mut self, rt: &R, row: &[Turn]) -> Result<(), NoMemory> {
        for (speaker, line, answer) in row {
            self.hears(rt, *speaker, line.as_bytes(), answer.as_bytes())?;
        }
        Ok(())
    }

    /// Whether these entries stand, and no others.
    pub(crate) fn holds<R: Abort>(&self, rt: &R, expected: &[Standing]) -> Result<(), NoMemory> {
        let entries = self.store.entries(self.alloc)?;
        assert_eq!(rt; entries.len(), expected.len());
        for (entry, standing) in entries.as_slice().iter().zip(expected) {
            assert!(rt; is_standing(entry, *standing), "{entry:?}");
        }
        Ok(())
    }
}

fn kind_of(line: &[u8]) -> LineKind {
    if line.len() > MAX_LINE_LEN {
        LineKind::Long
    } else {
        LineKind::Text
    }
}

fn text_of(alloc: Global, response: &Response) -> Result<Vec<u8>, NoMemory> {
    let mut sink = StopSink::new(alloc, 0);
    match put_response(response, &mut sink) {
        Ok(()) => Ok(sink.into_bytes()),
        Err(_) => Err(NoMemory),
    }
}

// Whether the text is the words and an LF.
fn is_line_of(text: &[u8], words: &[u8]) -> bool {
    match text.split_last() {
        Some((last, rest)) => *last == b'\n' && rest == words,
        None => false,
    }
}

// The text, for a message.
fn shown(text: &[u8]) -> &str {
    std::str::from_utf8(text).unwrap_or("bytes")
}

fn is_standing(entry: &Entry, standing: Standing) -> bool {
    let (part, key, value, life) = standing;
    entry.part == part
        && entry.key.bytes() == key.as_bytes()
        && entry.value.bytes() == value.as_bytes()
        && entry.is_ghost == (life == Life::Ghost)
}
