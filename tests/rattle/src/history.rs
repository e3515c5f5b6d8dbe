//! A history of eight transactions. Each committed body is taken again alone on a plain map, and answers as it did.

use crate::numbers::Numbers;
use am_audit::check;
use am_index_btree::BTree;
use am_record::{HashKey, Key, MAX_RUNS, NoMemory, Op, Range, Reply, Step};
use am_record_model::{Plain, alone};
use am_store::Store;
use std::alloc::Global;
use std::test::Fail;

/// How many transactions may be active at once.
const BODIES: u64 = 8;

// Why a history ends early.
#[derive(Clone, Copy, Debug, PartialEq, Eq)]
enum Fault {
    /// Memory was refused.
    NoMemory,
    /// The store doesn't answer as the committed bodies alone do.
    Differs,
}

impl From<NoMemory> for Fault {
    fn from(_: NoMemory) -> Fault {
        Fault::NoMemory
    }
}

// One transaction, and what it was answered.
#[derive(Drop)]
struct Body {
    active: Option<u64>,
    ops: Vec<Op>,
    replies: Vec<Reply>,
}

impl Body {
    fn new(alloc: Global) -> Body {
        Body {
            active: None,
            ops: Vec::new(alloc),
            replies: Vec::new(alloc),
        }
    }

    // Forgets what the last transaction did.
    fn restart(&mut self, active: Option<u64>) {
        self.active = active;
        self.ops.clear();
        self.replies.clear();
    }
}

// The store, the plain map beside it, and all steps with their replies.
#[derive(Drop)]
struct History {
    alloc: Global,
    store: Store<BTree>,
    plain: Plain,
    numbers: Numbers,
    trace: Vec<(Step, Reply)>,
}

impl History {
    fn open(alloc: Global) -> Result<History, Fault> {
        Ok(History {
            alloc,
            store: Store::open(alloc, BTree::new(alloc)?, HashKey::known())?,
            plain: Plain::new(alloc),
            numbers: Numbers::new(),
            trace: Vec::new(alloc),
        })
    }

    // Takes a step, and stores it with its reply, a copy of which is answered.
    fn take(&mut self, step: Step) -> Result<Reply, Fault> {
        let copy = step.copy(self.alloc)?;
        let reply = self.store.step(step);
        let answer = reply.copy(self.alloc)?;
        if self.trace.push((copy, reply)).is_err() {
            return Err(Fault::NoMemory);
        }
        Ok(answer)
    }

    fn begin(&mut self, body: &mut Body) -> Result<(), Fault> {
        match self.take(Step::Begin)? {
            Reply::Begun(tx) => {
                body.restart(Some(tx));
                Ok(())
            }
            _ => Err(Fault::Differs),
        }
    }

    // Lets the transaction do something, and keeps it where it was answered.
    fn work(&mut self, tx: u64, body: &mut Body) -> Result<(), Fault> {
        let op = self.numbers.op(self.alloc)?;
        let copy = op.copy(self.alloc)?;
        let reply = self.take(Step::Do(tx, op))?;
        if matches!(&reply, Reply::Refused(_)) {
            return Ok(());
        }
        if body.ops.push(copy).is_err() || body.replies.push(reply).is_err() {
            return Err(Fault::NoMemory);
        }
        Ok(())
    }

    // Commits the transaction. Alone on the plain map its operations have the same answers.
    fn commit(&mut self, tx: u64, body: &mut Body) -> Result<(), Fault> {
        let reply = self.take(Step::Commit(tx))?;
        let replies = alone(self.alloc, &mut self.plain, &body.ops)?;
        if reply != Reply::Committed(self.store.commits()) || replies != body.replies {
            return Err(Fault::Differs);
        }
        body.restart(None);
        Ok(())
    }

    fn abort(&mut self, tx: u64, body: &mut Body) -> Result<(), Fault> {
        if self.take(Step::Abort(tx))? != Reply::Aborted {
            return Err(Fault::Differs);
        }
        body.restart(None);
        Ok(())
    }

    // Merges or cleans.
    fn maintain(&mut self) -> Result<(), Fault> {
        let limit = 1 + self.numbers.below(8);
        let step = if self.numbers.below(4) == 0 {
            Step::Clean(self.numbers.range(), limit)
        } else {
            Step::Merge(limit)
        };
        self.take(step)?;
        Ok(())
    }

    // One step of the body's transaction, which begins where none is active.
    fn advance(&mut self, body: &mut Body) -> Result<(), Fault> {
        let Some(tx) = body.active else {
            return self.begin(body);
        };
        match self.numbers.below(16) {
            0 | 1 => self.commit(tx, body),
            2 => self.abort(tx, body),
            3 | 4 | 5 => self.maintain(),
            _ => self.work(tx, body),
        }
    }

    // Takes so many steps, and aborts what is active then.
    fn run(&mut self, steps: u64) -> Result<(), Fault> {
        let mut bodies = eight_bodies(self.alloc)?;
        for _ in 0..steps {
            let who = self.numbers.below(BODIES) as usize;
            if let Some(body) = bodies.as_mut_slice().get_mut(who) {
                self.advance(body)?;
            }
        }
        for body in bodies.as_mut_slice() {
            if let Some(tx) = body.active {
                self.abort(tx, body)?;
            }
        }
        Ok(())
    }

    // Whether the store holds the records of the plain map.
    fn compare(&mut self) -> Result<(), Fault> {
        let all = Range::new(Key::least(), Key::of_u64(u64::MAX)).ok_or(Fault::Differs)?;
        let mut body = Body::new(self.alloc);
        self.begin(&mut body)?;
        let tx = body.active.ok_or(Fault::Differs)?;
        let reply = self.take(Step::Do(tx, Op::Scan(all, 1000)))?;
        if reply != self.plain.answer(&Op::Scan(all, 1000))? {
            return Err(Fault::Differs);
        }
        self.abort(tx, &mut body)
    }
}

fn eight_bodies(alloc: Global) -> Result<Vec<Body>, Fault> {
    let mut bodies = Vec::new(alloc);
    for _ in 0..BODIES {
        if bodies.push(Body::new(alloc)).is_err() {
            return Err(Fault::NoMemory);
        }
    }
    Ok(bodies)
}

// 2,000 steps, always the same. Each committed body is answered as alone, the store holds what these leave, and the trace
// is legal.
#[test]
fn committed_bodies_are_answered_as_alone(rt: HostRuntime) -> Result<(), Fail> {
    let mut history = History::open(rt.alloc()).expect(&rt, "memory");
    assert!(rt; history.run(2000).is_ok());
    assert!(rt; history.compare().is_ok());
    let commits = history.store.commits();
    assert!(rt; commits >= 100);
    assert!(rt; check(rt.alloc(), MAX_RUNS, &history.trace) == Ok(commits));
    Ok(())
}
