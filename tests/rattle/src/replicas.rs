//! Replicas: what the log's blocks come to, and what transactions are told before.

use am_record::{Key, NoMemory, Op, Reply, Value};
use am_record_model::Plain;
use am_replica::{Block, Digest, Machine, Outcome, Replica, Transaction, TrialFault};
use std::alloc::Global;
use std::test::Fail;

// A plain map as a store: what a transaction does is taken back by its savepoint.
#[derive(Drop)]
struct PlainMachine {
    plain: Plain,
    alloc: Global,
}

impl Machine for PlainMachine {
    ghost map = { λ s. s.plain.map };

    ghost draft = { λ s. s.plain.map };

    ghost idle = { λ _. Unit {0} };

    ghost inside = { λ _ _ _. Unit {0} };

    fn run(&mut self, ops: &[Op]) -> Result<Vec<Reply>, NoMemory> {
        self.plain.forget_saved();
        self.plain.answer(&Op::Mark)?;
        let mut replies = Vec::with_capacity(self.alloc, ops.len())?;
        for op in ops {
            replies.push(self.plain.answer(op)?)?;
        }
        Ok(replies)
    }

    fn go_on(&mut self, op: &Op) -> Result<Reply, NoMemory> {
        self.plain.answer(op)
    }

    fn commit(&mut self) -> Result<(), NoMemory> {
        self.plain.forget_saved();
        Ok(())
    }

    fn abort(&mut self) -> Result<(), NoMemory> {
        self.plain.answer(&Op::Back)?;
        Ok(())
    }
}

// Tells Found from all else.
#[derive(Drop)]
struct Founds;

impl Digest for Founds {
    ghost use Rattle.std.specs.Prelude.{replicate};

    type Running = u8;

    ghost digest_of = { λ _. replicate 32 0 };

    ghost holds = { λ _ _. Unit {0} };

    fn digest(&self, replies: &[Reply]) -> Result<[u8; 32], NoMemory> {
        let mut so_far = self.begin();
        for reply in replies {
            self.add(&mut so_far, reply)?;
        }
        Ok(self.sum(&so_far))
    }

    fn begin(&self) -> u8 {
        1
    }

    fn add(&self, so_far: &mut u8, reply: &Reply) -> Result<(), NoMemory> {
        *so_far = *so_far * 2 + u8::from(matches!(reply, Reply::Found(_)));
        Ok(())
    }

    fn sum(&self, so_far: &u8) -> [u8; 32] {
        let mut sum = [0; 32];
        sum[0] = *so_far;
        sum
    }
}

fn replica(alloc: Global) -> Replica<PlainMachine, Founds> {
    let machine = PlainMachine {
        plain: Plain::new(alloc),
        alloc,
    };
    Replica {
        machine,
        digest: Founds,
        commits: 0,
    }
}

fn get(key: u64) -> Op {
    Op::Get(Key::of_u64(key))
}

fn insert(key: u64) -> Op {
    Op::Insert(Key::of_u64(key), Value::new(b"v").unwrap())
}

fn block(ops: Vec<Op>, told: usize, replies: &[Reply]) -> Block {
    Block {
        ops,
        told,
        digest: Founds.digest(replies).unwrap(),
    }
}

#[test]
fn a_block_commits_where_it_is_answered_as_told(rt: HostRuntime) -> Result<(), Fail> {
    let alloc = rt.alloc();
    let mut replica = replica(alloc);
    let blocks = vec![in alloc;
        block(vec![in alloc; get(1), insert(1)]?, 1, &[Reply::Absent]),
        // It was told the same, and came second.
        block(vec![in alloc; get(1), insert(2)]?, 1, &[Reply::Absent]),
        block(vec![in alloc; get(2), get(1)]?, 0, &[]),
    ]?;
    let told = replica.apply_all(alloc, &blocks)?;
    assert!(rt; matches!(&told[0], Outcome::Committed(1, replies) if replies[1] == Reply::Done));
    assert!(rt; matches!(&told[1], Outcome::Conflict));
    assert!(rt; matches!(&told[2], Outcome::Committed(2, replies) if replies[0] == Reply::Absent));
    assert_eq!(rt; replica.commits, 2);
    Ok(())
}

#[test]
fn a_transaction_is_told_of_one_state(rt: HostRuntime) -> Result<(), Fail> {
    let alloc = rt.alloc();
    let mut replica = replica(alloc);
    let mut slow = Transaction::new(alloc, &Founds)?;
    let mut open = None;
    for (op, told) in [(get(1), Reply::Absent), (insert(2), Reply::Done)] {
        let answer = slow.trial(&mut replica.machine, &Founds, &mut open, op);
        assert!(rt; answer.is_ok_and(|it| it == told));
    }
    // The next one goes on where it stands, and is told what it wrote.
    let answer = slow.trial(&mut replica.machine, &Founds, &mut open, get(2));
    assert!(rt; answer.is_ok_and(|it| matches!(it, Reply::Found(_))));
    replica.machine.abort()?;
    open = None;
    let other = vec![in alloc; block(vec![in alloc; insert(1)]?, 0, &[])]?;
    replica.apply_all(alloc, &other)?;
    // What it was told no longer comes, so nothing further is told.
    for _ in 0..2 {
        let told = slow.trial(&mut replica.machine, &Founds, &mut open, get(3));
        assert!(rt; matches!(told, Err(TrialFault::Conflict)));
        assert!(rt; open.is_none());
    }
    let mut quick = Transaction::new(alloc, &Founds)?;
    let told = quick.trial(&mut replica.machine, &Founds, &mut open, get(1));
    assert!(rt; told.is_ok_and(|it| matches!(it, Reply::Found(_))));
    replica.machine.abort()?;
    let last = vec![in alloc; quick.into_block(alloc, &[insert(2)])?]?;
    let told = replica.apply_all(alloc, &last)?;
    assert!(rt; matches!(&told[0], Outcome::Committed(2, replies) if replies[1] == Reply::Done));
    // Whoever was in conflict stays there, though all that it was told would come again.
    let gone = [1, 2].map(|key| Op::Delete(Key::of_u64(key)));
    let back = vec![in alloc; block(Vec::from_array(alloc, gone)?, 0, &[])]?;
    replica.apply_all(alloc, &back)?;
    let told = slow.trial(&mut replica.machine, &Founds, &mut None, get(3));
    assert!(rt; matches!(told, Err(TrialFault::Conflict)));
    Ok(())
}
