//! Operations that look drawn, always the same.

use am_record::{Key, Lock, Mode, NoMemory, Op, Range, Records, Value};
use std::alloc::Global;

/// How many keys there are: numbers from 0.
const KEYS: u64 = 64;

/// Numbers that look drawn, always the same: each from the last by a linear congruence.
#[derive(Drop)]
pub(crate) struct Numbers {
    last: u64,
}

impl Numbers {
    pub(crate) fn new() -> Numbers {
        Numbers { last: 1 }
    }

    pub(crate) fn below(&mut self, bound: u64) -> u64 {
        self.last = self
            .last
            .wrapping_mul(6_364_136_223_846_793_005)
            .wrapping_add(1_442_695_040_888_963_407);
        (self.last >> 33) % bound
    }

    fn key(&mut self) -> Key {
        Key::of_u64(self.below(KEYS))
    }

    fn value(&mut self) -> Value {
        Value::new(&self.below(1000).to_be_bytes()).unwrap()
    }

    // A range of at most eight keys.
    pub(crate) fn range(&mut self) -> Range {
        let lo = self.below(KEYS);
        let hi = lo + self.below(8);
        Range::new(Key::of_u64(lo), Key::of_u64(hi)).unwrap_or(Range::point(Key::of_u64(lo)))
    }

    fn lock(&mut self) -> Lock {
        let mode = if self.below(2) == 0 {
            Mode::Shared
        } else {
            Mode::Exclusive
        };
        Lock {
            mode,
            range: Range::point(self.key()),
        }
    }

    // Up to four pairs, whose keys rise.
    fn pairs(&mut self, alloc: Global) -> Result<Records, NoMemory> {
        let mut pairs = Vec::new(alloc);
        let first = self.below(KEYS);
        for number in first..first + 4 {
            if number == first || self.below(2) == 0 {
                pairs.push((Key::of_u64(number), self.value()))?;
            }
        }
        Ok(Records::new(pairs))
    }

    // An operation of any kind.
    pub(crate) fn op(&mut self, alloc: Global) -> Result<Op, NoMemory> {
        Ok(match self.below(20) {
            0 | 1 => Op::Get(self.key()),
            2 | 3 => Op::Scan(self.range(), 1 + self.below(4)),
            4 | 5 => Op::Insert(self.key(), self.value()),
            6 => Op::Replace(self.key(), self.value()),
            7 | 8 | 9 => Op::Delete(self.key()),
            10 => Op::Lock(self.lock()),
            11 => Op::Mark,
            12 => Op::Back,
            13 => Op::Set(self.key(), self.value()),
            14 => Op::ScanBack(self.range(), 1 + self.below(4)),
            15 => Op::DeleteRange(self.range(), 1 + self.below(4)),
            16 => Op::Put(self.pairs(alloc)?),
            _ => Op::Load(self.pairs(alloc)?),
        })
    }
}
