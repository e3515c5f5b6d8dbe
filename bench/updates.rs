//! Records that are set whether or not they are there, ranges that go, and reads from the highest key down, in a store of some
//! millions of records, beside std's map and SQLite. Built and run by bench/updates, each way in a process of its own: updates WAY.
//!
//! It writes a line for each figure: what it is, and the middle one of its times in microseconds.

mod ways;

use std::collections::BTreeMap;
use std::hint::black_box;
use std::process::exit;
use std::time::Instant;
use ways::{text, Numbers, Record, Sqlite, Statement, Store, Text};

const BATCH: usize = 65_536;
const BATCHES: usize = 92;
const FEW: usize = 16;
const LAST: Text = [0x7e; 16];
const ROWS: usize = 100;
const ROUNDS: usize = 9;
const SINGLES: usize = 64;
const READS: usize = 1001;

/// Something that takes records and gives them back.
trait Way {
    /// Adds records that are new, in the order of their coming.
    fn load(&mut self, records: &[Record]);

    /// Sets records, some of which are there.
    fn put(&mut self, records: &[Record]);

    /// Sets them one by one.
    fn set(&mut self, records: &[Record]) {
        self.put(records);
    }

    /// How many records went, of those from one key to another.
    fn delete(&mut self, lo: &Text, hi: &Text) -> usize;

    fn scan(&mut self, lo: &Text) -> usize;

    fn scan_back(&mut self, hi: &Text) -> usize;
}

impl Way for Store {
    fn load(&mut self, records: &[Record]) {
        Store::load(self, [records].into_iter());
    }

    fn put(&mut self, records: &[Record]) {
        Store::put(self, records);
    }

    fn set(&mut self, records: &[Record]) {
        Store::set(self, records);
    }

    fn delete(&mut self, lo: &Text, hi: &Text) -> usize {
        Store::delete_range(self, lo, hi)
    }

    fn scan(&mut self, lo: &Text) -> usize {
        Store::scan(self, lo, &LAST, ROWS)
    }

    fn scan_back(&mut self, hi: &Text) -> usize {
        Store::scan_back(self, &[], hi, ROWS)
    }
}

fn sorted(records: &[Record]) -> Vec<Record> {
    let mut sorted = records.to_vec();
    sorted.sort_unstable();
    sorted
}

struct Map(BTreeMap<Text, Text>);

impl Way for Map {
    fn load(&mut self, records: &[Record]) {
        self.0.extend(sorted(records));
    }

    fn put(&mut self, records: &[Record]) {
        self.0.extend(sorted(records));
    }

    fn set(&mut self, records: &[Record]) {
        self.0.extend(records.iter().copied());
    }

    fn delete(&mut self, lo: &Text, hi: &Text) -> usize {
        let keys: Vec<Text> = self.0.range(*lo..=*hi).map(|(key, _)| *key).collect();
        keys.iter().filter(|key| self.0.remove(*key).is_some()).count()
    }

    fn scan(&mut self, lo: &Text) -> usize {
        let rows: Vec<Record> = self.0.range(*lo..).take(ROWS).map(|(key, value)| (*key, *value)).collect();
        black_box(&rows).len()
    }

    fn scan_back(&mut self, hi: &Text) -> usize {
        let rows: Vec<Record> = self.0.range(..=*hi).rev().take(ROWS).map(|(key, value)| (*key, *value)).collect();
        black_box(&rows).len()
    }
}

struct Table {
    set: Statement,
    delete: Statement,
    count: Statement,
    select: Statement,
    select_back: Statement,
    sqlite: Sqlite,
}

impl Table {
    fn new() -> Table {
        let mut sqlite = Sqlite::open();
        sqlite.exec(c"CREATE TABLE records (key TEXT PRIMARY KEY, value TEXT NOT NULL) WITHOUT ROWID");
        Table {
            set: sqlite.prepare(c"INSERT OR REPLACE INTO records VALUES (?, ?)"),
            delete: sqlite.prepare(c"DELETE FROM records WHERE key BETWEEN ? AND ?"),
            count: sqlite.prepare(c"SELECT key, value FROM records WHERE key BETWEEN ? AND ?"),
            select: sqlite.prepare(c"SELECT key, value FROM records WHERE key >= ? ORDER BY key LIMIT 100"),
            select_back: sqlite.prepare(c"SELECT key, value FROM records WHERE key <= ? ORDER BY key DESC LIMIT 100"),
            sqlite,
        }
    }
}

impl Way for Table {
    fn load(&mut self, records: &[Record]) {
        self.put(records);
    }

    fn put(&mut self, records: &[Record]) {
        self.sqlite.exec(c"BEGIN");
        for (key, value) in sorted(records) {
            self.set.run(&[&key, &value]);
        }
        self.sqlite.exec(c"COMMIT");
    }

    fn delete(&mut self, lo: &Text, hi: &Text) -> usize {
        let count = self.count.records(&[lo, hi]).len();
        self.delete.run(&[lo, hi]);
        count
    }

    fn scan(&mut self, lo: &Text) -> usize {
        self.select.records(&[lo]).len()
    }

    fn scan_back(&mut self, hi: &Text) -> usize {
        self.select_back.records(&[hi]).len()
    }
}

// ---- the figures

/// The middle one of the times of some calls, in microseconds.
fn middle(times: usize, mut call: impl FnMut(usize)) -> f64 {
    let mut all: Vec<f64> = (0..times)
        .map(|at| {
            let begin = Instant::now();
            call(at);
            begin.elapsed().as_secs_f64() * 1e6
        })
        .collect();
    all.sort_unstable_by(f64::total_cmp);
    all[times / 2]
}

fn measure(mut way: impl Way) {
    let mut numbers = Numbers(88_172_645_463_325_252);
    let mut keys: Vec<Text> = Vec::with_capacity(BATCH * BATCHES);
    let fresh = |numbers: &mut Numbers| -> Vec<Record> { (0..BATCH).map(|n| (text(numbers.next()), text(n as u64))).collect() };
    for at in 1..=BATCHES {
        let batch = fresh(&mut numbers);
        keys.extend(batch.iter().map(|record| record.0));
        way.load(&batch);
        if at == FEW || at == BATCHES {
            let scan = middle(READS, |_| assert!(way.scan(&keys[numbers.below(keys.len())]) > 0));
            let back = middle(READS, |_| assert!(way.scan_back(&keys[numbers.below(keys.len())]) > 0));
            println!("scan_{at} {scan:.2}");
            println!("scan_back_{at} {back:.2}");
        }
    }
    let batches: Vec<Vec<Record>> = (0..ROUNDS).map(|_| fresh(&mut numbers)).collect();
    println!("load {:.0}", middle(ROUNDS, |at| way.load(&batches[at])));
    // Each second key of these is there.
    let halves: Vec<Vec<Record>> = (0..ROUNDS)
        .map(|_| {
            let mut half = fresh(&mut numbers);
            for record in half.iter_mut().step_by(2) {
                record.0 = keys[numbers.below(keys.len())];
            }
            half.sort_unstable();
            half.dedup_by_key(|record| record.0);
            // (in the order of their coming they are in none)
            for at in (1..half.len()).rev() {
                half.swap(at, numbers.below(at + 1));
            }
            half
        })
        .collect();
    println!("put_half {:.0}", middle(ROUNDS, |at| way.put(&halves[at])));
    let known: Vec<Vec<Record>> = (0..READS).map(|n| (0..SINGLES).map(|_| (keys[numbers.below(keys.len())], text(n as u64))).collect()).collect();
    println!("set_known {:.3}", middle(READS, |at| way.set(&known[at])) / SINGLES as f64);
    let new: Vec<Vec<Record>> = (0..READS).map(|n| (0..SINGLES).map(|_| (text(numbers.next()), text(n as u64))).collect()).collect();
    println!("set_new {:.3}", middle(READS, |at| way.set(&new[at])) / SINGLES as f64);
    keys.sort_unstable();
    let step = keys.len() / (ROUNDS * 11);
    let gone = middle(ROUNDS * 10, |at| assert!(way.delete(&keys[at * step], &keys[at * step + 999]) >= 1000));
    println!("delete_1000 {gone:.1}");
}

fn main() {
    match std::env::args().nth(1).as_deref() {
        Some("tiuvrokk") => measure(Store::open()),
        Some("map") => measure(Map(BTreeMap::new())),
        Some("sqlite") => measure(Table::new()),
        _ => {
            eprintln!("updates: no such way");
            exit(2);
        }
    }
}
