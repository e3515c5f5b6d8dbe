//! Queries over fresh data, one way after another on the same records: Tiuvrokk, which is merged by the queries, an array
//! that the queries crack, an index that is complete before the first of them, and no index. Built and run by bench/fresh_data.
//!
//! It writes a file for each way, of lines "query, seconds of it, seconds from the data's coming to its answer", and to
//! standard output what they come to.

mod ways;

use std::collections::BTreeMap;
use std::fs::File;
use std::hint::black_box;
use std::io::{BufWriter, Write};
use std::time::{Duration, Instant};
use ways::{text, Numbers, Record, Sqlite, Statement, Store, Text};

const RECORDS: usize = 1_000_000;
const RUNS: usize = 16;
const ROWS: usize = 100;
const HOT_QUERIES: usize = 10_000;
const OTHER_QUERIES: usize = 1_000;
// Without an index a query takes so long that a few of them tell it.
const QUERIES_WITHOUT: usize = 100;

/// The records in the order of their coming, and the ranges that are asked for, of 100 records each: first 10,000 in a hot
/// twentieth of the keys, then 1,000 anywhere.
fn workload() -> (Vec<Record>, Vec<(Text, Text)>) {
    let mut numbers = Numbers(88_172_645_463_325_252);
    let records: Vec<Record> = (0..RECORDS as u64).map(|n| (text(numbers.next()), text(n))).collect();
    let mut keys: Vec<Text> = records.iter().map(|record| record.0).collect();
    keys.sort_unstable();
    keys.dedup();
    assert_eq!(keys.len(), RECORDS);
    let mut range = |first: usize, number: usize| {
        let at = first + numbers.below(number - ROWS);
        (keys[at], keys[at + ROWS - 1])
    };
    let mut ranges: Vec<_> = (0..HOT_QUERIES).map(|_| range(RECORDS / 2, RECORDS / 20)).collect();
    ranges.extend((0..OTHER_QUERIES).map(|_| range(0, RECORDS)));
    (records, ranges)
}

/// Something that answers queries. Each tells how many rows it found.
trait Way {
    fn query(&mut self, lo: &Text, hi: &Text) -> usize;
}

// ---- Tiuvrokk

/// A store with the records in runs.
fn loaded(records: &[Record]) -> Store {
    let mut store = Store::open();
    store.load(records.chunks(RECORDS / RUNS));
    store
}

impl Way for Store {
    fn query(&mut self, lo: &Text, hi: &Text) -> usize {
        let found = self.scan(lo, hi, 1000);
        self.merge();
        found
    }
}

// ---- std's map, and no index

fn found(rows: &[Record]) -> usize {
    black_box(rows).len()
}

impl Way for BTreeMap<Text, Text> {
    fn query(&mut self, lo: &Text, hi: &Text) -> usize {
        let rows: Vec<Record> = self.range(*lo..=*hi).map(|(key, value)| (*key, *value)).collect();
        found(&rows)
    }
}

fn map_one_by_one(records: &[Record]) -> BTreeMap<Text, Text> {
    let mut map = BTreeMap::new();
    for (key, value) in records {
        map.insert(*key, *value);
    }
    map
}

fn map_of_sorted(records: &[Record]) -> BTreeMap<Text, Text> {
    let mut sorted = records.to_vec();
    sorted.sort_unstable();
    sorted.into_iter().collect()
}

struct NoIndex<'a>(&'a [Record]);

impl Way for NoIndex<'_> {
    fn query(&mut self, lo: &Text, hi: &Text) -> usize {
        let mut rows: Vec<Record> = self.0.iter().filter(|record| *lo <= record.0 && record.0 <= *hi).copied().collect();
        rows.sort_unstable();
        found(&rows)
    }
}

// ---- an array that each query cracks

/// The records, parted in place at the ends of the ranges that were asked for (database cracking: Idreos, Kersten and
/// Manegold, CIDR 2007). The pieces are told by a map from a key to the place of the first record that isn't below it.
struct Cracked {
    records: Vec<Record>,
    cuts: BTreeMap<u128, usize>,
}

fn number(key: &Text) -> u128 {
    u128::from_be_bytes(*key)
}

impl Cracked {
    fn of(records: &[Record]) -> Cracked {
        Cracked { records: records.to_vec(), cuts: BTreeMap::from([(0, 0), (u128::MAX, records.len())]) }
    }

    /// The place of the first record that isn't below the key. The piece around it is parted there.
    fn crack(&mut self, key: u128) -> usize {
        if let Some(place) = self.cuts.get(&key) {
            return *place;
        }
        let from = *self.cuts.range(..key).next_back().unwrap().1;
        let to = *self.cuts.range(key..).next().unwrap().1;
        let place = from + part(&mut self.records[from..to], key);
        self.cuts.insert(key, place);
        place
    }
}

/// Brings the records below the key to the front (Hoare's partition), and tells how many these are.
fn part(piece: &mut [Record], key: u128) -> usize {
    let (mut from, mut to) = (0, piece.len());
    loop {
        while from < to && number(&piece[from].0) < key {
            from += 1;
        }
        while from < to && number(&piece[to - 1].0) >= key {
            to -= 1;
        }
        if from == to {
            return from;
        }
        to -= 1;
        piece.swap(from, to);
        from += 1;
    }
}

impl Way for Cracked {
    fn query(&mut self, lo: &Text, hi: &Text) -> usize {
        let from = self.crack(number(lo));
        let to = self.crack(number(hi) + 1);
        let mut rows = self.records[from..to].to_vec();
        rows.sort_unstable();
        found(&rows)
    }
}

// ---- SQLite

struct Table {
    select: Statement,
    _sqlite: Sqlite,
}

impl Table {
    /// A table that is filled and then indexed.
    fn load(records: &[Record]) -> Table {
        let mut sqlite = Sqlite::open();
        sqlite.exec(c"CREATE TABLE records (key TEXT NOT NULL, value TEXT NOT NULL)");
        sqlite.exec(c"BEGIN");
        let mut insert = sqlite.prepare(c"INSERT INTO records VALUES (?, ?)");
        for (key, value) in records {
            insert.run(&[key, value]);
        }
        drop(insert);
        sqlite.exec(c"CREATE UNIQUE INDEX by_key ON records (key, value)");
        sqlite.exec(c"COMMIT");
        Table { select: sqlite.prepare(c"SELECT key, value FROM records WHERE key BETWEEN ? AND ? ORDER BY key"), _sqlite: sqlite }
    }
}

impl Way for Table {
    fn query(&mut self, lo: &Text, hi: &Text) -> usize {
        found(&self.select.records(&[lo, hi]))
    }
}

// ---- the figures

struct Figures {
    /// From the data's coming to the first answer.
    first: Duration,
    /// Of each query.
    queries: Vec<Duration>,
    total: Duration,
}

fn measure<W: Way>(make: impl FnOnce() -> W, ranges: &[(Text, Text)]) -> (Figures, W) {
    let begin = Instant::now();
    let mut way = make();
    let mut first = Duration::ZERO;
    let mut queries = Vec::with_capacity(ranges.len());
    for (lo, hi) in ranges {
        let at = Instant::now();
        assert_eq!(way.query(lo, hi), ROWS);
        queries.push(at.elapsed());
        if queries.len() == 1 {
            first = begin.elapsed();
        }
    }
    (Figures { first, queries, total: begin.elapsed() }, way)
}

fn micros(time: Duration) -> f64 {
    time.as_secs_f64() * 1e6
}

/// The middle one of the times about a query, as one alone is noise.
fn about(queries: &[Duration], number: usize) -> Duration {
    let end = (number + number / 5).min(queries.len()).max(number);
    let mut near = queries[number - 1..end].to_vec();
    near.sort_unstable();
    near[near.len() / 2]
}

fn tell(folder: &str, file: &str, name: &str, figures: &Figures) {
    let mut line = format!("{name:<38} {:>8.3} s", figures.first.as_secs_f64());
    for number in [1, 10, 100, 1_000, 10_000] {
        match figures.queries.get(number - 1) {
            Some(_) => line += &format!(" {:>8.1}", micros(about(&figures.queries, number))),
            None => line += "        -",
        }
    }
    println!("{line} {:>8.3} s after {}", figures.total.as_secs_f64(), figures.queries.len());
    let mut out = BufWriter::new(File::create(format!("{folder}/{file}")).unwrap());
    let mut sum = figures.first - figures.queries[0];
    let mut told = 0.0;
    for (at, query) in figures.queries.iter().enumerate() {
        sum += *query;
        // Some forty points for each power of ten.
        if ((at + 1) as f64).log10() >= told {
            told = ((at + 1) as f64).log10() + 0.025;
            writeln!(out, "{} {:e} {:e}", at + 1, about(&figures.queries, at + 1).as_secs_f64(), sum.as_secs_f64()).unwrap();
        }
    }
}

fn main() {
    let folder = std::env::args().nth(1).expect("a folder");
    let (records, ranges) = workload();
    println!("{RECORDS} records in random order, keys and values of 16 bytes; {HOT_QUERIES} scans of {ROWS} over a hot twentieth, then {OTHER_QUERIES} anywhere");
    println!("{:<38} {:>10} {:>8} {:>8} {:>8} {:>8} {:>8}", "", "to the 1st", "query 1", "10", "100", "1,000", "10,000 (us)");
    let (ours, store) = measure(|| loaded(&records), &ranges);
    tell(&folder, "tiuvrokk", "Tiuvrokk, 16 runs, merged by queries", &ours);
    let moved = store.moved;
    drop(store);
    let (one_by_one, map) = measure(|| map_one_by_one(&records), &ranges);
    tell(&folder, "one_by_one", "std's map, filled one by one", &one_by_one);
    drop(map);
    let (sorted, map) = measure(|| map_of_sorted(&records), &ranges);
    tell(&folder, "sorted", "std's map, built of all, sorted", &sorted);
    drop(map);
    let (cracked, array) = measure(|| Cracked::of(&records), &ranges);
    tell(&folder, "cracked", "an array, cracked by queries", &cracked);
    drop(array);
    let (sqlite, _) = measure(|| Table::load(&records), &ranges);
    tell(&folder, "sqlite", "SQLite :memory:, then CREATE INDEX", &sqlite);
    let (without, _) = measure(|| NoIndex(&records), &ranges[..QUERIES_WITHOUT]);
    tell(&folder, "no_index", "no index", &without);
    let mut whole = loaded(&records);
    whole.merge_all();
    let (merged, _) = measure(|| whole, &ranges[..HOT_QUERIES]);
    println!("moved by the queries: {moved} records");
    let hot = about(&ours.queries, HOT_QUERIES * 4 / 5);
    let as_whole = about(&merged.queries, HOT_QUERIES * 4 / 5);
    println!("a hot query at last: {:.1} us; of a store that was merged whole: {:.1} us, so {:.2} times", micros(hot), micros(as_whole), hot.as_secs_f64() / as_whole.as_secs_f64());
    let share = |other: &Figures| ours.first.as_secs_f64() / other.first.as_secs_f64();
    println!("to the first answer: {:.2} of one by one, {:.2} of sorted and built, {:.2} of SQLite, {:.2} of cracked", share(&one_by_one), share(&sorted), share(&sqlite), share(&cracked));
}
