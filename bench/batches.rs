//! Batches of records that come onto what is there: the time from a batch's coming to the first answer of it, of a read and of a
//! scan behind it. Built and run by bench/batches, each way in a process of its own: batches WAY [FOLDER] [rising]. Records come in
//! any order, or each batch behind all before it, and in order.
//!
//! It writes a line for each batch: the records that were there before, seconds to the first answer, microseconds of a read and
//! of a scan of 100, the middle ones of some; and a last line, whose last figure is a scan where a hundred came before it.

mod ways;

use std::collections::BTreeMap;
use std::ffi::{c_char, c_int, c_uint, c_void, CString};
use std::hint::black_box;
use std::process::exit;
use std::ptr::null_mut;
use std::time::Instant;
use ways::{text, Numbers, Record, Sqlite, Statement, Store, Text};

const BATCH: usize = 65_536;
const BATCHES: usize = 92;
const READS: usize = 101;
const SCANS: usize = 21;
const ROWS: usize = 100;
// So many keys at one place are scanned so often.
const HOT: usize = 6_000;
const HOT_SCANS: usize = 100;

/// Something that takes batches and answers questions.
trait Way {
    /// Takes a batch, in the order of its coming.
    fn add(&mut self, batch: &[Record]);

    /// Whether the key has a record.
    fn has(&mut self, key: &Text) -> bool;

    /// How many records are read from the key on, 100 at most.
    fn scan(&mut self, lo: &Text) -> usize;

    /// Merges what was read, where that is a matter of its own.
    fn merge(&mut self) {}
}

const LAST: Text = [0x7e; 16];

fn sorted(batch: &[Record]) -> Vec<Record> {
    let mut sorted = batch.to_vec();
    sorted.sort_unstable();
    sorted
}

// ---- Tiuvrokk: each batch is a run, and nothing is merged

impl Way for Store {
    fn add(&mut self, batch: &[Record]) {
        self.load([batch].into_iter());
    }

    fn has(&mut self, key: &Text) -> bool {
        Store::has(self, key)
    }

    fn scan(&mut self, lo: &Text) -> usize {
        Store::scan(self, lo, &LAST, ROWS)
    }

    fn merge(&mut self) {
        Store::merge(self);
    }
}

// ---- std's map, into which a batch is inserted sorted, or appended as a map of its own, or inserted as it comes

struct Map {
    map: BTreeMap<Text, Text>,
    add: fn(&mut BTreeMap<Text, Text>, &[Record]),
}

fn insert_sorted(map: &mut BTreeMap<Text, Text>, batch: &[Record]) {
    map.extend(sorted(batch));
}

fn append(map: &mut BTreeMap<Text, Text>, batch: &[Record]) {
    map.append(&mut sorted(batch).into_iter().collect());
}

fn insert_as_it_comes(map: &mut BTreeMap<Text, Text>, batch: &[Record]) {
    map.extend(batch.iter().copied());
}

impl Way for Map {
    fn add(&mut self, batch: &[Record]) {
        (self.add)(&mut self.map, batch);
    }

    fn has(&mut self, key: &Text) -> bool {
        self.map.get(key).is_some_and(|value| black_box(value)[0] != 0)
    }

    fn scan(&mut self, lo: &Text) -> usize {
        let rows: Vec<Record> = self.map.range(*lo..).take(ROWS).map(|(key, value)| (*key, *value)).collect();
        black_box(&rows).len()
    }
}

// ---- an array in order, with which each batch is merged

struct Array(Vec<Record>);

impl Way for Array {
    fn add(&mut self, batch: &[Record]) {
        let (old, new) = (std::mem::take(&mut self.0), sorted(batch));
        let mut all = Vec::with_capacity(old.len() + new.len());
        let mut from = 0;
        for record in new {
            let to = from + old[from..].partition_point(|it| it.0 < record.0);
            all.extend_from_slice(&old[from..to]);
            all.push(record);
            from = to;
        }
        all.extend_from_slice(&old[from..]);
        self.0 = all;
    }

    fn has(&mut self, key: &Text) -> bool {
        self.0.binary_search_by(|record| record.0.cmp(key)).is_ok()
    }

    fn scan(&mut self, lo: &Text) -> usize {
        let from = self.0.partition_point(|record| record.0 < *lo);
        let rows = self.0[from..].iter().take(ROWS).copied().collect::<Vec<_>>();
        black_box(&rows).len()
    }
}

// ---- SQLite, in memory: a table that is its own index, into which a batch is inserted sorted

struct Table {
    insert: Statement,
    get: Statement,
    select: Statement,
    sqlite: Sqlite,
}

impl Table {
    fn new() -> Table {
        let mut sqlite = Sqlite::open();
        sqlite.exec(c"CREATE TABLE records (key TEXT PRIMARY KEY, value TEXT NOT NULL) WITHOUT ROWID");
        Table {
            insert: sqlite.prepare(c"INSERT INTO records VALUES (?, ?)"),
            get: sqlite.prepare(c"SELECT key, value FROM records WHERE key = ?"),
            select: sqlite.prepare(c"SELECT key, value FROM records WHERE key >= ? ORDER BY key LIMIT 100"),
            sqlite,
        }
    }
}

impl Way for Table {
    fn add(&mut self, batch: &[Record]) {
        self.sqlite.exec(c"BEGIN");
        for (key, value) in sorted(batch) {
            self.insert.run(&[&key, &value]);
        }
        self.sqlite.exec(c"COMMIT");
    }

    fn has(&mut self, key: &Text) -> bool {
        self.get.records(&[key]).len() == 1
    }

    fn scan(&mut self, lo: &Text) -> usize {
        self.select.records(&[lo]).len()
    }
}

// ---- LMDB, in a folder in memory, which is never synchronized: a batch is put sorted

#[repr(C)]
struct Slice {
    length: usize,
    at: *const c_void,
}

extern "C" {
    fn mdb_env_create(env: *mut *mut c_void) -> c_int;
    fn mdb_env_set_mapsize(env: *mut c_void, size: usize) -> c_int;
    fn mdb_env_open(env: *mut c_void, path: *const c_char, flags: c_uint, mode: c_uint) -> c_int;
    fn mdb_txn_begin(env: *mut c_void, parent: *mut c_void, flags: c_uint, tx: *mut *mut c_void) -> c_int;
    fn mdb_txn_commit(tx: *mut c_void) -> c_int;
    fn mdb_dbi_open(tx: *mut c_void, name: *const c_char, flags: c_uint, dbi: *mut c_uint) -> c_int;
    fn mdb_get(tx: *mut c_void, dbi: c_uint, key: *mut Slice, value: *mut Slice) -> c_int;
    fn mdb_put(tx: *mut c_void, dbi: c_uint, key: *mut Slice, value: *mut Slice, flags: c_uint) -> c_int;
    fn mdb_cursor_open(tx: *mut c_void, dbi: c_uint, cursor: *mut *mut c_void) -> c_int;
    fn mdb_cursor_get(cursor: *mut c_void, key: *mut Slice, value: *mut Slice, op: c_uint) -> c_int;
    fn mdb_cursor_close(cursor: *mut c_void);
}

const NO_SYNC: c_uint = 0x10000;
const WRITE_MAP: c_uint = 0x80000;
const READ_ONLY: c_uint = 0x20000;
const APPEND: c_uint = 0x20000;
const NEXT: c_uint = 8;
const SET_RANGE: c_uint = 17;

struct Lmdb {
    env: *mut c_void,
    dbi: c_uint,
    // How it puts a record: anywhere, or behind all others.
    put: c_uint,
}

impl Slice {
    fn of(text: &Text) -> Slice {
        Slice { length: text.len(), at: text.as_ptr().cast() }
    }

    fn none() -> Slice {
        Slice { length: 0, at: std::ptr::null() }
    }

    fn text(&self) -> Text {
        let mut text = [0; 16];
        text.copy_from_slice(unsafe { std::slice::from_raw_parts(self.at.cast(), 16) });
        text
    }
}

impl Lmdb {
    fn open(folder: &str, order: Order) -> Lmdb {
        let put = if order == Order::Rising { APPEND } else { 0 };
        let mut lmdb = Lmdb { env: null_mut(), dbi: 0, put };
        let path = CString::new(folder).unwrap();
        unsafe {
            assert_eq!(mdb_env_create(&mut lmdb.env), 0);
            assert_eq!(mdb_env_set_mapsize(lmdb.env, 4 << 30), 0);
            assert_eq!(mdb_env_open(lmdb.env, path.as_ptr(), NO_SYNC | WRITE_MAP, 0o600), 0);
        }
        let tx = lmdb.begin(0);
        assert_eq!(unsafe { mdb_dbi_open(tx, std::ptr::null(), 0, &mut lmdb.dbi) }, 0);
        assert_eq!(unsafe { mdb_txn_commit(tx) }, 0);
        lmdb
    }

    fn begin(&self, flags: c_uint) -> *mut c_void {
        let mut tx = null_mut();
        assert_eq!(unsafe { mdb_txn_begin(self.env, null_mut(), flags, &mut tx) }, 0);
        tx
    }
}

impl Way for Lmdb {
    fn add(&mut self, batch: &[Record]) {
        let tx = self.begin(0);
        for (key, value) in sorted(batch) {
            assert_eq!(unsafe { mdb_put(tx, self.dbi, &mut Slice::of(&key), &mut Slice::of(&value), self.put) }, 0);
        }
        assert_eq!(unsafe { mdb_txn_commit(tx) }, 0);
    }

    fn has(&mut self, key: &Text) -> bool {
        let tx = self.begin(READ_ONLY);
        let mut value = Slice::none();
        let status = unsafe { mdb_get(tx, self.dbi, &mut Slice::of(key), &mut value) };
        let found = status == 0 && black_box(value.text())[0] != 0;
        unsafe { mdb_txn_commit(tx) };
        found
    }

    fn scan(&mut self, lo: &Text) -> usize {
        let tx = self.begin(READ_ONLY);
        let mut cursor = null_mut();
        assert_eq!(unsafe { mdb_cursor_open(tx, self.dbi, &mut cursor) }, 0);
        let (mut key, mut value) = (Slice::of(lo), Slice::none());
        let mut rows: Vec<Record> = Vec::new();
        let mut op = SET_RANGE;
        while rows.len() < ROWS && unsafe { mdb_cursor_get(cursor, &mut key, &mut value, op) } == 0 {
            rows.push((key.text(), value.text()));
            op = NEXT;
        }
        unsafe {
            mdb_cursor_close(cursor);
            mdb_txn_commit(tx);
        }
        black_box(&rows).len()
    }
}

// ---- the figures

/// How the records come.
#[derive(Clone, Copy, PartialEq)]
enum Order {
    Any,
    Rising,
}

/// The middle one of the times of some calls, in microseconds.
fn middle(times: usize, mut call: impl FnMut()) -> f64 {
    let mut all: Vec<f64> = (0..times)
        .map(|_| {
            let begin = Instant::now();
            call();
            begin.elapsed().as_secs_f64() * 1e6
        })
        .collect();
    all.sort_unstable_by(f64::total_cmp);
    all[times / 2]
}

fn measure(mut way: impl Way, order: Order) {
    let mut numbers = Numbers(88_172_645_463_325_252);
    let mut keys: Vec<Text> = Vec::with_capacity(BATCH * BATCHES);
    for at in 0..BATCHES {
        let batch: Vec<Record> = (at * BATCH..(at + 1) * BATCH)
            .map(|n| (text(if order == Order::Rising { n as u64 } else { numbers.next() }), text(n as u64)))
            .collect();
        keys.extend(batch.iter().map(|record| record.0));
        let begin = Instant::now();
        way.add(&batch);
        assert!(way.has(&batch[BATCH / 2].0));
        let first = begin.elapsed().as_secs_f64();
        let read = middle(READS, || assert!(way.has(&keys[numbers.below(keys.len())])));
        let scan = middle(SCANS, || {
            black_box(way.scan(&keys[numbers.below(keys.len())]));
        });
        println!("{} {first:.6} {read:.2} {scan:.2}", at * BATCH);
    }
    // What is asked for again is merged: scans at one place, the hot one, and at last one there.
    keys.sort_unstable();
    let hot = &keys[keys.len() / 2..keys.len() / 2 + HOT];
    for _ in 0..HOT_SCANS {
        black_box(way.scan(&hot[numbers.below(HOT)]));
        way.merge();
    }
    let scan = middle(SCANS, || {
        black_box(way.scan(&hot[numbers.below(HOT)]));
    });
    println!("hot 0 0 {scan:.2}");
}

fn main() {
    let mut words: Vec<String> = std::env::args().skip(1).collect();
    let is_rising = words.last().is_some_and(|word| word == "rising");
    words.truncate(words.len() - usize::from(is_rising));
    let order = if is_rising { Order::Rising } else { Order::Any };
    let map = |add| Map { map: BTreeMap::new(), add };
    match words.iter().map(String::as_str).collect::<Vec<_>>()[..] {
        ["tiuvrokk"] => measure(Store::open(), order),
        ["map_sorted"] => measure(map(insert_sorted), order),
        ["map_append"] => measure(map(append), order),
        ["map_as_it_comes"] => measure(map(insert_as_it_comes), order),
        ["array"] => measure(Array(Vec::new()), order),
        ["sqlite"] => measure(Table::new(), order),
        ["lmdb", folder] => measure(Lmdb::open(folder, order), order),
        _ => {
            eprintln!("batches: no such way");
            exit(2);
        }
    }
}
