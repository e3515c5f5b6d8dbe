//! What the programs of figures measure with: records, Tiuvrokk by its library for C, and SQLite in memory.

// (each program takes a part of it)
#![allow(dead_code)]

use std::ffi::{c_char, c_int, c_void, CStr};
use std::mem::{offset_of, size_of};
use std::ptr::null_mut;

pub type Text = [u8; 16];
pub type Record = (Text, Text);

/// A fixed sequence of numbers (xorshift, Marsaglia 2003).
pub struct Numbers(pub u64);

impl Numbers {
    pub fn next(&mut self) -> u64 {
        self.0 ^= self.0 << 13;
        self.0 ^= self.0 >> 7;
        self.0 ^= self.0 << 17;
        self.0
    }

    pub fn below(&mut self, bound: usize) -> usize {
        (self.next() % bound as u64) as usize
    }
}

pub fn text(number: u64) -> Text {
    let mut text = [0; 16];
    text.copy_from_slice(format!("{number:016x}").as_bytes());
    text
}

// ---- Tiuvrokk

#[repr(C)]
struct Handle(*mut c_void);

#[repr(C)]
#[derive(Clone, Copy)]
struct Key {
    length: usize,
    bytes: [u8; 32],
}

#[repr(C)]
#[derive(Clone, Copy)]
struct Value {
    length: usize,
    bytes: [u8; 64],
}

#[repr(C)]
#[derive(Clone, Copy)]
struct Row {
    key: Key,
    value: Value,
}

#[repr(C)]
struct Layout {
    size: usize,
    key_at: usize,
    key_length: usize,
    value_at: usize,
    value_length: usize,
}

/// Where a record has its key and its value.
const LAYOUT: Layout = Layout {
    size: size_of::<Record>(),
    key_at: offset_of!(Record, 0),
    key_length: size_of::<Text>(),
    value_at: offset_of!(Record, 1),
    value_length: size_of::<Text>(),
};

extern "C" {
    fn tvk_open(store: *mut Handle) -> c_int;
    fn tvk_close(store: *mut Handle) -> c_int;
    fn tvk_begin(store: *mut Handle, tx: *mut u64) -> c_int;
    fn tvk_commit(store: *mut Handle, tx: u64, commit: *mut u64) -> c_int;
    fn tvk_load_structs(
        store: *mut Handle, tx: u64, structs: *const c_void, number: usize, layout: *const Layout, key: *mut Key, loaded: *mut u64,
        holder: *mut u64,
    ) -> c_int;
    fn tvk_get(store: *mut Handle, tx: u64, key: *const u8, length: usize, value: *mut Value, holder: *mut u64) -> c_int;
    fn tvk_scan(
        store: *mut Handle, tx: u64, lo: *const u8, lo_length: usize, hi: *const u8, hi_length: usize, rows: *mut Row, limit: usize,
        told: *mut u64,
    ) -> c_int;
    fn tvk_put_structs(
        store: *mut Handle, tx: u64, structs: *const c_void, number: usize, layout: *const Layout, key: *mut Key, done: *mut u64,
        holder: *mut u64,
    ) -> c_int;
    fn tvk_set(
        store: *mut Handle, tx: u64, key: *const u8, key_length: usize, value: *const u8, value_length: usize, holder: *mut u64,
    ) -> c_int;
    fn tvk_scan_back(
        store: *mut Handle, tx: u64, lo: *const u8, lo_length: usize, hi: *const u8, hi_length: usize, rows: *mut Row, limit: usize,
        told: *mut u64,
    ) -> c_int;
    fn tvk_delete_range(
        store: *mut Handle, tx: u64, lo: *const u8, lo_length: usize, hi: *const u8, hi_length: usize, limit: u64, told: *mut u64,
    ) -> c_int;
    fn tvk_merge(store: *mut Handle, limit: u64, told: *mut u64) -> c_int;
}

type Scan = unsafe extern "C" fn(*mut Handle, u64, *const u8, usize, *const u8, usize, *mut Row, usize, *mut u64) -> c_int;

const OK: c_int = 0;
const IDLE: c_int = 7;

const NO_VALUE: Value = Value { length: 0, bytes: [0; 64] };
const NO_ROW: Row = Row { key: Key { length: 0, bytes: [0; 32] }, value: NO_VALUE };

/// A store, which is merged where it is told so.
pub struct Store {
    store: Handle,
    rows: Vec<Row>,
    /// How many records were merged.
    pub moved: u64,
}

impl Store {
    pub fn open() -> Store {
        let mut store = Store { store: Handle(null_mut()), rows: vec![NO_ROW; 1000], moved: 0 };
        assert_eq!(unsafe { tvk_open(&mut store.store) }, OK);
        store
    }

    /// Loads each of the runs, whose records come in any order, and commits them together.
    pub fn load<'a>(&mut self, runs: impl Iterator<Item = &'a [Record]>) {
        let tx = self.begin();
        for run in runs {
            let store = &mut self.store;
            let status = unsafe { tvk_load_structs(store, tx, run.as_ptr().cast(), run.len(), &LAYOUT, null_mut(), null_mut(), null_mut()) };
            assert_eq!(status, OK);
        }
        self.commit(tx);
    }

    /// Puts records, which come in any order.
    pub fn put(&mut self, records: &[Record]) {
        let tx = self.begin();
        let (at, number) = (records.as_ptr().cast(), records.len());
        assert_eq!(unsafe { tvk_put_structs(&mut self.store, tx, at, number, &LAYOUT, null_mut(), null_mut(), null_mut()) }, OK);
        self.commit(tx);
    }

    /// Sets some records one by one.
    pub fn set(&mut self, records: &[Record]) {
        let tx = self.begin();
        for (key, value) in records {
            let status = unsafe { tvk_set(&mut self.store, tx, key.as_ptr(), key.len(), value.as_ptr(), value.len(), null_mut()) };
            assert_eq!(status, OK);
        }
        self.commit(tx);
    }

    /// How many records went, of those from `lo` to `hi`.
    pub fn delete_range(&mut self, lo: &[u8], hi: &[u8]) -> usize {
        let (tx, mut count, mut told) = (self.begin(), 0, 1000);
        while told == 1000 {
            let status = unsafe { tvk_delete_range(&mut self.store, tx, lo.as_ptr(), lo.len(), hi.as_ptr(), hi.len(), 1000, &mut told) };
            assert_eq!(status, OK);
            count += told as usize;
        }
        self.commit(tx);
        count
    }

    fn begin(&mut self) -> u64 {
        let mut tx = 0;
        assert_eq!(unsafe { tvk_begin(&mut self.store, &mut tx) }, OK);
        tx
    }

    fn commit(&mut self, tx: u64) {
        assert_eq!(unsafe { tvk_commit(&mut self.store, tx, null_mut()) }, OK);
    }

    /// Whether the key has a record.
    pub fn has(&mut self, key: &[u8]) -> bool {
        let tx = self.begin();
        let mut value = NO_VALUE;
        let status = unsafe { tvk_get(&mut self.store, tx, key.as_ptr(), key.len(), &mut value, null_mut()) };
        self.commit(tx);
        status == OK && value.length > 0
    }

    /// How many records are in the range, as far as the limit. They are copied out.
    pub fn scan(&mut self, lo: &[u8], hi: &[u8], limit: usize) -> usize {
        self.scanned(tvk_scan, lo, hi, limit)
    }

    /// The same from the highest key down.
    pub fn scan_back(&mut self, lo: &[u8], hi: &[u8], limit: usize) -> usize {
        self.scanned(tvk_scan_back, lo, hi, limit)
    }

    fn scanned(&mut self, call: Scan, lo: &[u8], hi: &[u8], limit: usize) -> usize {
        let tx = self.begin();
        let mut told = 0;
        let rows = self.rows.as_mut_ptr();
        assert_eq!(unsafe { call(&mut self.store, tx, lo.as_ptr(), lo.len(), hi.as_ptr(), hi.len(), rows, limit, &mut told) }, OK);
        self.commit(tx);
        told as usize
    }

    /// Merges what was read, and nothing else.
    pub fn merge(&mut self) {
        let mut told = 0;
        loop {
            let status = unsafe { tvk_merge(&mut self.store, 64, &mut told) };
            if status == IDLE {
                return;
            }
            self.moved += if status == OK { told } else { 0 };
        }
    }

    /// Reads and so merges all that there is.
    pub fn merge_all(&mut self) {
        let mut from = vec![0];
        loop {
            let found = self.scan(&from.clone(), &[0x7e; 32], 1000);
            self.merge();
            let last = self.rows[found - 1].key;
            from = last.bytes[..last.length].to_vec();
            if found < 1000 {
                return;
            }
        }
    }
}

impl Drop for Store {
    fn drop(&mut self) {
        unsafe { tvk_close(&mut self.store) };
    }
}

// ---- SQLite

extern "C" {
    fn sqlite3_open(name: *const c_char, db: *mut *mut c_void) -> c_int;
    fn sqlite3_close(db: *mut c_void) -> c_int;
    fn sqlite3_exec(db: *mut c_void, sql: *const c_char, call: *mut c_void, with: *mut c_void, error: *mut *mut c_char) -> c_int;
    fn sqlite3_prepare_v2(db: *mut c_void, sql: *const c_char, length: c_int, made: *mut *mut c_void, tail: *mut *const c_char) -> c_int;
    fn sqlite3_bind_text(made: *mut c_void, at: c_int, text: *const u8, length: c_int, free: *const c_void) -> c_int;
    fn sqlite3_step(made: *mut c_void) -> c_int;
    fn sqlite3_reset(made: *mut c_void) -> c_int;
    fn sqlite3_finalize(made: *mut c_void) -> c_int;
    fn sqlite3_column_text(made: *mut c_void, at: c_int) -> *const u8;
}

const SQLITE_ROW: c_int = 100;
const SQLITE_DONE: c_int = 101;

/// A database in memory.
pub struct Sqlite {
    db: *mut c_void,
}

/// A prepared statement. It goes before its database.
pub struct Statement {
    made: *mut c_void,
}

impl Sqlite {
    pub fn open() -> Sqlite {
        let mut sqlite = Sqlite { db: null_mut() };
        assert_eq!(unsafe { sqlite3_open(c":memory:".as_ptr(), &mut sqlite.db) }, 0);
        sqlite
    }

    pub fn exec(&mut self, sql: &CStr) {
        assert_eq!(unsafe { sqlite3_exec(self.db, sql.as_ptr(), null_mut(), null_mut(), null_mut()) }, 0);
    }

    pub fn prepare(&mut self, sql: &CStr) -> Statement {
        let mut made = null_mut();
        assert_eq!(unsafe { sqlite3_prepare_v2(self.db, sql.as_ptr(), -1, &mut made, null_mut()) }, 0);
        Statement { made }
    }
}

impl Drop for Sqlite {
    fn drop(&mut self) {
        unsafe { sqlite3_close(self.db) };
    }
}

impl Statement {
    fn bind(&mut self, texts: &[&Text]) {
        for (at, text) in (1..).zip(texts) {
            assert_eq!(unsafe { sqlite3_bind_text(self.made, at, text.as_ptr(), text.len() as c_int, null_mut()) }, 0);
        }
    }

    /// Does what it says with these texts.
    pub fn run(&mut self, texts: &[&Text]) {
        self.bind(texts);
        unsafe {
            assert_eq!(sqlite3_step(self.made), SQLITE_DONE);
            sqlite3_reset(self.made);
        }
    }

    /// The records that it finds with these texts.
    pub fn records(&mut self, texts: &[&Text]) -> Vec<Record> {
        self.bind(texts);
        let mut rows = Vec::new();
        while unsafe { sqlite3_step(self.made) } == SQLITE_ROW {
            rows.push((self.column(0), self.column(1)));
        }
        unsafe { sqlite3_reset(self.made) };
        rows
    }

    fn column(&self, at: c_int) -> Text {
        let mut text = [0; 16];
        text.copy_from_slice(unsafe { std::slice::from_raw_parts(sqlite3_column_text(self.made, at), 16) });
        text
    }
}

impl Drop for Statement {
    fn drop(&mut self) {
        unsafe { sqlite3_finalize(self.made) };
    }
}
