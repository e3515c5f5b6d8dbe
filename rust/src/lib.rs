//! Tiuvrokk: a transactional keyed store inside a program, over its library for C.
//!
//! ```
//! use tiuvrokk::{Error, Store, GREATEST};
//!
//! fn main() -> Result<(), Error> {
//!     let store = Store::open()?;
//!     let mut tx = store.transaction()?;
//!     tx.insert("ant", "6")?;
//!     assert_eq!(tx.get("ant")?.as_deref(), Some(&b"6"[..]));
//!     for record in tx.scan("a", GREATEST) {
//!         let record = record?;
//!         println!("{} {}", record.key.escape_ascii(), record.value.escape_ascii());
//!     }
//!     tx.commit()?;
//!     Ok(())
//! }
//! ```
//!
//! A store holds records, each a key of at most 32 bytes with a value of at most 64, in memory. Keys are ordered byte by byte.
//! Whatever transactions did, the committed ones read and wrote as if they had run one after another in the order of their
//! commits. `tiuvrokk.h` says more of each call.
//!
//! Each operation of a transaction locks the range of keys that it speaks of until the transaction ends. A lock is granted or
//! refused at once: [`Error::Busy`] names the transaction that is in the way. A transaction that is dropped is aborted.
//!
//! A store may be sent to another thread, and is used by one at a time.

#![warn(missing_docs)]

mod error;
mod library;
mod record;

use std::cell::UnsafeCell;
use std::ffi::{c_int, CStr};
use std::fmt;
use std::mem::{size_of, ManuallyDrop};
use std::ptr;

use error::{check, Told};
use library::Handle;

pub use error::{Error, LoadError};
pub use record::{Figures, Key, Layout, Record, Value, GREATEST};

/// So many rows are read at once at first, and twice as many each time after.
const FIRST_PAGE: usize = 100;
/// So many rows are read at once at most.
const LARGEST_PAGE: usize = 999;
/// So many records go by one operation at most.
const MOST_ROWS: u64 = 1000;

/// A store. Its memory is given back where it is dropped.
pub struct Store {
    handle: UnsafeCell<Handle>,
}

// SAFETY: any thread may use a handle, one at a time, and the library keeps nothing for a thread. A store isn't `Sync`, so
// neither it nor its transactions are used by two threads at once.
unsafe impl Send for Store {}

/// What a merge step did.
#[derive(Clone, Copy, Debug, PartialEq, Eq)]
pub enum Merge {
    /// It worked off so many entries of a run.
    Moved(u64),
    /// Nothing is left to merge for the oldest range that was read, which is forgotten.
    Done,
    /// No range is waiting to be merged.
    Idle,
    /// The next key is locked by this transaction, and the range that was read is forgotten.
    Ended(u64),
}

/// How a range is locked.
#[derive(Clone, Copy, Debug, PartialEq, Eq)]
pub enum Mode {
    /// To read it.
    Shared,
    /// To write it.
    Exclusive,
}

impl Store {
    /// Opens an empty store.
    ///
    /// # Errors
    /// [`Error::NoMemory`].
    pub fn open() -> Result<Store, Error> {
        let store = Store { handle: UnsafeCell::new(Handle { at: ptr::null_mut() }) };
        // SAFETY: the handle is closed.
        check(unsafe { library::tvk_open(store.at()) }, Told::default())?;
        Ok(store)
    }

    fn at(&self) -> *mut Handle {
        self.handle.get()
    }

    /// Begins a transaction.
    ///
    /// # Errors
    /// [`Error::TooManyTransactions`], where 64 are active.
    pub fn transaction(&self) -> Result<Transaction<'_>, Error> {
        let mut number = 0;
        // SAFETY: the handle is open, and the number is this function's.
        check(unsafe { library::tvk_begin(self.at(), &mut number) }, Told::default())?;
        Ok(Transaction { store: self, number })
    }

    /// Moves records of the oldest range that was read from loaded runs to their final place: at most so many, 1 to 64. No
    /// transaction sees a difference.
    ///
    /// # Errors
    /// [`Error::BadLimit`], [`Error::NoMemory`].
    pub fn merge(&self, limit: u64) -> Result<Merge, Error> {
        let mut told = 0;
        // SAFETY: the handle is open, and the number is this function's.
        match unsafe { library::tvk_merge(self.at(), limit, &mut told) } {
            6 => Ok(Merge::Done),
            7 => Ok(Merge::Idle),
            8 => Ok(Merge::Ended(told)),
            status => check(status, Told::default()).map(|()| Merge::Moved(told)),
        }
    }

    /// Does some of what is left to merge, first where was read, and then to clean, within a few hundred microseconds. Whether it did
    /// anything: another call may do more then. What transactions have locked stays. Commits do a part of it by themselves, unless
    /// [`set_upkeep`] says otherwise.
    ///
    /// # Errors
    /// [`Error::NoMemory`].
    pub fn tidy(&self) -> Result<bool, Error> {
        let mut told = 0;
        // SAFETY: the handle is open, and the number is this function's.
        check(unsafe { library::tvk_tidy(self.at(), &mut told) }, Told::default()).map(|()| told > 0)
    }

    /// Takes away entries of a range that are marked as deleted: at most so many, 1 to 64. How many they were. Commits do so by
    /// themselves, unless [`set_upkeep`] says otherwise.
    ///
    /// # Errors
    /// [`Error::BadKey`], [`Error::BadLimit`], [`Error::BadRange`].
    pub fn clean(&self, lo: impl AsRef<[u8]>, hi: impl AsRef<[u8]>, limit: u64) -> Result<u64, Error> {
        let (lo, hi, mut told) = (lo.as_ref(), hi.as_ref(), 0);
        // SAFETY: the handle is open, the keys have as many bytes as is said, and the number is this function's.
        let status = unsafe { library::tvk_clean(self.at(), lo.as_ptr(), lo.len(), hi.as_ptr(), hi.len(), limit, &mut told) };
        check(status, Told::default()).map(|()| told)
    }

    /// How large it is. This takes no memory, and looks at no entry.
    pub fn figures(&self) -> Figures {
        let mut figures = Figures::default();
        // SAFETY: the handle is open, and the figures are this function's.
        unsafe { library::tvk_figures(self.at(), &mut figures) };
        figures
    }
}

impl Drop for Store {
    fn drop(&mut self) {
        // SAFETY: no transaction outlives its store. A store that could not be opened has none, which is answered so.
        unsafe { library::tvk_close(self.at()) };
    }
}

impl fmt::Debug for Store {
    fn fmt(&self, f: &mut fmt::Formatter<'_>) -> fmt::Result {
        f.debug_struct("Store").field("figures", &self.figures()).finish()
    }
}

/// Whether commits of all stores of this program clean some of what was deleted, and merge where more than 64 runs have entries, as
/// they do at first.
pub fn set_upkeep(on: bool) {
    // SAFETY: it takes any number.
    unsafe { library::tvk_upkeep(c_int::from(on)) };
}

/// The version of the library that is linked.
pub fn version() -> &'static str {
    // SAFETY: the library's text is a constant.
    unsafe { CStr::from_ptr(library::tvk_version()) }.to_str().unwrap_or_default()
}

/// A transaction. It is aborted where it is dropped.
pub struct Transaction<'s> {
    store: &'s Store,
    number: u64,
}

/// What is done to one key.
type Write = unsafe extern "C" fn(*mut Handle, u64, *const u8, usize, *const u8, usize, *mut u64) -> c_int;

impl<'s> Transaction<'s> {
    /// The number by which [`Error::Busy`] names it.
    pub fn number(&self) -> u64 {
        self.number
    }

    /// Commits. The number of the commit: they rise by one from 1.
    ///
    /// # Errors
    /// None that a program can bring about.
    pub fn commit(self) -> Result<u64, Error> {
        let ended = ManuallyDrop::new(self);
        let mut commit = 0;
        // SAFETY: the handle is open, and the number is this function's.
        check(unsafe { library::tvk_commit(ended.store.at(), ended.number, &mut commit) }, Told::default())?;
        Ok(commit)
    }

    /// Takes back what it wrote, and ends it, as dropping it does.
    pub fn abort(self) {}

    /// Sets a savepoint.
    ///
    /// # Errors
    /// [`Error::TooManyOperations`], [`Error::NoMemory`].
    pub fn mark(&mut self) -> Result<(), Error> {
        // SAFETY: the handle is open.
        check(unsafe { library::tvk_mark(self.store.at(), self.number) }, Told::default())
    }

    /// Takes back what was written since the newest savepoint, which goes. Locks stay.
    ///
    /// # Errors
    /// [`Error::TooManyOperations`], [`Error::NoMark`].
    pub fn back(&mut self) -> Result<(), Error> {
        // SAFETY: the handle is open.
        check(unsafe { library::tvk_back(self.store.at(), self.number) }, Told::default())
    }

    /// The value under the key, where it has one.
    ///
    /// # Errors
    /// [`Error::BadKey`], [`Error::TooManyOperations`], [`Error::Busy`], [`Error::TooManyLocks`], [`Error::NoMemory`].
    pub fn get(&self, key: impl AsRef<[u8]>) -> Result<Option<Value>, Error> {
        let (key, mut value, mut holder) = (key.as_ref(), Value::default(), 0);
        // SAFETY: the handle is open, the key has as many bytes as is said, and what is written is this function's.
        let status = unsafe { library::tvk_get(self.store.at(), self.number, key.as_ptr(), key.len(), &mut value, &mut holder) };
        match checked(status, holder) {
            Ok(()) => Ok(Some(value)),
            Err(Error::Absent) => Ok(None),
            Err(refused) => Err(refused),
        }
    }

    /// Adds a record.
    ///
    /// # Errors
    /// [`Error::Exists`], where the key has one; [`Error::BadKey`], [`Error::BadValue`], [`Error::TooManyOperations`],
    /// [`Error::Busy`], [`Error::TooManyLocks`], [`Error::NoMemory`].
    pub fn insert(&mut self, key: impl AsRef<[u8]>, value: impl AsRef<[u8]>) -> Result<(), Error> {
        let key = key.as_ref();
        match self.write(library::tvk_insert, key, value.as_ref()) {
            Err(Error::Exists(_)) => Err(Error::Exists(Key::new(key)?)),
            done => done,
        }
    }

    /// Gives a record another value.
    ///
    /// # Errors
    /// [`Error::Absent`], where there is none; and else those of [`Transaction::insert`].
    pub fn replace(&mut self, key: impl AsRef<[u8]>, value: impl AsRef<[u8]>) -> Result<(), Error> {
        self.write(library::tvk_replace, key.as_ref(), value.as_ref())
    }

    /// Sets the value under the key, whether it has one or not.
    ///
    /// # Errors
    /// Those of [`Transaction::insert`] but `Exists`.
    pub fn set(&mut self, key: impl AsRef<[u8]>, value: impl AsRef<[u8]>) -> Result<(), Error> {
        self.write(library::tvk_set, key.as_ref(), value.as_ref())
    }

    /// [`Transaction::set`] by another name.
    ///
    /// # Errors
    /// Those of [`Transaction::set`].
    pub fn put(&mut self, key: impl AsRef<[u8]>, value: impl AsRef<[u8]>) -> Result<(), Error> {
        self.set(key, value)
    }

    fn write(&mut self, call: Write, key: &[u8], value: &[u8]) -> Result<(), Error> {
        let mut holder = 0;
        // SAFETY: the handle is open, key and value have as many bytes as is said, and the number is this function's.
        let status =
            unsafe { call(self.store.at(), self.number, key.as_ptr(), key.len(), value.as_ptr(), value.len(), &mut holder) };
        checked(status, holder)
    }

    /// Takes the record away. Whether there was one.
    ///
    /// # Errors
    /// Those of [`Transaction::get`].
    pub fn remove(&mut self, key: impl AsRef<[u8]>) -> Result<bool, Error> {
        let (key, mut holder) = (key.as_ref(), 0);
        // SAFETY: the handle is open, the key has as many bytes as is said, and the number is this function's.
        let status = unsafe { library::tvk_delete(self.store.at(), self.number, key.as_ptr(), key.len(), &mut holder) };
        match checked(status, holder) {
            Ok(()) => Ok(true),
            Err(Error::Absent) => Ok(false),
            Err(refused) => Err(refused),
        }
    }

    /// Takes the records from `lo` to `hi` away, both included, the first `most` of them. How many went. Each thousand is an
    /// operation.
    ///
    /// # Errors
    /// [`Error::BadRange`], and those of [`Transaction::get`]. What went before stays so.
    pub fn remove_range(&mut self, lo: impl AsRef<[u8]>, hi: impl AsRef<[u8]>, most: u64) -> Result<u64, Error> {
        let (lo, hi, mut count) = (lo.as_ref(), hi.as_ref(), 0);
        while count < most {
            let (limit, mut told) = (MOST_ROWS.min(most - count), 0);
            // SAFETY: the handle is open, the keys have as many bytes as is said, and the number is this function's.
            let status = unsafe {
                let (low, high) = ((lo.as_ptr(), lo.len()), (hi.as_ptr(), hi.len()));
                library::tvk_delete_range(self.store.at(), self.number, low.0, low.1, high.0, high.1, limit, &mut told)
            };
            checked(status, told)?;
            count += told;
            if told < limit {
                break;
            }
        }
        Ok(count)
    }

    /// Adds records that rise strictly by key as one run, all of them or none.
    ///
    /// # Errors
    /// [`Error::NotRising`], [`Error::Exists`] with the least key that has a record, [`Error::TooManyOperations`],
    /// [`Error::TooManyRuns`], [`Error::Busy`], [`Error::TooManyLocks`], [`Error::NoMemory`].
    pub fn load_rising(&mut self, records: &[Record]) -> Result<(), Error> {
        let mut told = Told::default();
        // SAFETY: the handle is open, the records are as many as is said, and what is written is this function's.
        let status = unsafe {
            let (at, number) = (records.as_ptr(), records.len());
            library::tvk_load(self.store.at(), self.number, at, number, &mut told.key, &mut told.number)
        };
        check(status, told)
    }

    /// Adds records in any order: the first 65,536 of them make the first run, the next 65,536 the second, and so on. How many
    /// they are; none at all are added as none. Where there are more than 255 runs, lock all keys first.
    ///
    /// # Errors
    /// Why the first run that is refused is, and how many records were added before, which stay. [`Error::Twice`] comes before
    /// any is added.
    pub fn load<K: AsRef<[u8]>, V: AsRef<[u8]>>(&mut self, records: impl IntoIterator<Item = (K, V)>) -> Result<u64, LoadError> {
        let records = copied(records)?;
        if records.is_empty() {
            return Ok(0);
        }
        self.loaded(|store, tx, told, loaded| {
            let (at, number) = (records.as_ptr(), records.len());
            // SAFETY: the records are as many as is said.
            unsafe { library::tvk_load_sorting(store, tx, at, number, &mut told.key, loaded, &mut told.number) }
        })
    }

    /// Sets records in any order, whether their keys have one or not: the first 65,536 of them by one operation, then the next
    /// 65,536, and so on. Those whose keys have none make a run. How many they all are.
    ///
    /// # Errors
    /// Why those are refused that are, and how many records were set before, which stay. [`Error::Twice`] comes before any is
    /// set.
    pub fn update<K: AsRef<[u8]>, V: AsRef<[u8]>>(
        &mut self,
        records: impl IntoIterator<Item = (K, V)>,
    ) -> Result<u64, LoadError> {
        let records = copied(records)?;
        if records.is_empty() {
            return Ok(0);
        }
        self.loaded(|store, tx, told, loaded| {
            let (at, number) = (records.as_ptr(), records.len());
            // SAFETY: the records are as many as is said.
            unsafe { library::tvk_put_sorting(store, tx, at, number, &mut told.key, loaded, &mut told.number) }
        })
    }

    /// Adds the records of a text, as [`Transaction::load`] does: each line has a key, a TAB, a value and an LF, which the last
    /// one may lack.
    ///
    /// # Errors
    /// Those of [`Transaction::load`]. [`Error::BadLine`], [`Error::BadKey`] and [`Error::BadValue`] name the first line that is
    /// no record, and come before any is added.
    pub fn load_text(&mut self, text: &[u8]) -> Result<u64, LoadError> {
        self.loaded(|store, tx, told, loaded| {
            let (at, length) = (text.as_ptr(), text.len());
            // SAFETY: the text has as many bytes as is said.
            unsafe { library::tvk_load_text(store, tx, at, length, &mut told.key, &mut told.line, loaded, &mut told.number) }
        })
    }

    /// Adds the records of structs, as [`Transaction::load`] does, where each has its key and its value at the same places.
    /// They are read where they lie, but for small ones in no order, which are copied a run at a time, if memory is to be had.
    ///
    /// # Errors
    /// Those of [`Transaction::load`]; [`Error::BadKey`] and [`Error::BadValue`], where one is too long or lies outside of its
    /// struct.
    ///
    /// # Safety
    /// The bytes that the layout names are initialized in each of the structs: they are no padding.
    pub unsafe fn load_structs<T>(&mut self, structs: &[T], layout: Layout) -> Result<u64, LoadError> {
        let layout = Layout { size: size_of::<T>(), ..layout };
        self.loaded(|store, tx, told, loaded| {
            let (at, number) = (structs.as_ptr().cast(), structs.len());
            // SAFETY: the structs are as many, and as large, as is said; the caller says what their bytes are.
            unsafe { library::tvk_load_structs(store, tx, at, number, &layout, &mut told.key, loaded, &mut told.number) }
        })
    }

    fn loaded(&mut self, call: impl FnOnce(*mut Handle, u64, &mut Told, &mut u64) -> c_int) -> Result<u64, LoadError> {
        let (mut told, mut loaded) = (Told::default(), 0);
        let status = call(self.store.at(), self.number, &mut told, &mut loaded);
        check(status, told).map(|()| loaded).map_err(|error| LoadError { error, loaded })
    }

    /// The records from `lo` to `hi`, both included, by rising key. They are read while they are walked through, and each time
    /// the range from the next key to `hi` is locked.
    pub fn scan(&self, lo: impl AsRef<[u8]>, hi: impl AsRef<[u8]>) -> Rows<'_> {
        self.rows(lo.as_ref(), hi.as_ref(), false)
    }

    /// The records from `hi` down to `lo`, both included. They are read while they are walked through, and each time the range
    /// from `lo` to the next key is locked.
    pub fn scan_back(&self, lo: impl AsRef<[u8]>, hi: impl AsRef<[u8]>) -> Rows<'_> {
        self.rows(lo.as_ref(), hi.as_ref(), true)
    }

    fn rows(&self, lo: &[u8], hi: &[u8], is_back: bool) -> Rows<'_> {
        Rows { tx: self, ends: Ok((lo.to_vec(), hi.to_vec())), is_back, page: Vec::new(), at: 0, size: 0 }
    }

    /// Locks a range, absent keys too.
    ///
    /// # Errors
    /// [`Error::BadKey`], [`Error::BadRange`], [`Error::TooManyOperations`], [`Error::Busy`], [`Error::TooManyLocks`],
    /// [`Error::NoMemory`].
    pub fn lock(&mut self, mode: Mode, lo: impl AsRef<[u8]>, hi: impl AsRef<[u8]>) -> Result<(), Error> {
        let (lo, hi, mut holder) = (lo.as_ref(), hi.as_ref(), 0);
        let mode = c_int::from(mode == Mode::Exclusive);
        // SAFETY: the handle is open, the keys have as many bytes as is said, and the number is this function's.
        let status = unsafe {
            let (low, high) = ((lo.as_ptr(), lo.len()), (hi.as_ptr(), hi.len()));
            library::tvk_lock(self.store.at(), self.number, mode, low.0, low.1, high.0, high.1, &mut holder)
        };
        checked(status, holder)
    }
}

fn copied<K: AsRef<[u8]>, V: AsRef<[u8]>>(records: impl IntoIterator<Item = (K, V)>) -> Result<Vec<Record>, LoadError> {
    let made: Result<Vec<Record>, Error> = records.into_iter().map(|(key, value)| Record::new(key, value)).collect();
    made.map_err(|error| LoadError { error, loaded: 0 })
}

fn checked(status: c_int, holder: u64) -> Result<(), Error> {
    check(status, Told { number: holder, ..Told::default() })
}

impl Drop for Transaction<'_> {
    fn drop(&mut self) {
        // SAFETY: the handle is open.
        unsafe { library::tvk_abort(self.store.at(), self.number) };
    }
}

impl fmt::Debug for Transaction<'_> {
    fn fmt(&self, f: &mut fmt::Formatter<'_>) -> fmt::Result {
        f.debug_struct("Transaction").field("number", &self.number).finish_non_exhaustive()
    }
}

/// The records of a range, by [`Transaction::scan`] or [`Transaction::scan_back`]. Behind a refusal nothing more comes.
#[derive(Debug)]
pub struct Rows<'t> {
    tx: &'t Transaction<'t>,
    // What is left to read; or nothing more comes.
    ends: Result<(Vec<u8>, Vec<u8>), ()>,
    is_back: bool,
    page: Vec<Record>,
    at: usize,
    // Of the page that was read last; 0 before the first one.
    size: usize,
}

impl Rows<'_> {
    /// Reads the next page, where one may follow.
    fn read(&mut self) -> Result<(), Error> {
        let Ok((lo, hi)) = &mut self.ends else {
            return Ok(());
        };
        let scan = match (self.is_back, self.size) {
            (false, 0) => library::tvk_scan,
            (false, _) => library::tvk_scan_behind,
            (true, 0) => library::tvk_scan_back,
            (true, _) => library::tvk_scan_before,
        };
        if let Some(last) = self.page.last() {
            let end = if self.is_back { &mut *hi } else { &mut *lo };
            end.clear();
            end.extend_from_slice(&last.key);
        }
        self.size = if self.size == 0 { FIRST_PAGE } else { LARGEST_PAGE.min(2 * self.size) };
        self.at = 0;
        self.page.clear();
        self.page.resize(self.size, Record::default());
        let mut told = 0;
        // SAFETY: the handle is open, the keys have as many bytes as is said, and there is room for so many rows.
        let status = unsafe {
            let (low, high) = ((lo.as_ptr(), lo.len()), (hi.as_ptr(), hi.len()));
            let (store, number) = (self.tx.store.at(), self.tx.number);
            scan(store, number, low.0, low.1, high.0, high.1, self.page.as_mut_ptr(), self.size, &mut told)
        };
        let read = checked(status, told);
        self.page.truncate(if read.is_ok() { usize::try_from(told).unwrap_or(self.size) } else { 0 });
        if self.page.len() < self.size {
            self.ends = Err(());
        }
        read
    }
}

impl Iterator for Rows<'_> {
    type Item = Result<Record, Error>;

    fn next(&mut self) -> Option<Result<Record, Error>> {
        if self.at == self.page.len() {
            if let Err(refused) = self.read() {
                return Some(Err(refused));
            }
        }
        let record = self.page.get(self.at)?;
        self.at += 1;
        Some(Ok(*record))
    }
}

impl std::iter::FusedIterator for Rows<'_> {}

#[cfg(test)]
mod tests;
