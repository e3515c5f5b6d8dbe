//! The calls of the library for C, as `tiuvrokk.h` has them.

use std::ffi::{c_char, c_int, c_void};

use crate::{Figures, Key, Layout, Record, Value};

/// A store. It is closed where it is null.
#[repr(C)]
pub(crate) struct Handle {
    pub(crate) at: *mut c_void,
}

extern "C" {
    pub(crate) fn tvk_text(status: c_int) -> *const c_char;
    pub(crate) fn tvk_version() -> *const c_char;
    pub(crate) fn tvk_upkeep(on: c_int);
    pub(crate) fn tvk_open(store: *mut Handle) -> c_int;
    pub(crate) fn tvk_close(store: *mut Handle) -> c_int;
    pub(crate) fn tvk_begin(store: *mut Handle, tx: *mut u64) -> c_int;
    pub(crate) fn tvk_commit(store: *mut Handle, tx: u64, commit: *mut u64) -> c_int;
    pub(crate) fn tvk_abort(store: *mut Handle, tx: u64) -> c_int;
    pub(crate) fn tvk_mark(store: *mut Handle, tx: u64) -> c_int;
    pub(crate) fn tvk_back(store: *mut Handle, tx: u64) -> c_int;
    pub(crate) fn tvk_get(
        store: *mut Handle,
        tx: u64,
        key: *const u8,
        key_length: usize,
        value: *mut Value,
        holder: *mut u64,
    ) -> c_int;
    pub(crate) fn tvk_insert(
        store: *mut Handle,
        tx: u64,
        key: *const u8,
        key_length: usize,
        value: *const u8,
        value_length: usize,
        holder: *mut u64,
    ) -> c_int;
    pub(crate) fn tvk_replace(
        store: *mut Handle,
        tx: u64,
        key: *const u8,
        key_length: usize,
        value: *const u8,
        value_length: usize,
        holder: *mut u64,
    ) -> c_int;
    pub(crate) fn tvk_set(
        store: *mut Handle,
        tx: u64,
        key: *const u8,
        key_length: usize,
        value: *const u8,
        value_length: usize,
        holder: *mut u64,
    ) -> c_int;
    pub(crate) fn tvk_delete_range(
        store: *mut Handle,
        tx: u64,
        lo: *const u8,
        lo_length: usize,
        hi: *const u8,
        hi_length: usize,
        limit: u64,
        told: *mut u64,
    ) -> c_int;
    pub(crate) fn tvk_delete(store: *mut Handle, tx: u64, key: *const u8, key_length: usize, holder: *mut u64) -> c_int;
    pub(crate) fn tvk_load(
        store: *mut Handle,
        tx: u64,
        records: *const Record,
        number: usize,
        exists: *mut Key,
        holder: *mut u64,
    ) -> c_int;
    pub(crate) fn tvk_load_sorting(
        store: *mut Handle,
        tx: u64,
        records: *const Record,
        number: usize,
        key: *mut Key,
        loaded: *mut u64,
        holder: *mut u64,
    ) -> c_int;
    pub(crate) fn tvk_load_structs(
        store: *mut Handle,
        tx: u64,
        structs: *const c_void,
        number: usize,
        layout: *const Layout,
        key: *mut Key,
        loaded: *mut u64,
        holder: *mut u64,
    ) -> c_int;
    pub(crate) fn tvk_load_text(
        store: *mut Handle,
        tx: u64,
        text: *const u8,
        length: usize,
        key: *mut Key,
        line: *mut u64,
        loaded: *mut u64,
        holder: *mut u64,
    ) -> c_int;
    pub(crate) fn tvk_put_sorting(
        store: *mut Handle,
        tx: u64,
        records: *const Record,
        number: usize,
        key: *mut Key,
        done: *mut u64,
        holder: *mut u64,
    ) -> c_int;
    pub(crate) fn tvk_scan(
        store: *mut Handle,
        tx: u64,
        lo: *const u8,
        lo_length: usize,
        hi: *const u8,
        hi_length: usize,
        rows: *mut Record,
        limit: usize,
        told: *mut u64,
    ) -> c_int;
    pub(crate) fn tvk_scan_behind(
        store: *mut Handle,
        tx: u64,
        key: *const u8,
        key_length: usize,
        hi: *const u8,
        hi_length: usize,
        rows: *mut Record,
        limit: usize,
        told: *mut u64,
    ) -> c_int;
    pub(crate) fn tvk_scan_back(
        store: *mut Handle,
        tx: u64,
        lo: *const u8,
        lo_length: usize,
        hi: *const u8,
        hi_length: usize,
        rows: *mut Record,
        limit: usize,
        told: *mut u64,
    ) -> c_int;
    pub(crate) fn tvk_scan_before(
        store: *mut Handle,
        tx: u64,
        lo: *const u8,
        lo_length: usize,
        key: *const u8,
        key_length: usize,
        rows: *mut Record,
        limit: usize,
        told: *mut u64,
    ) -> c_int;
    pub(crate) fn tvk_lock(
        store: *mut Handle,
        tx: u64,
        mode: c_int,
        lo: *const u8,
        lo_length: usize,
        hi: *const u8,
        hi_length: usize,
        holder: *mut u64,
    ) -> c_int;
    pub(crate) fn tvk_merge(store: *mut Handle, limit: u64, told: *mut u64) -> c_int;
    pub(crate) fn tvk_tidy(store: *mut Handle, told: *mut u64) -> c_int;
    pub(crate) fn tvk_clean(
        store: *mut Handle,
        lo: *const u8,
        lo_length: usize,
        hi: *const u8,
        hi_length: usize,
        limit: u64,
        told: *mut u64,
    ) -> c_int;
    pub(crate) fn tvk_figures(store: *mut Handle, figures: *mut Figures) -> c_int;
}
