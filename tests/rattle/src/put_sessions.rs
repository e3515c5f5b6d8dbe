//! Worked sessions with puts, step by step.

use crate::scene::{Exchange, Life, Scene, Speaker, Standing, Turn};
use Life::{Ghost, Live};
use Speaker::{S1, S2};
use am_record::NoMemory;
use std::alloc::Global;
use std::process::Abort;

// Whether one session is answered so, and leaves these entries.
fn leaves<R: Abort>(
    rt: &R,
    alloc: Global,
    row: &[Exchange],
    entries: &[Standing],
) -> Result<(), NoMemory> {
    let mut scene = Scene::open(alloc)?;
    scene.plays(rt, row)?;
    scene.holds(rt, entries)
}

// Live in a run and in the final partition, a ghost there, and new.
#[test]
fn a_put_finds_each_key_where_it_is(rt: HostRuntime) -> Result<(), NoMemory> {
    let row = [
        ("BEGIN", "BEGUN 1"),
        ("PUT a=1 c=1", "OK"),
        ("INS b 1", "OK"),
        ("INS d 1", "OK"),
        ("DEL d", "OK"),
        ("COMMIT", "COMMITTED 1"),
        ("BEGIN", "BEGUN 2"),
        ("PUT a=2 b=2 d=2 e=2", "OK"),
        ("SCAN a z 9", "ROWS 5 a=2 b=2 c=1 d=2 e=2"),
        ("PUT a=3 b=3 c=3 d=3 e=3", "OK"),
        ("LOAD f=1", "OK"),
        ("COMMIT", "COMMITTED 2"),
    ];
    let entries = [
        (0, "b", "3", Live),
        (0, "d", "1", Ghost),
        (1, "a", "3", Live),
        (1, "c", "3", Live),
        (2, "d", "3", Live),
        (2, "e", "3", Live),
        (3, "f", "1", Live),
    ];
    leaves(&rt, rt.alloc(), &row, &entries)
}

#[test]
fn back_and_abort_undo_puts(rt: HostRuntime) -> Result<(), NoMemory> {
    let row = [
        ("BEGIN", "BEGUN 1"),
        ("INS a 1", "OK"),
        ("LOAD b=1", "OK"),
        ("COMMIT", "COMMITTED 1"),
        ("BEGIN", "BEGUN 2"),
        ("PUT a=2", "OK"),
        ("MARK", "OK"),
        ("PUT a=3 b=3 c=3", "OK"),
        ("SCAN a z 9", "ROWS 3 a=3 b=3 c=3"),
        ("BACK", "OK"),
        ("SCAN a z 9", "ROWS 2 a=2 b=1"),
        ("PUT c=4", "OK"),
        ("ABORT", "ABORTED"),
        ("BEGIN", "BEGUN 3"),
        ("SCAN a z 9", "ROWS 2 a=1 b=1"),
        ("COMMIT", "COMMITTED 2"),
    ];
    let entries = [
        (0, "a", "1", Live),
        (1, "b", "1", Live),
        (2, "c", "3", Ghost),
        (3, "c", "4", Ghost),
    ];
    leaves(&rt, rt.alloc(), &row, &entries)
}

#[test]
fn a_put_stands_where_a_merge_left_the_record(rt: HostRuntime) -> Result<(), NoMemory> {
    let row = [
        ("BEGIN", "BEGUN 1"),
        ("LOAD a=1 b=1 c=1", "OK"),
        ("COMMIT", "COMMITTED 1"),
        ("BEGIN", "BEGUN 2"),
        ("SCAN a b 9", "ROWS 2 a=1 b=1"),
        ("MERGE 16", "MOVED 2 1"),
        ("PUT a=2 b=2 c=2", "OK"),
        ("COMMIT", "COMMITTED 2"),
    ];
    let entries = [
        (0, "a", "2", Live),
        (0, "b", "2", Live),
        (1, "c", "2", Live),
    ];
    leaves(&rt, rt.alloc(), &row, &entries)
}

#[test]
fn staged_records_go_with_a_put(rt: HostRuntime) -> Result<(), NoMemory> {
    let row = [
        ("PUT a=1", "ERR NOTX"),
        ("BEGIN", "BEGUN 1"),
        ("PUT", "ERR SYNTAX"),
        ("PUT b=1 a=1", "ERR ORDER"),
        ("PUT a=1 a=2", "ERR ORDER"),
        ("STAGE a=1 b=1", "OK"),
        ("COMMIT", "ERR STAGED"),
        ("PUT c=1", "OK"),
        ("STAGE a=2", "OK"),
        ("PUT b=2 d=2", "OK"),
        ("SCAN a z 9", "ROWS 4 a=2 b=2 c=1 d=2"),
        ("STAGE z=1", "OK"),
        ("PUT a=3", "ERR ORDER"),
        ("COMMIT", "COMMITTED 1"),
    ];
    let entries = [
        (1, "a", "2", Live),
        (1, "b", "2", Live),
        (1, "c", "1", Live),
        (2, "d", "2", Live),
    ];
    leaves(&rt, rt.alloc(), &row, &entries)
}

#[test]
fn a_put_waits_for_what_others_hold(rt: HostRuntime) -> Result<(), NoMemory> {
    let turns: [Turn; 10] = [
        (S1, "BEGIN", "BEGUN 1"),
        (S2, "BEGIN", "BEGUN 2"),
        (S1, "PUT a=1 c=1", "OK"),
        (S2, "GET b", "BUSY 1"),
        (S2, "STAGE c=2", "OK"),
        (S2, "PUT d=2", "BUSY 1"),
        (S2, "GET d", "NONE"),
        (S1, "COMMIT", "COMMITTED 1"),
        (S2, "PUT c=2 d=2", "OK"),
        (S2, "COMMIT", "COMMITTED 2"),
    ];
    let mut scene = Scene::open(rt.alloc())?;
    scene.takes(&rt, &turns)?;
    let entries = [
        (1, "a", "1", Live),
        (1, "c", "2", Live),
        (2, "d", "2", Live),
    ];
    scene.holds(&rt, &entries)
}
