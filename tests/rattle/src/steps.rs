//! Worked sessions over one store, step by step.

use crate::rows;
use crate::scene::{Exchange, Life, Scene, Speaker, Standing, Turn};
use Life::{Ghost, Live};
use Speaker::{S1, S2, S3};
use am_record::NoMemory;
use std::alloc::Global;
use std::process::Abort;

// Whether one session is answered so.
fn says<R: Abort>(rt: &R, alloc: Global, row: &[Exchange]) -> Result<(), NoMemory> {
    Scene::open(alloc)?.plays(rt, row)
}

// Whether one session is answered so, and leaves these entries.
fn leaves<R: Abort>(
    rt: &R,
    alloc: Global,
    row: &[Exchange],
    entries: &[Standing],
) -> Result<(), NoMemory> {
    let mut scene = Scene::open(alloc)?;
    scene.plays(rt, row)?;
    scene.holds(rt, entries)
}

// Whether several sessions are answered so.
fn take_turns<R: Abort>(rt: &R, alloc: Global, row: &[Turn]) -> Result<(), NoMemory> {
    Scene::open(alloc)?.takes(rt, row)
}

#[test]
fn first_session(rt: HostRuntime) -> Result<(), NoMemory> {
    leaves(&rt, rt.alloc(), rows::FIRST_SESSION, &[(0, "5", "a", Live)])
}

#[test]
fn no_transaction_and_active(rt: HostRuntime) -> Result<(), NoMemory> {
    leaves(&rt, rt.alloc(), rows::NO_TRANSACTION_AND_ACTIVE, &[])
}

#[test]
fn abort_leaves_a_ghost(rt: HostRuntime) -> Result<(), NoMemory> {
    leaves(
        &rt,
        rt.alloc(),
        rows::ABORT_LEAVES_A_GHOST,
        &[(0, "5", "a", Ghost)],
    )
}

#[test]
fn load_beside_a_ghost_then_merge(rt: HostRuntime) -> Result<(), NoMemory> {
    leaves(
        &rt,
        rt.alloc(),
        rows::LOAD_BESIDE_A_GHOST_THEN_MERGE,
        &[(0, "5", "b", Live), (1, "7", "c", Live)],
    )
}

#[test]
fn run_loaded_after_a_merge(rt: HostRuntime) -> Result<(), NoMemory> {
    let entries = [
        (0, "3", "a", Live),
        (0, "4", "d", Live),
        (0, "5", "b", Live),
        (0, "7", "e", Live),
        (1, "9", "c", Live),
    ];
    leaves(&rt, rt.alloc(), rows::RUN_LOADED_AFTER_A_MERGE, &entries)
}

#[test]
fn least_and_greatest_key(rt: HostRuntime) -> Result<(), NoMemory> {
    says(&rt, rt.alloc(), rows::LEAST_AND_GREATEST_KEY)
}

#[test]
fn scanned_gap_blocks_insert(rt: HostRuntime) -> Result<(), NoMemory> {
    let row = [
        (S1, "BEGIN", "BEGUN 1"),
        (S2, "BEGIN", "BEGUN 2"),
        (S1, "SCAN 10 20 5", "ROWS 0"),
        (S2, "INS 15 x", "BUSY 1"),
        (S1, "COMMIT", "COMMITTED 1"),
        (S2, "INS 15 x", "OK"),
    ];
    take_turns(&rt, rt.alloc(), &row)
}

#[test]
fn shared_scans_block_delete(rt: HostRuntime) -> Result<(), NoMemory> {
    let row = [
        (S1, "BEGIN", "BEGUN 1"),
        (S1, "INS 4 d", "OK"),
        (S1, "COMMIT", "COMMITTED 1"),
        (S1, "BEGIN", "BEGUN 2"),
        (S2, "BEGIN", "BEGUN 3"),
        (S1, "SCAN 1 9 9", "ROWS 1 4=d"),
        (S2, "SCAN 1 9 9", "ROWS 1 4=d"),
        (S1, "DEL 4", "BUSY 3"),
        (S2, "COMMIT", "COMMITTED 2"),
        (S1, "DEL 4", "OK"),
    ];
    take_turns(&rt, rt.alloc(), &row)
}

#[test]
fn merge_ends_at_a_locked_key(rt: HostRuntime) -> Result<(), NoMemory> {
    let entries = [
        (0, "2", "a", Live),
        (1, "4", "b", Live),
        (1, "6", "c", Live),
    ];
    leaves(&rt, rt.alloc(), rows::MERGE_ENDS_AT_A_LOCKED_KEY, &entries)
}

#[test]
fn abort_restores_across_partitions(rt: HostRuntime) -> Result<(), NoMemory> {
    let entries = [
        (0, "5", "r", Ghost),
        (1, "1", "p", Live),
        (2, "5", "q", Live),
    ];
    leaves(
        &rt,
        rt.alloc(),
        rows::ABORT_RESTORES_ACROSS_PARTITIONS,
        &entries,
    )
}

#[test]
fn write_skew_is_refused(rt: HostRuntime) -> Result<(), NoMemory> {
    let row = [
        (S1, "BEGIN", "BEGUN 1"),
        (S2, "BEGIN", "BEGUN 2"),
        (S1, "GET 1", "NONE"),
        (S2, "GET 2", "NONE"),
        (S1, "INS 2 a", "BUSY 2"),
        (S2, "INS 1 b", "BUSY 1"),
        (S1, "ABORT", "ABORTED"),
        (S2, "INS 1 b", "OK"),
        (S2, "COMMIT", "COMMITTED 1"),
    ];
    take_turns(&rt, rt.alloc(), &row)
}

#[test]
fn merge_limits(rt: HostRuntime) -> Result<(), NoMemory> {
    says(&rt, rt.alloc(), rows::MERGE_LIMITS)
}

#[test]
fn load_order_and_existing_key(rt: HostRuntime) -> Result<(), NoMemory> {
    says(&rt, rt.alloc(), rows::LOAD_ORDER_AND_EXISTING_KEY)
}

#[test]
fn long_line(rt: HostRuntime) -> Result<(), NoMemory> {
    let mut scene = Scene::open(rt.alloc())?;
    scene.hears(&rt, S1, &[b'A'; 4097], b"ERR LONG")?;
    scene.hears(&rt, S1, b"MERGE 1", b"IDLE")
}

#[test]
fn clean_takes_ghosts(rt: HostRuntime) -> Result<(), NoMemory> {
    leaves(&rt, rt.alloc(), rows::CLEAN_TAKES_GHOSTS, &[])
}

#[test]
fn line_faults(rt: HostRuntime) -> Result<(), NoMemory> {
    says(&rt, rt.alloc(), rows::LINE_FAULTS)
}

#[test]
fn locked_range_and_its_edge(rt: HostRuntime) -> Result<(), NoMemory> {
    let row = [
        (S1, "BEGIN", "BEGUN 1"),
        (S2, "BEGIN", "BEGUN 2"),
        (S1, "LOCK X 10 20", "OK"),
        (S2, "GET 15", "BUSY 1"),
        (S2, "GET 21", "NONE"),
    ];
    take_turns(&rt, rt.alloc(), &row)
}

#[test]
fn deleted_key_is_inserted_again(rt: HostRuntime) -> Result<(), NoMemory> {
    leaves(
        &rt,
        rt.alloc(),
        rows::DELETED_KEY_IS_INSERTED_AGAIN,
        &[(0, "5", "a", Ghost)],
    )
}

#[test]
fn abort_restores_the_committed_value(rt: HostRuntime) -> Result<(), NoMemory> {
    says(&rt, rt.alloc(), rows::ABORT_RESTORES_THE_COMMITTED_VALUE)
}

#[test]
fn aborted_run_is_not_scanned(rt: HostRuntime) -> Result<(), NoMemory> {
    let entries = [
        (0, "1", "c", Live),
        (1, "1", "a", Ghost),
        (1, "2", "b", Ghost),
        (2, "2", "d", Live),
    ];
    leaves(&rt, rt.alloc(), rows::ABORTED_RUN_IS_NOT_SCANNED, &entries)
}

#[test]
fn shared_ranges_hold_back_a_delete(rt: HostRuntime) -> Result<(), NoMemory> {
    let row = [
        (S1, "BEGIN", "BEGUN 1"),
        (S2, "BEGIN", "BEGUN 2"),
        (S3, "BEGIN", "BEGUN 3"),
        (S1, "LOCK S 1 5", "OK"),
        (S2, "LOCK S 3 9", "OK"),
        (S3, "DEL 4", "BUSY 1"),
        (S1, "COMMIT", "COMMITTED 1"),
        (S3, "DEL 4", "BUSY 2"),
        (S2, "ABORT", "ABORTED"),
        (S3, "DEL 4", "MISSING"),
        (S1, "GET 4", "ERR NOTX"),
    ];
    take_turns(&rt, rt.alloc(), &row)
}

#[test]
fn a_commit_is_read_where_an_abort_came_behind(rt: HostRuntime) -> Result<(), NoMemory> {
    let row = [
        (S1, "BEGIN", "BEGUN 1"),
        (S2, "BEGIN", "BEGUN 2"),
        (S1, "INS 5 a", "OK"),
        (S2, "GET 5", "BUSY 1"),
        (S1, "COMMIT", "COMMITTED 1"),
        (S2, "GET 5", "VAL a"),
        (S1, "MERGE 4", "DONE"),
        (S2, "ABORT", "ABORTED"),
        (S2, "GET 5", "ERR NOTX"),
        (S2, "MERGE 65", "ERR LIMIT"),
        (S2, "SEEN", "SEEN 0 1"),
        (S2, "HOLD 0", "ERR LIMIT"),
        (S2, "HOLD 60001", "ERR LIMIT"),
        (S2, "HOLD 60000", "OK"),
        (S2, "BEGIN", "BEGUN 3"),
        (S2, "HOLD 0", "ERR ACTIVE"),
        (S2, "WHO", "WHO 0"),
        (S2, "WHO all", "ERR SYNTAX"),
        (S2, "END 7", "ERR SESSION"),
    ];
    let mut scene = Scene::open(rt.alloc())?;
    scene.takes(&rt, &row)?;
    scene.holds(&rt, &[(0, "5", "a", Live)])
}

#[test]
fn keys_are_strings(rt: HostRuntime) -> Result<(), NoMemory> {
    says(&rt, rt.alloc(), rows::KEYS_ARE_STRINGS)
}

#[test]
fn savepoints_are_nested(rt: HostRuntime) -> Result<(), NoMemory> {
    leaves(
        &rt,
        rt.alloc(),
        rows::SAVEPOINTS_ARE_NESTED,
        &[(0, "a", "1", Live), (0, "b", "3", Ghost)],
    )
}

#[test]
fn records_are_set_and_ranges_deleted(rt: HostRuntime) -> Result<(), NoMemory> {
    leaves(
        &rt,
        rt.alloc(),
        rows::SET_AND_DELETED,
        &[
            (0, "a", "2", Live),
            (1, "b", "3", Ghost),
            (1, "c", "5", Ghost),
        ],
    )
}

#[test]
fn back_keeps_the_locks(rt: HostRuntime) -> Result<(), NoMemory> {
    let row = [
        (S1, "BEGIN", "BEGUN 1"),
        (S2, "BEGIN", "BEGUN 2"),
        (S1, "MARK", "OK"),
        (S1, "INS a 1", "OK"),
        (S1, "BACK", "OK"),
        (S2, "GET a", "BUSY 1"),
        (S1, "COMMIT", "COMMITTED 1"),
        (S2, "GET a", "NONE"),
    ];
    take_turns(&rt, rt.alloc(), &row)
}

#[test]
fn staged_records_are_one_run(rt: HostRuntime) -> Result<(), NoMemory> {
    leaves(
        &rt,
        rt.alloc(),
        rows::STAGED_RECORDS_ARE_ONE_RUN,
        &[
            (1, "a", "1", Live),
            (1, "b", "2", Live),
            (1, "c", "3", Live),
            (1, "d", "4", Live),
        ],
    )
}

#[test]
fn staged_records_wait(rt: HostRuntime) -> Result<(), NoMemory> {
    for row in rows::STAGED {
        says(&rt, rt.alloc(), row)?;
    }
    Ok(())
}

#[test]
fn a_busy_load_leaves_nothing_staged(rt: HostRuntime) -> Result<(), NoMemory> {
    let row = [
        (S1, "BEGIN", "BEGUN 1"),
        (S1, "STAGE a=1 c=3", "OK"),
        (S2, "BEGIN", "BEGUN 2"),
        (S2, "GET b", "NONE"),
        (S1, "LOAD d=4", "BUSY 2"),
        (S1, "LOAD e=5", "OK"),
        (S2, "COMMIT", "COMMITTED 1"),
        (S1, "COMMIT", "COMMITTED 2"),
    ];
    let mut scene = Scene::open(rt.alloc())?;
    scene.takes(&rt, &row)?;
    scene.holds(&rt, &[(1, "e", "5", Live)])
}
