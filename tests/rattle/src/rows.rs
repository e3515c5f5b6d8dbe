//! Worked sessions: each line with its answer.

use crate::scene::Exchange;

/// A record of a transaction is found in it.
pub(crate) const FIRST_SESSION: &[Exchange] = &[
    ("BEGIN", "BEGUN 1"),
    ("INS 5 a", "OK"),
    ("GET 5", "VAL a"),
    ("COMMIT", "COMMITTED 1"),
];

pub(crate) const NO_TRANSACTION_AND_ACTIVE: &[Exchange] = &[
    ("GET 5", "ERR NOTX"),
    ("BEGIN", "BEGUN 1"),
    ("BEGIN", "ERR ACTIVE"),
];

pub(crate) const ABORT_LEAVES_A_GHOST: &[Exchange] = &[
    ("BEGIN", "BEGUN 1"),
    ("INS 5 a", "OK"),
    ("ABORT", "ABORTED"),
    ("BEGIN", "BEGUN 2"),
    ("GET 5", "NONE"),
];

pub(crate) const LOAD_BESIDE_A_GHOST_THEN_MERGE: &[Exchange] = &[
    ("BEGIN", "BEGUN 1"),
    ("INS 5 a", "OK"),
    ("ABORT", "ABORTED"),
    ("BEGIN", "BEGUN 2"),
    ("GET 5", "NONE"),
    ("LOAD 5=b 7=c", "OK"),
    ("COMMIT", "COMMITTED 1"),
    ("BEGIN", "BEGUN 3"),
    ("GET 5", "VAL b"),
    ("MERGE 16", "MOVED 1 1"),
    ("MERGE 16", "DONE"),
    ("MERGE 16", "DONE"),
    ("MERGE 16", "IDLE"),
];

pub(crate) const RUN_LOADED_AFTER_A_MERGE: &[Exchange] = &[
    ("BEGIN", "BEGUN 1"),
    ("LOAD 3=a 5=b 9=c", "OK"),
    ("COMMIT", "COMMITTED 1"),
    ("BEGIN", "BEGUN 2"),
    ("SCAN 2 6 9", "ROWS 2 3=a 5=b"),
    ("MERGE 16", "MOVED 2 1"),
    ("MERGE 16", "DONE"),
    ("LOAD 4=d 7=e", "OK"),
    ("COMMIT", "COMMITTED 2"),
    ("BEGIN", "BEGUN 3"),
    ("SCAN 3 5 9", "ROWS 3 3=a 4=d 5=b"),
    ("GET 7", "VAL e"),
    ("MERGE 16", "MOVED 1 2"),
    ("MERGE 16", "DONE"),
    ("MERGE 16", "MOVED 1 2"),
    ("MERGE 16", "DONE"),
    ("MERGE 16", "IDLE"),
];

pub(crate) const CLEAN_TAKES_GHOSTS: &[Exchange] = &[
    ("BEGIN", "BEGUN 1"),
    ("INS 5 a", "OK"),
    ("ABORT", "ABORTED"),
    ("BEGIN", "BEGUN 2"),
    ("GET 5", "NONE"),
    ("CLEAN 0 9 10", "CLEANED 1"),
    ("CLEAN 0 9 10", "CLEANED 0"),
];

pub(crate) const LEAST_AND_GREATEST_KEY: &[Exchange] = &[
    ("BEGIN", "BEGUN 1"),
    ("LOAD 0=a 18446744073709551615=z", "OK"),
    (
        "SCAN 0 18446744073709551615 10",
        "ROWS 2 0=a 18446744073709551615=z",
    ),
];

pub(crate) const MERGE_ENDS_AT_A_LOCKED_KEY: &[Exchange] = &[
    ("BEGIN", "BEGUN 1"),
    ("LOAD 2=a 4=b 6=c", "OK"),
    ("COMMIT", "COMMITTED 1"),
    ("BEGIN", "BEGUN 2"),
    ("SCAN 1 9 9", "ROWS 3 2=a 4=b 6=c"),
    ("DEL 4", "OK"),
    ("MERGE 16", "MOVED 1 1"),
    ("MERGE 16", "ENDED 4 2"),
    ("ABORT", "ABORTED"),
    ("BEGIN", "BEGUN 3"),
    ("GET 4", "VAL b"),
];

pub(crate) const ABORT_RESTORES_ACROSS_PARTITIONS: &[Exchange] = &[
    ("BEGIN", "BEGUN 1"),
    ("LOAD 1=p", "OK"),
    ("LOAD 5=q", "OK"),
    ("COMMIT", "COMMITTED 1"),
    ("BEGIN", "BEGUN 2"),
    ("DEL 5", "OK"),
    ("INS 5 r", "OK"),
    ("GET 5", "VAL r"),
    ("ABORT", "ABORTED"),
    ("BEGIN", "BEGUN 3"),
    ("GET 5", "VAL q"),
];

pub(crate) const MERGE_LIMITS: &[Exchange] = &[
    ("MERGE 0", "ERR LIMIT"),
    ("MERGE 65", "ERR LIMIT"),
    ("MERGE 1", "IDLE"),
];

pub(crate) const LOAD_ORDER_AND_EXISTING_KEY: &[Exchange] = &[
    ("BEGIN", "BEGUN 1"),
    ("LOAD 7=a 7=b", "ERR ORDER"),
    ("INS 5 c", "OK"),
    ("LOAD 3=a 5=b", "EXISTS 5"),
    ("GET 3", "NONE"),
];

pub(crate) const LINE_FAULTS: &[Exchange] = &[
    ("GET 05", "ERR NOTX"),
    ("GET 18446744073709551616", "ERR NOTX"),
    ("SCAN 9 3 1", "ERR RANGE"),
    ("get 5", "ERR SYNTAX"),
    ("GET 5 ", "ERR SYNTAX"),
];

pub(crate) const DELETED_KEY_IS_INSERTED_AGAIN: &[Exchange] = &[
    ("BEGIN", "BEGUN 1"),
    ("INS 5 a", "OK"),
    ("REP 5 b", "OK"),
    ("DEL 5", "OK"),
    ("REP 5 c", "MISSING"),
    ("INS 5 d", "OK"),
    ("REP 5 e", "OK"),
    ("GET 5", "VAL e"),
    ("ABORT", "ABORTED"),
    ("BEGIN", "BEGUN 2"),
    ("GET 5", "NONE"),
];

pub(crate) const ABORT_RESTORES_THE_COMMITTED_VALUE: &[Exchange] = &[
    ("BEGIN", "BEGUN 1"),
    ("INS 5 a", "OK"),
    ("COMMIT", "COMMITTED 1"),
    ("BEGIN", "BEGUN 2"),
    ("REP 5 b", "OK"),
    ("REP 5 c", "OK"),
    ("ABORT", "ABORTED"),
    ("BEGIN", "BEGUN 3"),
    ("GET 5", "VAL a"),
];

pub(crate) const ABORTED_RUN_IS_NOT_SCANNED: &[Exchange] = &[
    ("BEGIN", "BEGUN 1"),
    ("LOAD 1=a 2=b", "OK"),
    ("ABORT", "ABORTED"),
    ("BEGIN", "BEGUN 2"),
    ("INS 1 c", "OK"),
    ("LOAD 2=d", "OK"),
    ("SCAN 0 9 9", "ROWS 2 1=c 2=d"),
    ("SCAN 0 9 1", "ROWS 1 1=c"),
    ("SCAN 0 9 0", "ERR LIMIT"),
    ("SCAN 0 9 1001", "ERR LIMIT"),
];

pub(crate) const KEYS_ARE_STRINGS: &[Exchange] = &[
    ("BEGIN", "BEGUN 1"),
    ("LOAD a=1 ab=2 b=3", "OK"),
    ("SCAN a az 9", "ROWS 2 a=1 ab=2"),
    ("SCAN B a 9", "ROWS 1 a=1"),
    ("LOAD 10=x 9=y", "OK"),
    ("LOAD 9=y 10=x", "ERR ORDER"),
    ("GET aaaaaaaaaaaaaaaaaaaaaaaaaaaaaaaaa", "ERR RANGE"),
];

pub(crate) const SAVEPOINTS_ARE_NESTED: &[Exchange] = &[
    ("BEGIN", "BEGUN 1"),
    ("INS a 1", "OK"),
    ("MARK", "OK"),
    ("REP a 2", "OK"),
    ("INS b 3", "OK"),
    ("MARK", "OK"),
    ("DEL a", "OK"),
    ("BACK", "OK"),
    ("GET a", "VAL 2"),
    ("BACK", "OK"),
    ("GET a", "VAL 1"),
    ("GET b", "NONE"),
    ("BACK", "NOMARK"),
    ("COMMIT", "COMMITTED 1"),
];

pub(crate) const SET_AND_DELETED: &[Exchange] = &[
    ("BEGIN", "BEGUN 1"),
    ("SET a 1", "OK"),
    ("SET a 2", "OK"),
    ("LOAD b=3 c=4", "OK"),
    ("SET c 5", "OK"),
    ("RSCAN a z 2", "ROWS 2 c=5 b=3"),
    ("MARK", "OK"),
    ("DELR a z 2", "DELETED 2"),
    ("RSCAN a z 9", "ROWS 1 c=5"),
    ("BACK", "OK"),
    ("RSCAN a z 9", "ROWS 3 c=5 b=3 a=2"),
    ("DELR b z 9", "DELETED 2"),
    ("DELR b z 9", "DELETED 0"),
    ("DELR a z 0", "ERR LIMIT"),
    ("RSCAN a z 1001", "ERR LIMIT"),
    ("COMMIT", "COMMITTED 1"),
];

pub(crate) const STAGED_RECORDS_ARE_ONE_RUN: &[Exchange] = &[
    ("BEGIN", "BEGUN 1"),
    ("STAGE a=1 b=2", "OK"),
    ("STAGE c=3", "OK"),
    ("LOAD d=4", "OK"),
    ("SCAN a z 9", "ROWS 4 a=1 b=2 c=3 d=4"),
    ("COMMIT", "COMMITTED 1"),
];

/// Sessions that stage records, each on a store of its own.
pub(crate) const STAGED: &[&[Exchange]] = &[
    &[("STAGE a=1", "ERR NOTX")],
    &[
        ("BEGIN", "BEGUN 1"),
        ("STAGE b=1", "OK"),
        ("COMMIT", "ERR STAGED"),
        ("LOAD a=2", "ERR ORDER"),
        ("COMMIT", "COMMITTED 1"),
        ("BEGIN", "BEGUN 2"),
        ("SCAN a z 9", "ROWS 0"),
    ],
    &[
        ("BEGIN", "BEGUN 1"),
        ("STAGE a=1", "OK"),
        ("ABORT", "ABORTED"),
        ("BEGIN", "BEGUN 2"),
        ("LOAD b=2", "OK"),
        ("GET a", "NONE"),
    ],
    &[
        ("BEGIN", "BEGUN 1"),
        ("STAGE a=1", "OK"),
        ("LOAD", "ERR SYNTAX"),
        ("MARK", "OK"),
        ("BACK", "OK"),
        ("LOAD b=2", "OK"),
        ("GET a", "VAL 1"),
    ],
];

pub(crate) const BAD_LINES: &[Exchange] = &[
    ("LOAD 1", "ERR SYNTAX"),
    ("LOAD =a", "ERR SYNTAX"),
    ("LOAD 1=", "ERR SYNTAX"),
    ("BEGIN\t", "ERR SYNTAX"),
    (
        "INS 1 01234567890123456789012345678901234567890123456789012345678901234",
        "ERR RANGE",
    ),
];

/// The rows in which no line merges or cleans.
pub(crate) const NEVER_MERGED: &[&[Exchange]] = &[
    FIRST_SESSION,
    NO_TRANSACTION_AND_ACTIVE,
    ABORT_LEAVES_A_GHOST,
    LEAST_AND_GREATEST_KEY,
    ABORT_RESTORES_ACROSS_PARTITIONS,
    LOAD_ORDER_AND_EXISTING_KEY,
    LINE_FAULTS,
    DELETED_KEY_IS_INSERTED_AGAIN,
    ABORT_RESTORES_THE_COMMITTED_VALUE,
    ABORTED_RUN_IS_NOT_SCANNED,
    KEYS_ARE_STRINGS,
    SAVEPOINTS_ARE_NESTED,
    SET_AND_DELETED,
    BAD_LINES,
];

/// The rows in which lines merge or clean.
pub(crate) const MERGED: &[&[Exchange]] = &[
    LOAD_BESIDE_A_GHOST_THEN_MERGE,
    RUN_LOADED_AFTER_A_MERGE,
    CLEAN_TAKES_GHOSTS,
    MERGE_ENDS_AT_A_LOCKED_KEY,
    MERGE_LIMITS,
];
