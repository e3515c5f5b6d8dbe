//! Command lines of the programs.

use am_program_options::{Listening, Options, Place, options};
use am_program_start::{Audited, audited};

/// Words after the program's name, and the options that they ask for, or the status with which they are refused.
type Asked<'a> = (&'a [&'a str], Result<Options<'a>, u8>);

const DEFAULTS: Listening<'static> = Listening {
    place: Place::Port(0),
    sessions: 1,
    workers: 1,
    hold: 60_000,
    trace: None,
    awaits_stop: false,
    stays: false,
    grace: None,
    idle: None,
    lapse: 0,
    idle_seat: 0,
    runs: 0,
    is_logged: false,
};

const MOST: Listening<'static> = Listening {
    place: Place::Port(65535),
    sessions: 256,
    workers: 16,
    hold: 0,
    trace: Some("t"),
    awaits_stop: true,
    stays: false,
    grace: None,
    idle: None,
    lapse: 0,
    idle_seat: 0,
    runs: 0,
    is_logged: false,
};

const AT_BOTH: Listening<'static> = Listening {
    place: Place::Both {
        port: 7070,
        socket: "s",
    },
    ..DEFAULTS
};

const AT_A_SOCKET: Listening<'static> = Listening {
    place: Place::Socket("s"),
    ..DEFAULTS
};

const STAYING: Listening<'static> = Listening {
    place: Place::Socket("s"),
    sessions: 64,
    stays: true,
    grace: Some(3600),
    idle: Some(43_200),
    lapse: 60,
    idle_seat: 60,
    runs: 64,
    is_logged: true,
    ..DEFAULTS
};

const NEVER_LAPSING: Listening<'static> = Listening {
    sessions: 64,
    stays: true,
    idle_seat: 43_200,
    runs: 64,
    ..DEFAULTS
};

const EVERY_RUN: Listening<'static> = Listening {
    sessions: 64,
    stays: true,
    lapse: 60,
    idle_seat: 60,
    runs: 65_535,
    ..DEFAULTS
};

const ASKED: [Asked<'static>; 41] = [
    (&["amserve", "alone"], Ok(Options::Alone { auto: 16 })),
    (
        &["amserve", "alone", "--auto", "0"],
        Ok(Options::Alone { auto: 0 }),
    ),
    (
        &["amserve", "alone", "--auto", "64"],
        Ok(Options::Alone { auto: 64 }),
    ),
    (&["amserve", "alone", "--auto", "65"], Err(2)),
    (&["amserve", "alone", "--port", "1"], Err(2)),
    (
        &["amserve", "listen", "--port", "0"],
        Ok(Options::Listen(DEFAULTS)),
    ),
    (
        &[
            "amserve",
            "listen",
            "--port",
            "65535",
            "--sessions",
            "256",
            "--workers",
            "16",
            "--hold",
            "0",
            "--trace",
            "t",
            "--stop",
        ],
        Ok(Options::Listen(MOST)),
    ),
    (
        &[
            "amserve", "listen", "--socket", "s", "--stay", "--grace", "3600", "--idle", "43200",
            "--log",
        ],
        Ok(Options::Listen(STAYING)),
    ),
    (
        &[
            "amserve", "listen", "--port", "0", "--stay", "--grace", "3601",
        ],
        Err(2),
    ),
    (
        &[
            "amserve", "listen", "--port", "0", "--stay", "--idle", "43201",
        ],
        Err(2),
    ),
    (&["amserve", "listen", "--port", "0", "--idle", "1"], Err(2)),
    (
        &[
            "amserve",
            "listen",
            "--port",
            "0",
            "--stay",
            "--idle-transaction",
            "0",
            "--idle-seat",
            "43200",
        ],
        Ok(Options::Listen(NEVER_LAPSING)),
    ),
    (
        &[
            "amserve",
            "listen",
            "--port",
            "0",
            "--stay",
            "--idle-seat",
            "43201",
        ],
        Err(2),
    ),
    (
        &[
            "amserve", "listen", "--port", "0", "--stay", "--runs", "65535",
        ],
        Ok(Options::Listen(EVERY_RUN)),
    ),
    (
        &[
            "amserve", "listen", "--port", "0", "--stay", "--runs", "65536",
        ],
        Err(2),
    ),
    (
        &["amserve", "listen", "--port", "0", "--runs", "0"],
        Ok(Options::Listen(DEFAULTS)),
    ),
    (&["amserve", "listen", "--port", "0", "--runs", "1"], Err(2)),
    (
        &["amserve", "listen", "--port", "0", "--idle-seat", "0"],
        Ok(Options::Listen(DEFAULTS)),
    ),
    (
        &["amserve", "listen", "--port", "0", "--idle-seat", "1"],
        Err(2),
    ),
    (
        &[
            "amserve",
            "listen",
            "--port",
            "0",
            "--stay",
            "--idle-transaction",
            "43201",
        ],
        Err(2),
    ),
    (
        &[
            "amserve",
            "listen",
            "--port",
            "0",
            "--idle-transaction",
            "0",
        ],
        Ok(Options::Listen(DEFAULTS)),
    ),
    (
        &[
            "amserve",
            "listen",
            "--port",
            "0",
            "--idle-transaction",
            "1",
        ],
        Err(2),
    ),
    (
        &["amserve", "listen", "--socket", "s"],
        Ok(Options::Listen(AT_A_SOCKET)),
    ),
    (
        &["amserve", "listen", "--port", "7070", "--socket", "s"],
        Ok(Options::Listen(AT_BOTH)),
    ),
    (
        &["amserve", "listen", "--socket", "s", "--port", "65536"],
        Err(2),
    ),
    (&["amserve", "listen", "--stay", "--sessions", "2"], Err(2)),
    (
        &["amserve", "listen", "--port", "0", "--stay", "--socket", ""],
        Err(2),
    ),
    (
        &["amserve", "listen", "--port", "0", "--grace", "1"],
        Err(2),
    ),
    (&["amserve", "listen", "--port", "0", "--log"], Err(2)),
    (&["amserve", "listen"], Err(2)),
    (&["amserve", "listen", "--port", "65536"], Err(2)),
    (
        &["amserve", "listen", "--port", "0", "--sessions", "0"],
        Err(2),
    ),
    (
        &["amserve", "listen", "--port", "0", "--sessions", "257"],
        Err(2),
    ),
    (
        &["amserve", "listen", "--port", "0", "--workers", "17"],
        Err(2),
    ),
    (
        &["amserve", "listen", "--port", "0", "--hold", "60001"],
        Err(2),
    ),
    (&["amserve", "listen", "--port", "0", "--auto", "3"], Err(2)),
    (&["amserve", "listen", "--port", "0", "--trace", ""], Err(2)),
    (&["amserve"], Err(2)),
    (&["amserve", "--version"], Err(0)),
    (&["amserve", "--help"], Err(0)),
    (&["amserve", "listen", "--help"], Err(0)),
];

#[test]
fn words_give_their_options(rt: HostRuntime) {
    for (words, asked) in ASKED {
        assert!(rt; options(rt.alloc(), words).map_err(|fault| fault.status()) == asked);
    }
}

/// Words, and the file that they name, whether its records are told and whether it is open, or the status with which they
/// are refused.
type Named<'a> = (&'a [&'a str], Result<(Option<&'a str>, bool, bool), u8>);

const NAMED: [Named<'static>; 11] = [
    (&["amaudit"], Ok((None, false, false))),
    (&["amaudit", "t"], Ok((Some("t"), false, false))),
    (&["amaudit", "-"], Ok((Some("-"), false, false))),
    (&["amaudit", "--records"], Ok((None, true, false))),
    (&["amaudit", "--records", "t"], Ok((Some("t"), true, false))),
    (&["amaudit", "--open", "t"], Ok((Some("t"), false, true))),
    (&["amaudit", "--open", "--records"], Ok((None, true, true))),
    (&["amaudit", "t", "u"], Err(2)),
    (&["amaudit", "--trace"], Err(2)),
    (&["amaudit", "--help"], Err(0)),
    (&["amaudit", "--version"], Err(0)),
];

#[test]
fn words_name_a_file(rt: HostRuntime) {
    for (words, named) in NAMED {
        let named = named.map(|(file, tells_records, is_open)| Audited {
            file,
            tells_records,
            is_open,
        });
        assert!(rt; audited(rt.alloc(), words).map_err(|fault| fault.status()) == named);
    }
}
