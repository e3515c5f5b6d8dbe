//! Clients of a server, over sockets.

use am_record::HashKey;
use am_serve::{ServerTrace, bind};
use am_serve_connections::{Endpoint, Lifetime, Limits};
use am_serve_drain::{DrainSetup, ServerCounts, Watcher};
use am_trace_writer::LetGo;
use std::io::{Read, Write};
use std::net::{Ipv4Addr, Net, Shutdown, TcpListener, TcpStream};
use std::test::Fail;
use std::{io, thread};

// What the server says to the lines.
fn ask<R: AllocGlobal + Net<Listener = TcpListener, Stream = TcpStream>>(
    rt: &R,
    port: u16,
    lines: &str,
) -> io::Result<String> {
    let stream = TcpStream::connect(rt, (Ipv4Addr::LOCALHOST, port))?;
    (&stream).write_all(lines.as_bytes())?;
    stream.shutdown(Shutdown::Write)?;
    let mut said = String::new(rt.alloc());
    (&stream).read_to_string(&mut said)?;
    Ok(said)
}

// Two clients, one after the other.
fn ask_twice<R: AllocGlobal + Net<Listener = TcpListener, Stream = TcpStream>>(
    rt: &R,
    port: u16,
) -> io::Result<(String, String)> {
    let first = ask(rt, port, "BEGIN\nINS 5 a\nCOMMIT\nSEEN\nQUIT\n")?;
    let second = ask(rt, port, "BEGIN\nGET 5\nCOMMIT\nQUIT\n")?;
    Ok((first, second))
}

#[derive(Drop)]
struct Unwatched;

impl Watcher for Unwatched {
    ghost saw = { λ _ _ _ _. Unit {0} };

    fn look(&mut self, _counts: &ServerCounts, _is_last: bool) {}
}

// Sessions that nothing limits.
const UNLIMITED: Limits = Limits {
    idle: None,
    lapse: None,
    idle_seat: None,
    hold: 0,
    runs: 0,
};

fn nobody_looks() -> DrainSetup<LetGo, Unwatched> {
    DrainSetup {
        pieces: LetGo,
        watcher: Unwatched,
        grace: None,
    }
}

fn port_of(endpoint: &Endpoint) -> Option<u16> {
    match endpoint {
        Endpoint::Port { port, .. } => Some(*port),
        Endpoint::Socket { .. } => None,
    }
}

#[test]
fn two_clients_beside_a_worker(rt: HostRuntime) -> Result<(), Fail> {
    let bound = bind(&rt, 0).ok().ok_or("no port")?;
    let port = port_of(bound.endpoint()).ok_or("no port")?;
    let (served, said) = thread::join(
        &rt,
        || bound.serve(
            &rt,
            Lifetime::Bounded,
            2,
            1,
            HashKey::known(),
            UNLIMITED,
            nobody_looks(),
        ),
        || ask_twice(&rt, port),
    );
    let ServerTrace {
        events,
        commits,
        accepted_all,
        ..
    } = served.ok().ok_or("no memory")?;
    let (first, second) = said?;
    assert!(rt; first.as_str() == "BEGUN 1\nOK\nCOMMITTED 1\nSEEN 0 1\nBYE\n");
    assert!(rt; second.as_str() == "BEGUN 2\nVAL a\nCOMMITTED 2\nBYE\n");
    assert!(rt; commits == 2);
    assert!(rt; accepted_all);
    // Six steps, and at most a turn of the worker for each of nine lines.
    assert!(rt; 6 <= events && events <= 15);
    Ok(())
}

#[test]
fn a_port_in_use_is_refused(rt: HostRuntime) -> Result<(), Fail> {
    let bound = bind(&rt, 0).ok().ok_or("no port")?;
    let port = port_of(bound.endpoint()).ok_or("no port")?;
    assert!(rt; bind(&rt, port).is_err());
    Ok(())
}
