//! Runs and their loads.

use crate::entries::{byte, dead, live};
use am_index::{Hint, Listed};
use am_index_list::ListIndex;
use am_index_parts::Parts;
use am_record::{Entry, HashKey, Key, LAST_RUN, MAX_RUNS, NoMemory, Refusal, Reply, Value};
use am_store_loads::load;
use am_store_runs::{LoadFault, Run, cut_runs};
use std::alloc::Global;
use std::process::Abort;

fn pair(number: u64, value: u8) -> (Key, Value) {
    (Key::of_u64(number), byte(value))
}

pub(crate) fn no_entries(alloc: Global) -> Parts<ListIndex> {
    Parts::new(alloc, ListIndex::new(alloc), HashKey::known())
}

// Adds the entry, unless it is one of a run that wasn't made, its place is taken or a live one's key is live elsewhere.
fn add(parts: &mut Parts<ListIndex>, entry: Entry) -> Result<(), NoMemory> {
    if entry.part > parts.runs() || parts.find(entry.part, entry.key).is_some() {
        return Ok(());
    }
    if !entry.is_ghost && parts.place_of(entry.key).is_some() {
        return Ok(());
    }
    parts.add(entry, Hint::none())
}

// The run of the pairs, which rise.
fn run_with(rt: &impl Abort, alloc: Global, pairs: &[(Key, Value)]) -> Run {
    let mut all = Vec::new(alloc);
    for pair in pairs {
        all.push(*pair).expect(rt, "memory");
    }
    Run::new(all).expect(rt, "they rise")
}

// The records are cut into so many runs.
fn makes(rt: &impl Abort, alloc: Global, records: &[(Key, Value)], len: usize, runs: usize) {
    let cut = cut_runs(alloc, records, len).expect(rt, "memory");
    assert!(rt; cut.len() == runs);
}

fn is_refused(
    rt: &impl Abort,
    alloc: Global,
    records: &[(Key, Value)],
    len: usize,
    fault: LoadFault,
) {
    assert!(rt; cut_runs(alloc, records, len).err() == Some(fault));
}

fn has_pairs(rt: &impl Abort, run: &Run, pairs: &[(Key, Value)]) {
    assert!(rt; run.records() == pairs);
}

fn has_pieces_of_two(rt: &impl Abort, alloc: Global, records: &[(Key, Value)]) {
    let runs = cut_runs(alloc, records, 2).expect(rt, "memory");
    assert!(rt; runs.len() == 3);
    has_pairs(rt, &runs[0], &[pair(3, b'b'), pair(5, b'a')]);
    has_pairs(rt, &runs[1], &[pair(1, b'd'), pair(9, b'c')]);
    has_pairs(rt, &runs[2], &[pair(7, b'e')]);
}

#[test]
fn cut_runs_in_pieces(rt: HostRuntime) {
    let alloc = rt.alloc();
    let records = [
        pair(5, b'a'),
        pair(3, b'b'),
        pair(9, b'c'),
        pair(1, b'd'),
        pair(7, b'e'),
    ];
    has_pieces_of_two(&rt, alloc, &records);
    makes(&rt, alloc, &[], 2, 0);
    makes(&rt, alloc, &records, 65_536, 1);
    makes(&rt, alloc, &records, 1, 5);

    let twice = [pair(5, b'a'), pair(3, b'b'), pair(9, b'c'), pair(3, b'd')];
    let fault = LoadFault::Twice(Key::of_u64(3));
    is_refused(&rt, alloc, &twice, 2, fault);
    is_refused(&rt, alloc, &twice, 0, LoadFault::BadSize);
    is_refused(&rt, alloc, &twice, 65_537, LoadFault::BadSize);
}

// A record of that name.
fn named(rt: &impl Abort, name: &str) -> (Key, Value) {
    let key = Key::new(name.as_bytes()).expect(rt, "a short name");
    (key, byte(b'n'))
}

fn twice_named(rt: &impl Abort, name: &str) -> LoadFault {
    LoadFault::Twice(named(rt, name).0)
}

fn sorts(rt: &impl Abort, alloc: Global, records: &[(Key, Value)], sorted: &[(Key, Value)]) {
    let run = Run::sorted(alloc, records).expect(rt, "memory");
    has_pairs(rt, &run, sorted);
}

fn is_no_run(rt: &impl Abort, alloc: Global, records: &[(Key, Value)], fault: LoadFault) {
    assert!(rt; Run::sorted(alloc, records).err() == Some(fault));
}

#[test]
fn records_in_any_order_make_a_run(rt: HostRuntime) {
    let alloc = rt.alloc();
    let shuffled = [pair(5, b'a'), pair(3, b'b'), pair(9, b'c'), pair(1, b'd')];
    let rising = [pair(1, b'd'), pair(3, b'b'), pair(5, b'a'), pair(9, b'c')];
    sorts(&rt, alloc, &shuffled, &rising);

    let twice = [pair(5, b'a'), pair(3, b'b'), pair(5, b'c'), pair(3, b'd')];
    is_no_run(&rt, alloc, &twice, LoadFault::Twice(Key::of_u64(3)));
    is_no_run(&rt, alloc, &[], LoadFault::NotRising);
}

#[test]
fn keys_with_one_beginning_are_sorted(rt: HostRuntime) {
    let alloc = rt.alloc();
    let shuffled = [
        named(&rt, "accounts/7"),
        named(&rt, "accounts"),
        named(&rt, "accounts/12"),
    ];
    let rising = [
        named(&rt, "accounts"),
        named(&rt, "accounts/12"),
        named(&rt, "accounts/7"),
    ];
    sorts(&rt, alloc, &shuffled, &rising);
    makes(&rt, alloc, &shuffled, 1, 3);
}

#[test]
fn the_least_key_that_stands_twice_is_told(rt: HostRuntime) {
    let alloc = rt.alloc();
    let twice = [
        named(&rt, "accounts/7"),
        named(&rt, "accounts/7"),
        named(&rt, "accounts/12"),
        named(&rt, "accounts"),
        named(&rt, "accounts/12"),
    ];
    is_no_run(&rt, alloc, &twice, twice_named(&rt, "accounts/12"));
    for len in [1, 2, 4] {
        let fault = twice_named(&rt, "accounts/12");
        is_refused(&rt, alloc, &twice, len, fault);
    }
}

#[test]
fn keys_of_several_beginnings_are_sorted(rt: HostRuntime) {
    let alloc = rt.alloc();
    let shuffled = [
        named(&rt, "payments/2"),
        named(&rt, "accounts/7"),
        named(&rt, "invoices"),
        named(&rt, "payments/1"),
        named(&rt, "customer/3"),
        named(&rt, "accounts/12"),
        named(&rt, "payments"),
    ];
    let rising = [
        named(&rt, "accounts/12"),
        named(&rt, "accounts/7"),
        named(&rt, "customer/3"),
        named(&rt, "invoices"),
        named(&rt, "payments"),
        named(&rt, "payments/1"),
        named(&rt, "payments/2"),
    ];
    sorts(&rt, alloc, &shuffled, &rising);
    for (len, runs) in [(1, 7), (2, 4), (4, 2), (7, 1)] {
        makes(&rt, alloc, &shuffled, len, runs);
    }
}

#[test]
fn a_key_that_stands_twice_is_found_behind_others_with_one_beginning(rt: HostRuntime) {
    let alloc = rt.alloc();
    let twice = [
        named(&rt, "payments/2"),
        named(&rt, "accounts/7"),
        named(&rt, "invoices"),
        named(&rt, "payments/1"),
        named(&rt, "accounts/12"),
        named(&rt, "payments/2"),
        named(&rt, "payments/1"),
    ];
    let fault = twice_named(&rt, "payments/1");
    is_no_run(&rt, alloc, &twice, fault);
    // With six to a piece the first one has the higher key twice, and the lower one stands in both.
    for len in [1, 2, 3, 6, 7] {
        is_refused(&rt, alloc, &twice, len, fault);
    }
}

#[test]
fn a_run_rises_and_has_a_record(rt: HostRuntime) {
    let alloc = rt.alloc();
    let equal_keys = vec![in alloc; pair(7, b'a'), pair(7, b'b')].expect(&rt, "memory");
    assert!(rt; Run::new(equal_keys).err() == Some(LoadFault::NotRising));
    assert!(rt; Run::new(Vec::new(alloc)).err() == Some(LoadFault::NotRising));
}

fn stands(rt: &impl Abort, parts: &Parts<ListIndex>, part: u32, number: u64, value: u8) {
    assert!(rt; parts.find(part, Key::of_u64(number)) == Some((byte(value), false)));
}

// The run of the pairs is loaded, and answered so.
fn loads(rt: &impl Abort, parts: &mut Parts<ListIndex>, run: &Run, reply: Reply) {
    let records = run.records();
    assert!(rt; load(parts, &Listed { records }) == reply);
}

#[test]
fn load_makes_one_run(rt: HostRuntime) {
    let alloc = rt.alloc();
    let mut parts = no_entries(alloc);
    let first = run_with(&rt, alloc, &[pair(3, b'a'), pair(5, b'b')]);
    let second = run_with(&rt, alloc, &[pair(4, b'c')]);
    loads(&rt, &mut parts, &first, Reply::Done);
    loads(&rt, &mut parts, &second, Reply::Done);
    assert!(rt; parts.runs() == 2);
    stands(&rt, &parts, 1, 3, b'a');
    stands(&rt, &parts, 1, 5, b'b');
    stands(&rt, &parts, 2, 4, b'c');
    assert!(rt; parts.next_any(0, Key::least()).map(|e| e.part) == Some(1));
    loads(&rt, &mut parts, &first, Reply::Exists(Key::of_u64(3)));
    assert!(rt; parts.runs() == 2);
}

// The run of the numbers from the first to the last one is loaded, and answered so.
pub(crate) fn loads_all(
    rt: &impl Abort,
    alloc: Global,
    parts: &mut Parts<ListIndex>,
    first: u64,
    last: u64,
    reply: Reply,
) {
    let mut pairs = Vec::new(alloc);
    for number in first..=last {
        pairs.push(pair(number, b'p')).expect(rt, "memory");
    }
    let run = Run::new(pairs).expect(rt, "they rise");
    let records = run.records();
    assert!(rt;
        load(parts, &Listed { records }) == reply,
        "from {first} to {last}"
    );
}

// Seven runs, of which the second and the seventh have entries, as partition 0 has.
fn of_seven_runs(rt: &impl Abort, alloc: Global) -> Parts<ListIndex> {
    let mut parts = no_entries(alloc);
    make_runs(&mut parts, 7);
    for entry in [
        live(0, 5, b'e'),
        dead(0, 12, b'e'),
        live(0, 31, b'e'),
        live(2, 30, b'e'),
        live(7, 12, b'e'),
        dead(7, 30, b'e'),
        live(7, 50, b'e'),
    ] {
        add(&mut parts, entry).expect(rt, "memory");
    }
    for number in 10..30 {
        add(&mut parts, dead(2, number, b'e')).expect(rt, "memory");
    }
    parts
}

#[test]
fn the_least_live_key_of_all_partitions(rt: HostRuntime) {
    let mut parts = of_seven_runs(&rt, rt.alloc());
    for (first, last, least) in [
        (0, 90, 5),
        (6, 90, 12),
        (13, 90, 30),
        (13, 30, 30),
        (31, 90, 31),
        (32, 90, 50),
    ] {
        let exists = Reply::Exists(Key::of_u64(least));
        loads_all(&rt, rt.alloc(), &mut parts, first, last, exists);
    }
    for (first, last) in [(13, 29), (32, 49), (51, 90)] {
        loads_all(&rt, rt.alloc(), &mut parts, first, last, Reply::Done);
    }
}

#[test]
fn a_load_refused_memory_leaves_the_entries(rt: HostRuntime) {
    let alloc = rt.alloc();
    let mut parts = no_entries(alloc);
    add(&mut parts, live(0, 5, b'z')).expect(&rt, "memory");
    let mut pairs = Vec::new(alloc);
    for number in 10..22 {
        pairs.push(pair(number, b'a')).expect(&rt, "memory");
    }
    let run = Run::new(pairs).expect(&rt, "they rise");
    let run = Listed {
        records: run.records(),
    };
    let mut reply = load(&mut parts, &run);
    if reply == Reply::Refused(Refusal::NoMemory) {
        assert!(rt; parts.runs() == 0);
        assert!(rt; parts.find(0, Key::of_u64(5)) == Some((byte(b'z'), false)));
        assert!(rt; parts.after(0, Key::of_u64(5)).is_none());
        assert!(rt; parts.next_any(1, Key::least()).is_none());
        reply = load(&mut parts, &run);
    }
    assert!(rt; reply == Reply::Done);
    assert!(rt; parts.runs() == 1);
    for pair in run.records {
        assert!(rt; parts.find(1, pair.0) == Some((pair.1, false)));
    }
}

// A run is told from the one 65,536 runs before it.
#[test]
fn a_late_run_is_another(rt: HostRuntime) {
    let mut parts = no_entries(rt.alloc());
    let first = run_with(&rt, rt.alloc(), &[pair(1, b'a')]);
    let later = run_with(&rt, rt.alloc(), &[pair(2, b'b')]);
    assert!(rt; load(&mut parts, &first) == Reply::Done);
    make_runs(&mut parts, MAX_RUNS + 1);
    assert!(rt; load(&mut parts, &later) == Reply::Done);
    assert!(rt; parts.runs() == 65_537);
    assert!(rt; parts.open_runs() == 2);
    assert!(rt; parts.place_of(Key::of_u64(1)) == Some(1));
    assert!(rt; parts.place_of(Key::of_u64(2)) == Some(65_537));
    assert!(rt; parts.place_of(Key::of_u64(3)).is_none());
    assert!(rt; load(&mut parts, &first) == Reply::Exists(Key::of_u64(1)));
}

// Counts runs with no entries until there are so many, or no more may be made.
fn make_runs(parts: &mut Parts<ListIndex>, count: u32) {
    while parts.runs() < count.min(LAST_RUN) {
        parts.count_run();
    }
}
