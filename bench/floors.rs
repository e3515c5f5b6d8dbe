//! What the goals cost any program of these layouts: the same records in leaves of 32, filters of keys' numbers, and runs that each
//! have the first keys of their leaves in an array. It has no transactions, searches for no key that filters may have, and proves
//! nothing. Each figure is told beside the store's own, of the same run. Built and run by bench/floors.

// (some fields only take the room that they take in the store)
#![allow(dead_code)]

mod ways;

use std::cmp::Reverse;
use std::collections::{BTreeMap, BinaryHeap};
use std::hint::black_box;
use std::time::Instant;
use ways::{text, Numbers, Record, Store, Text};

const LEAF: usize = 32;
const BATCH: usize = 65_536;
const BATCHES: usize = 92;
const MILLION: usize = 1_000_000;
const RUNS: usize = 16;
const ROUNDS: usize = 5;
const SCANS: usize = 301;
const ROWS: usize = 100;
const LAST: Text = [0x7e; 16];
/// Numbers are looked for, and heads opened, so many at once.
const AHEAD: usize = 16;

// ---- the layouts

/// A place as a leaf has it: a partition, a key in room for 16 bytes, and its length.
#[derive(Clone, Copy)]
struct Place(u32, Text, u32);

/// A value in room for 16 bytes, and its length.
#[derive(Clone, Copy)]
struct Value(Text, u32);

struct Leaf {
    places: Box<[Place; LEAF]>,
    values: Box<[Value; LEAF]>,
    len: usize,
}

/// A row as a cursor reads it, with room for the longest key and value.
#[derive(Clone, Copy)]
struct Row {
    key: [u8; 32],
    key_len: u32,
    value: [u8; 64],
    value_len: u32,
}

/// Leaves in order, and the first key's front of each.
struct Run {
    fronts: Vec<u64>,
    leaves: Vec<Leaf>,
}

/// A word for each four numbers, in which each has five bits.
struct Filter {
    words: Vec<u64>,
}

/// So many runs at most: a filter of all their keys, and one of each.
struct Generation {
    all: Filter,
    room: usize,
    entered: usize,
    runs: Vec<Filter>,
}

/// Which keys may be there, by their numbers. Each generation has room for a multiple of what the one before took in.
struct Filters {
    generations: Vec<Generation>,
}

const NUMBERS_A_WORD: usize = 4;
const RUNS_A_GENERATION: usize = 64;
const FEWEST: usize = 1024;
const GROWTH: usize = 2;

fn front(key: &Text) -> u64 {
    u64::from_be_bytes(key[..8].try_into().unwrap())
}

fn number(key: &Text) -> u64 {
    let rest = u64::from_be_bytes(key[8..].try_into().unwrap());
    let mixed = u128::from(front(key) ^ 0x9e37_79b9_7f4a_7c15) * u128::from(rest ^ 0xd6e8_feb8_6659_fd93);
    ((mixed >> 64) as u64 ^ mixed as u64) | 1
}

fn marks(number: u64) -> u64 {
    (0..5).fold(0, |marks, at| marks | 1 << (number >> (6 * at) & 63))
}

impl Filter {
    fn new(numbers: usize) -> Filter {
        Filter { words: vec![0; numbers / NUMBERS_A_WORD + 1] }
    }

    fn place(&self, number: u64) -> usize {
        ((number >> 32) * self.words.len() as u64 >> 32) as usize
    }

    fn may_have(&self, number: u64, marks: u64) -> bool {
        self.words[self.place(number)] & marks == marks
    }

    fn enter(&mut self, numbers: &[u64]) {
        for number in numbers {
            let place = self.place(*number);
            self.words[place] |= marks(*number);
        }
    }
}

impl Filters {
    fn new() -> Filters {
        Filters { generations: Vec::new() }
    }

    fn reserve(&mut self, numbers: usize) {
        let newest = self.generations.last();
        if newest.is_some_and(|it| it.room >= numbers && it.runs.len() < RUNS_A_GENERATION) {
            return;
        }
        let room = numbers.max(FEWEST).max(newest.map_or(0, |it| GROWTH * it.entered));
        self.generations.push(Generation { all: Filter::new(room), room, entered: 0, runs: Vec::new() });
    }

    /// In how many runs some of the numbers may be. So many are asked for at once, of all generations.
    fn ask(&self, numbers: &[u64]) -> usize {
        let mut found = 0;
        for some in numbers.chunks(AHEAD) {
            let mut sought = [0; AHEAD];
            for (sought, number) in sought.iter_mut().zip(some) {
                *sought = marks(*number);
            }
            for generation in &self.generations {
                let mut maybe = 0_u32;
                for (at, number) in some.iter().enumerate() {
                    maybe |= u32::from(generation.all.may_have(*number, sought[at])) << at;
                }
                while maybe != 0 {
                    let at = maybe.trailing_zeros() as usize;
                    found += generation.runs.iter().filter(|run| run.may_have(some[at], sought[at])).count();
                    maybe &= maybe - 1;
                }
            }
        }
        found
    }

    /// Enters numbers as those of one run, for which there is room.
    fn enter(&mut self, numbers: &[u64]) {
        let newest = self.generations.last_mut().unwrap();
        newest.all.enter(numbers);
        newest.room -= numbers.len();
        newest.entered += numbers.len();
        let mut run = Filter::new(numbers.len());
        run.enter(numbers);
        newest.runs.push(run);
    }
}

// ---- a load

/// The order of a batch: fronts and places, sorted by fronts and, where these are alike, by keys.
fn order(batch: &[Record]) -> Vec<(u64, u32)> {
    let mut order: Vec<(u64, u32)> = batch.iter().zip(0..).map(|(record, at)| (front(&record.0), at)).collect();
    let key = |at: u32| &batch[at as usize].0;
    order.sort_unstable_by(|one, other| one.0.cmp(&other.0).then_with(|| key(one.1).cmp(key(other.1))));
    order
}

fn run_of(part: u32, batch: &[Record], filters: &mut Filters, is_sorted: bool) -> Run {
    let order = if is_sorted { (0..batch.len() as u32).map(|at| (0, at)).collect() } else { order(batch) };
    let mut run = Run { fronts: Vec::new(), leaves: Vec::new() };
    let numbers: Vec<u64> = batch.iter().map(|record| number(&record.0)).collect();
    filters.reserve(numbers.len());
    black_box(filters.ask(&numbers));
    let mut least = [0; 16];
    for some in order.chunks(LEAF) {
        let mut leaf = Leaf { places: Box::new([Place(0, [0; 16], 0); LEAF]), values: Box::new([Value([0; 16], 0); LEAF]), len: some.len() };
        for (to, (_, at)) in some.iter().enumerate() {
            let (key, value) = batch[*at as usize];
            assert!(least < key);
            least = key;
            leaf.places[to] = Place(part, key, 16);
            leaf.values[to] = Value(value, 16);
        }
        run.fronts.push(front(&leaf.places[0].1));
        run.leaves.push(leaf);
    }
    filters.enter(&numbers);
    run
}

// ---- a scan

/// In which leaf of each run a key is to be looked for: runs of one length, side by side, so that the memory of all comes at once.
/// No step depends on what a comparison says.
fn leaves_for(runs: &[Run], sought: u64) -> [usize; AHEAD] {
    let mut leaves = [0; AHEAD];
    let mut len = runs[0].fronts.len();
    while len > 1 {
        let half = len / 2;
        for (leaf, run) in leaves.iter_mut().zip(runs) {
            *leaf += half * usize::from(run.fronts[*leaf + half] <= sought);
        }
        len -= half;
    }
    leaves
}

impl Leaf {
    /// How many places stand in eights whose last is below the front.
    fn passed(&self, sought: u64) -> usize {
        let mut passed = 0;
        for end in (8..=self.len).step_by(8) {
            passed = if front(&self.places[end - 1].1) < sought { end } else { passed };
        }
        passed
    }

    /// Those, and how many of the next eight are below it.
    fn below(&self, passed: usize, sought: u64) -> usize {
        let next = &self.places[passed..self.len.min(passed + 8)];
        passed + next.iter().map(|place| usize::from(front(&place.1) < sought)).sum::<usize>()
    }
}

/// Where a key stands or would stand in each of some runs.
fn places_for(runs: &[Run], sought: u64) -> [usize; AHEAD] {
    let leaves = leaves_for(runs, sought);
    let mut passed = [0; AHEAD];
    for ((passed, leaf), run) in passed.iter_mut().zip(&leaves).zip(runs) {
        *passed = run.leaves[*leaf].passed(sought);
    }
    for ((passed, leaf), run) in passed.iter_mut().zip(&leaves).zip(runs) {
        *passed = leaf * LEAF + run.leaves[*leaf].below(*passed, sought);
    }
    passed
}

impl Run {
    fn row(&self, place: usize) -> Option<Row> {
        let leaf = self.leaves.get(place / LEAF)?;
        let at = place % LEAF;
        if at >= leaf.len {
            return None;
        }
        let (found, value) = (leaf.places[at], leaf.values[at]);
        let mut row = Row { key: [0; 32], key_len: found.2, value: [0; 64], value_len: value.1 };
        row.key[..16].copy_from_slice(&found.1);
        row.value[..16].copy_from_slice(&value.0);
        Some(row)
    }
}

/// The first rows from a key on: heads are opened side by side, three rows of each are read at once, and a heap merges them.
fn scan(runs: &[Run], lo: &Text, rows: &mut Vec<Row>) {
    let share = ROWS * 5 / 4 / runs.len() + 2;
    rows.clear();
    let mut heads: Vec<(Vec<Row>, usize, usize)> = Vec::with_capacity(runs.len());
    let sought = front(lo);
    for some in runs.chunks(AHEAD) {
        let places = places_for(some, sought);
        for (place, run) in places.iter().zip(some) {
            let mut head = Vec::with_capacity(share);
            head.extend((*place..*place + share).filter_map(|at| run.row(at)));
            heads.push((head, 0, *place + share));
        }
    }
    let mut heap: BinaryHeap<_> = heads.iter().enumerate().filter_map(|(at, head)| Some(Reverse((head.0.first()?.key, at)))).collect();
    while let (true, Some(mut first)) = (rows.len() < ROWS, heap.peek_mut()) {
        let at = first.0 .1;
        let (head, passed, place) = &mut heads[at];
        rows.push(head[*passed]);
        *passed += 1;
        if *passed == head.len() {
            head.clear();
            head.extend((*place..*place + share).filter_map(|to| runs[at].row(to)));
            (*passed, *place) = (0, *place + share);
        }
        match head.get(*passed) {
            Some(row) => *first = Reverse((row.key, at)),
            None => {
                std::collections::binary_heap::PeekMut::pop(first);
            }
        }
    }
    black_box(&rows);
}

// ---- the figures

fn seconds<T>(call: impl FnOnce() -> T) -> (f64, T) {
    let begin = Instant::now();
    let made = call();
    (begin.elapsed().as_secs_f64(), made)
}

fn middle(mut all: Vec<f64>) -> f64 {
    all.sort_unstable_by(f64::total_cmp);
    all[all.len() / 2]
}

/// Says the store's time, in multiples of the floor's, and the floor in multiples of another way's, where there is one.
fn told(what: &str, unit: &str, store: &[f64], floor: &[f64], other: Option<&[f64]>) {
    let (store, floor) = (middle(store.to_vec()), middle(floor.to_vec()));
    print!("{what}: the store {store:.1} {unit}, the floor {floor:.1}, {:.2} of it", store / floor);
    match other.map(|other| middle(other.to_vec())) {
        Some(other) => println!("; sorted and built {other:.1}, of which the store {:.2} and the floor {:.2}", store / other, floor / other),
        None => println!(),
    }
}

fn loads(records: &[Record], is_sorted: bool, what: &str) {
    let (mut store, mut floor, mut built) = (Vec::new(), Vec::new(), Vec::new());
    for _ in 0..ROUNDS {
        let per_record = 1e9 / records.len() as f64;
        let mut ours = Store::open();
        store.push(per_record * seconds(|| ours.load(records.chunks(MILLION / RUNS))).0);
        drop(ours);
        let mut filters = Filters::new();
        let load = || (1..).zip(records.chunks(MILLION / RUNS)).map(|(part, batch)| run_of(part, batch, &mut filters, is_sorted)).collect::<Vec<_>>();
        floor.push(per_record * seconds(load).0);
        let build = || {
            let mut all = records.to_vec();
            all.sort_unstable();
            all.into_iter().collect::<BTreeMap<_, _>>()
        };
        built.push(per_record * seconds(build).0);
    }
    told(what, "ns a record", &store, &floor, Some(&built));
}

fn scans(store: &mut Store, runs: &[Run], keys: &[Text], numbers: &mut Numbers) {
    let (mut ours, mut floor) = (Vec::new(), Vec::new());
    let mut rows = Vec::with_capacity(ROWS);
    for _ in 0..SCANS {
        let key = keys[numbers.below(keys.len())];
        ours.push(1e6 * seconds(|| black_box(store.scan(&key, &LAST, ROWS))).0);
        let key = keys[numbers.below(keys.len())];
        floor.push(1e6 * seconds(|| scan(runs, &key, &mut rows)).0);
    }
    told(&format!("a scan of 100 over {} runs", runs.len()), "us", &ours, &floor, None);
}

fn main() {
    let mut numbers = Numbers(88_172_645_463_325_252);
    let mut records: Vec<Record> = (0..MILLION as u64).map(|n| (text(numbers.next()), text(n))).collect();
    loads(&records, false, "a million in any order, in sixteen runs");
    records.sort_unstable();
    loads(&records, true, "a million that rise");
    drop(records);
    let (mut store, mut filters, mut runs, mut keys) = (Store::open(), Filters::new(), Vec::new(), Vec::new());
    let (mut ours, mut floor) = (Vec::new(), Vec::new());
    for part in 1..=BATCHES {
        let batch: Vec<Record> = (0..BATCH).map(|n| (text(numbers.next()), text((part * BATCH + n) as u64))).collect();
        keys.extend(batch.iter().map(|record| record.0));
        ours.push(1e3 * seconds(|| store.load([&batch[..]].into_iter())).0);
        let (time, run) = seconds(|| run_of(part as u32, &batch, &mut filters, false));
        floor.push(1e3 * time);
        runs.push(run);
        if part == RUNS {
            scans(&mut store, &runs, &keys, &mut numbers);
        }
    }
    scans(&mut store, &runs, &keys, &mut numbers);
    told("a batch onto 5,000,000 and more", "ms", &ours[BATCHES - 16..], &floor[BATCHES - 16..], None);
    for (name, all) in [("the store", &ours), ("the floor", &floor)] {
        let worst = all.iter().copied().fold(0.0, f64::max);
        println!("{name}: the worst of {BATCHES} batches takes {:.1} times the middle one", worst / middle(all.clone()));
    }
}
