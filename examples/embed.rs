//! A store inside a Rust program, which loads structs of its own, reads between two loads, and merges while it is idle.
//!
//!     PKG_CONFIG_PATH=PREFIX/lib/pkgconfig cargo run --manifest-path rust/Cargo.toml --example embed

use tiuvrokk::{Error, Layout, LoadError, Store, Transaction};

const SENSORS: u32 = 100;
const BATCHES: u32 = 100;
const BATCH: u32 = 1000;
const SENSOR: u32 = 7;

/// Readings come in the order of time, and are asked for by sensor: their keys are both numbers.
#[repr(C)]
struct Reading {
    key: [u8; 8],
    degrees: f64,
}

/// Keys are ordered byte by byte, so each number begins at its highest byte.
fn key_of(sensor: u32, second: u32) -> [u8; 8] {
    (u64::from(sensor) << 32 | u64::from(second)).to_be_bytes()
}

fn batch_of(number: u32) -> Vec<Reading> {
    let reading = |i| Reading { key: key_of(i % SENSORS, (number * BATCH + i) / SENSORS), degrees: f64::from(20 + number % 7) };
    (0..BATCH).map(reading).collect()
}

/// How many readings a sensor has.
fn count(tx: &Transaction, sensor: u32) -> Result<usize, Error> {
    let mut found = 0;
    for record in tx.scan(key_of(sensor, 0), key_of(sensor, u32::MAX)) {
        record?;
        found += 1;
    }
    Ok(found)
}

/// Loads a batch as one run, as it stands, which can be read at once. It is merged with the others where it is read.
fn load(tx: &mut Transaction, batch: &[Reading]) -> Result<u64, LoadError> {
    // SAFETY: a reading has no padding.
    unsafe { tx.load_structs(batch, Layout::new(0, 8, 8, 8)) }
}

fn main() -> Result<(), Error> {
    let store = Store::open()?;
    let (mut loaded, mut waits, mut found) = (0, 0, 0);
    for number in 0..BATCHES {
        let batch = batch_of(number);
        let (reader, mut writer) = (store.transaction()?, store.transaction()?);
        found = count(&reader, SENSOR)?;
        // The reader has locked what it read: the load is refused at once, and is tried again once the reader has ended.
        let is_kept_by = reader.number();
        let first = load(&mut writer, &batch);
        reader.commit()?;
        loaded += match first {
            Err(LoadError { error: Error::Busy(holder), .. }) if holder == is_kept_by => {
                waits += 1;
                load(&mut writer, &batch)?
            }
            done => done?,
        };
        writer.commit()?;
        // Nothing else is to do until the next batch comes, so some of what isn't merged is.
        store.tidy()?;
    }
    let merged = store.figures().in_final;
    println!("loaded {loaded}, waited {waits} times, read {found}, merged {merged}");
    Ok(())
}
