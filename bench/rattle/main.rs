//! The program `am_bench`: times the indexes and the store beside std's map, in one run. With no word it does nothing.
//! With the word `figures`, and the number of keys where it isn't to be 1,000,000, it prints a line for each figure.
#![tactic(auto)]

mod fault;
mod figure;
mod keys;
mod locks;
mod map;
mod merged;
mod runs;
mod store;
mod tree;
mod trees;
mod watch;

use fault::Fault;
use keys::Keys;
use std::env;
use std::env::Env;
use std::process::ExitCode;
use std::time::Clock;

/// How many keys there are, where no number is named.
const KEYS: u64 = 1_000_000;

// The words of the command line behind the program's name.
fn words<R: AllocGlobal + Env>(rt: &R) -> Option<Vec<String>> {
    env::args(rt).ok()?.collect(rt.alloc()).ok()
}

// The number of keys that the words name, if they ask for the figures.
fn count_of(words: &[String]) -> Option<u64> {
    if words.get(1)?.as_str() != "figures" {
        return None;
    }
    match words.get(2) {
        Some(word) => word.as_str().parse().ok(),
        None => Some(KEYS),
    }
}

fn print_figures<R: AllocGlobal + Print + Clock>(rt: &R, count: u64) -> Result<(), Fault> {
    let keys = Keys::draw(rt.alloc(), count)?;
    let filled = trees::print_figures(rt, &keys)?;
    runs::print_figures(rt, &keys, filled)?;
    merged::print_figures(rt, &keys)?;
    locks::print_figures(rt)
}

fn main(rt: HostRuntime) -> ExitCode {
    let Some(words) = words(&rt) else {
        return ExitCode::from(5);
    };
    if words.len() < 2 {
        return ExitCode::SUCCESS;
    }
    let Some(count) = count_of(&words) else {
        return ExitCode::from(2);
    };
    match print_figures(&rt, count) {
        Ok(()) => ExitCode::SUCCESS,
        Err(Fault::Differs) => ExitCode::from(1),
        Err(Fault::Outside) => ExitCode::from(4),
        Err(Fault::NoMemory) => ExitCode::from(5),
    }
}
