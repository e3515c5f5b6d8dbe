//! The number, for C: how long a list grows.
#![tactic(auto)]

use low::number;
use std::alloc::Global;

#[unsafe(no_mangle)]
pub extern "C" fn number_of_c(alloc: Global) -> u64 {
    let mut numbers = Vec::new(alloc);
    for at in 0..number() {
        if numbers.push(at).is_err() {
            return 0;
        }
    }
    numbers.len() as u64
}
