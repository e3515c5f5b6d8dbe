//! How many numbers a filter takes for entered ones, and that it has all that were entered.

use am_index_filter::Filter;
use am_record::NoMemory;
use std::alloc::Global;
use std::test::Fail;

const COUNT: u64 = 100_000;

/// A number that looks drawn, another one for each seed (Steele, Lea and Flood, SplitMix64, 2014).
fn drawn(seed: u64) -> u64 {
    let mut number = seed.wrapping_mul(0x9E37_79B9_7F4A_7C15);
    number = (number ^ (number >> 30)).wrapping_mul(0xBF58_476D_1CE4_E5B9);
    number = (number ^ (number >> 27)).wrapping_mul(0x94D0_49BB_1331_11EB);
    number ^ (number >> 31)
}

/// So many numbers, by the seeds from that one on.
fn numbers(alloc: Global, first: u64) -> Result<Vec<u64>, NoMemory> {
    let mut numbers = Vec::new(alloc);
    for seed in first..first + COUNT {
        numbers.push(drawn(seed))?;
    }
    Ok(numbers)
}

/// How many of the numbers the filter may have.
fn count_in(filter: &Filter, numbers: &[u64]) -> usize {
    numbers
        .iter()
        .filter(|number| filter.may_have(**number))
        .count()
}

// 43 others in 10,000 are taken for entered ones where as many were entered as it is for.
#[test]
fn few_others_are_taken_for_entered_ones(rt: HostRuntime) -> Result<(), Fail> {
    let entered = numbers(rt.alloc(), 1)?;
    let others = numbers(rt.alloc(), 1 << 40)?;
    let mut filter = Filter::new(rt.alloc(), COUNT as usize)?;
    assert!(rt; count_in(&filter, &entered) == 0);
    for part in entered.chunks(10_000) {
        filter.enter_all(part);
    }
    assert!(rt; count_in(&filter, &entered) == entered.len());
    let taken = count_in(&filter, &others);
    assert!(rt; 300 < taken && taken < 500, "{taken} of 100,000");
    Ok(())
}

// A filter for none has a word, so a number that was entered is found in it.
#[test]
fn a_filter_for_none_has_a_word(rt: HostRuntime) -> Result<(), Fail> {
    let mut filter = Filter::new(rt.alloc(), 0)?;
    assert!(rt; !filter.may_have(drawn(1)));
    filter.enter_all(&[drawn(1)]);
    assert!(rt; filter.may_have(drawn(1)));
    assert!(rt; !filter.may_have(drawn(2)));
    Ok(())
}

// More numbers than a table of words is for are refused before memory is asked.
#[test]
fn a_filter_for_too_many_is_refused(rt: HostRuntime) {
    assert!(rt; Filter::new(rt.alloc(), usize::MAX).is_err());
    assert!(rt; Filter::new(rt.alloc(), 1 << 34).is_err());
}
