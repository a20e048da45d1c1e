//! Sequences of drawn calls and saved records. What was covered is counted,
//! printed and asserted.

use crate::calls::{Compare, Request};
use crate::coverage::{Coverage, PAST_32_BITS};
use crate::limits::starts_at;
use crate::saved::{restore, saved_form, Entry, READ, TOP_32};
use reference::generate::{saved_record, SplitMix64};
use reference::totals::{Totals, CEILING};

/// Zero; and each total, and then all three, at 2^32 and the ceiling and below
/// them.
pub fn starts() -> Vec<Totals> {
    let below = (0..=38).chain([45, 2_000]);
    let limits = [PAST_32_BITS, CEILING].into_iter();
    let numbers = limits.flat_map(|limit| below.clone().map(move |n| limit - n));
    let starts = numbers.flat_map(starts_at);
    [Totals::default()].into_iter().chain(starts).collect()
}

/// A sequence of 200 drawn calls from every start.
pub fn assert_from_every_start(compare: Compare, seed: u64) {
    let mut random = SplitMix64::new(seed);
    let mut coverage = Coverage::default();
    for start in starts() {
        let mut totals = start;
        let mut step = || {
            let request = Request::new(&mut random);
            let before = totals;
            let probes = compare(&request, &mut totals);
            coverage.count(&request, before, probes);
        };
        (0..200).for_each(|_| step());
    }
    coverage.assert_populated([1_500, 5, 700, 5, 550]);
}

/// A saved record: as drawn, or with numbers that the next calls take past 32
/// bits.
fn saved(random: &mut SplitMix64) -> Vec<u8> {
    match random.one_in(2) {
        true => saved_record(random),
        false => saved_form([0; 3].map(|_| TOP_32 - random.between(0, 20) as u32)),
    }
}

/// A sequence of 20,000 steps, one in fifty a saved record.
pub fn assert_with_saved_records(compare: Compare, entry: Entry, seed: u64) {
    let mut random = SplitMix64::new(seed);
    let mut coverage = Coverage::default();
    let mut totals = Totals::default();
    let (mut read, mut refused) = (0, 0);
    for _ in 0..20_000 {
        let before = totals;
        if random.one_in(50) {
            let number = restore(entry, &saved(&mut random), &mut totals);
            read += u32::from(number == READ);
            refused += u32::from(number != READ);
        } else {
            let request = Request::new(&mut random);
            let probes = compare(&request, &mut totals);
            coverage.count(&request, before, probes);
        }
    }
    println!("saved records read {read}, refused {refused}");
    assert!(read >= 150 && refused >= 50);
    coverage.assert_populated([400, 10, 440, 0, 0]);
}
