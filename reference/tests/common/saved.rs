//! Saved records of totals: each read by an entry and compared with the reference,
//! and a list of them with their answers.

use crate::expected::restore_number;
use crate::guards::{handed, lent};
use reference::generate::{saved_record, totals, SplitMix64};
use reference::totals::{Totals, CEILING};
use std::collections::BTreeMap;

/// An entry that reads a saved record into the totals; its number.
pub type Entry = fn(&[u8], &mut [u64; 3]) -> u32;

/// The greatest number of 32 bits.
pub const TOP_32: u32 = 4_294_967_295;

/// The number of a saved record that is read.
pub const READ: u32 = 65_536;

/// Compares the number, the totals and the numbers around them; the saved bytes
/// and those around them stay as they were. The number.
pub fn restore(entry: Entry, saved: &[u8], totals: &mut Totals) -> u32 {
    let found = lent(*totals, |t| handed(saved, |s| entry(s, t)));
    let number = restore_number(saved, totals);
    assert_eq!(found, (number, *totals), "{saved:?}");
    number
}

/// A saved record, the totals before and after it, and its number.
#[derive(Debug)]
pub struct Reading {
    pub saved: Vec<u8>,
    pub before: Totals,
    pub number: u32,
    pub after: Totals,
}

/// The bytes of three numbers.
pub fn saved_form(numbers: [u32; 3]) -> Vec<u8> {
    numbers.into_iter().flat_map(u32::to_le_bytes).collect()
}

/// Each number at or next to a limit in each place.
fn at_limits() -> impl Iterator<Item = (Vec<u8>, [u64; 3])> {
    let limits = [0, 1, TOP_32 - 1, TOP_32];
    (0..64).map(move |i| {
        let numbers = [limits[i / 16], limits[i / 4 % 4], limits[i % 4]];
        (saved_form(numbers), numbers.map(u64::from))
    })
}

/// One byte that is not 0, in each place; no number of `at_limits`.
fn single_bytes() -> impl Iterator<Item = (Vec<u8>, [u64; 3])> {
    (0..36).map(|i| {
        let (place, byte) = (i / 3, [2, 0x80, 0xff][i % 3]);
        let (mut saved, mut numbers) = (vec![0; 12], [0; 3]);
        saved[place] = byte;
        numbers[place / 4] = u64::from(byte) * 256u64.pow(place as u32 % 4);
        (saved, numbers)
    })
}

/// No bytes; bytes of every other length up to 40, and of lengths whose lower 8 or
/// 16 bits are 12: a right record cut or with more bytes after it.
fn other_lengths() -> impl Iterator<Item = Vec<u8>> {
    let lengths = (1..=40).filter(|&length| length != 12);
    let records = [[0; 3], [3, 2, 1], [TOP_32; 3]].map(saved_form);
    let some = lengths.chain([268, 65_548]).flat_map(move |length| {
        records.clone().map(|mut saved| {
            saved.resize(length, 0);
            saved
        })
    });
    [Vec::new()].into_iter().chain(some)
}

/// The list, read into these totals.
fn read_into(before: Totals) -> impl Iterator<Item = Reading> {
    let right = at_limits().chain(single_bytes());
    let read = right.map(|(saved, numbers)| (saved, READ, Some(numbers)));
    let refused = other_lengths().map(|saved| (saved, 18, None));
    read.chain(refused)
        .map(move |(saved, number, numbers)| Reading {
            saved,
            before,
            number,
            after: numbers.map_or(before, Totals::from),
        })
}

/// The list, read into zeros, other numbers, numbers around 2^32 and ceilings.
pub fn listed() -> impl Iterator<Item = Reading> {
    let around = [(1 << 32) - 1, 1 << 32, (1 << 32) + 1];
    let records = [[0; 3], [1, 2, 3], around, [CEILING; 3]];
    records.map(Totals::from).into_iter().flat_map(read_into)
}

/// Every reading of the list: 224 saved records, all different, into each of the
/// four records.
pub fn assert_listed(entry: Entry) {
    let mut times = BTreeMap::<Vec<u8>, u32>::new();
    for reading in listed() {
        let mut totals = reading.before;
        let number = restore(entry, &reading.saved, &mut totals);
        let expected = (reading.number, reading.after);
        assert_eq!((number, totals), expected, "{reading:?}");
        *times.entry(reading.saved).or_default() += 1;
    }
    assert!(times.len() == 224 && times.values().all(|&n| n == 4));
}

/// 20,000 drawn saved records, each read into drawn totals. No length is rare, nor
/// the 32-bit maximum in any place.
pub fn assert_drawn(entry: Entry, seed: u64) {
    let mut random = SplitMix64::new(seed);
    let mut lengths = BTreeMap::<usize, u32>::new();
    let mut at_top = [0; 3];
    for _ in 0..20_000 {
        let (saved, mut totals) = (saved_record(&mut random), totals(&mut random));
        let number = restore(entry, &saved, &mut totals);
        assert_eq!(number, if saved.len() == 12 { READ } else { 18 });
        *lengths.entry(saved.len()).or_default() += 1;
        let tops = <[u64; 3]>::from(totals).map(|total| total == u64::from(TOP_32));
        at_top = [0, 1, 2].map(|i| at_top[i] + u32::from(number == READ && tops[i]));
    }
    println!("by length {lengths:?}; at the 32-bit maximum {at_top:?}");
    assert!([0, 11, 12, 13].iter().all(|length| lengths[length] > 1_000));
    assert!(lengths.len() == 25 && lengths.values().all(|&n| n > 50));
    assert!(at_top.iter().all(|&n| n > 1_000));
}
