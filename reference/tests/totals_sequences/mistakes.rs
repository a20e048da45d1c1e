//! Mistakes in adding to the totals and in reading a saved record. The calls and
//! the saved records that the archive is compared on find each.

use crate::limits::additions;
use crate::saved::{listed, saved_form, READ, TOP_32};
use reference::totals::{Totals, CEILING};

/// The totals after a call: its probes, or none if it was refused.
type Update = fn(Totals, Option<u32>) -> Totals;

/// Reads a saved record into the totals, or answers the refusal number.
type Reader = fn(&mut Totals, &[u8]) -> Result<(), u32>;

/// Each total after a call by this sum.
fn by_sum(sum: fn(u64, u64) -> u64, totals: Totals, probes: Option<u32>) -> Totals {
    let more = match probes {
        Some(probes) => [1, probes.into(), 0],
        None => [0, 0, 1],
    };
    let before = <[u64; 3]>::from(totals);
    Totals::from([0, 1, 2].map(|i| sum(before[i], more[i])))
}

fn exchanged([casts, probes, refusals]: [u64; 3]) -> Totals {
    Totals::from([probes, casts, refusals])
}

/// The right update, and mistaken ones.
const UPDATES: [(&str, Update); 8] = [
    ("none", Totals::after),
    ("wraps at 2^64", |totals, probes| {
        by_sum(u64::wrapping_add, totals, probes)
    }),
    ("wraps at 2^32", |totals, probes| {
        let sum = |total, more| u64::wrapping_add(total, more) % (1 << 32);
        by_sum(sum, totals, probes)
    }),
    ("a ceiling of 2^32 - 1", |totals, probes| {
        let sum = |total, more| u64::saturating_add(total, more).min(TOP_32.into());
        by_sum(sum, totals, probes)
    }),
    ("stays where it would pass the ceiling", |totals, probes| {
        let sum = |total, more| u64::checked_add(total, more).unwrap_or(total);
        by_sum(sum, totals, probes)
    }),
    ("one at the ceiling stops all", |totals, probes| {
        let three = <[u64; 3]>::from(totals);
        match three.contains(&CEILING) {
            true => totals,
            false => totals.after(probes),
        }
    }),
    ("casts and probes exchanged", |totals, probes| {
        let before = exchanged(totals.into());
        exchanged(before.after(probes).into())
    }),
    ("a refusal is a cast too", |totals, probes| match probes {
        Some(_) => totals.after(probes),
        None => totals.after(None).after(Some(0)),
    }),
];

/// Reads the record, and then changes each total.
fn then(
    totals: &mut Totals,
    saved: &[u8],
    change: impl FnOnce([u64; 3]) -> Totals,
) -> Result<(), u32> {
    totals.restore(saved)?;
    *totals = change((*totals).into());
    Ok(())
}

/// The right reader, and mistaken ones.
const READERS: [(&str, Reader); 11] = [
    ("none", Totals::restore),
    ("2^32 - 1 turned into 2^64 - 1", |totals, saved| {
        let widened = |n| if n == u64::from(TOP_32) { CEILING } else { n };
        then(totals, saved, |three| three.map(widened).into())
    }),
    ("casts and probes exchanged", |totals, saved| {
        then(totals, saved, exchanged)
    }),
    ("signed numbers", |totals, saved| {
        let signed = |n| i64::from(n as u32 as i32) as u64;
        then(totals, saved, |three| three.map(signed).into())
    }),
    ("added to the record in use", |totals, saved| {
        let before = <[u64; 3]>::from(*totals);
        let sum = |i: usize, three: [u64; 3]| before[i].saturating_add(three[i]);
        then(totals, saved, |three| {
            [0, 1, 2].map(|i| sum(i, three)).into()
        })
    }),
    ("big-endian", |totals, saved| {
        let mut turned = saved.to_vec();
        turned.chunks_mut(4).for_each(<[u8]>::reverse);
        totals.restore(&turned)
    }),
    ("18 clears the record", |totals, saved| {
        let answer = totals.restore(saved);
        answer.inspect_err(|_| *totals = Totals::default())
    }),
    ("18 counts as a refusal", |totals, saved| {
        let answer = totals.restore(saved);
        answer.inspect_err(|_| *totals = totals.after(None))
    }),
    ("13 bytes accepted", |totals, saved| match saved.len() {
        13 => totals.restore(&saved[..12]),
        _ => totals.restore(saved),
    }),
    ("11 bytes accepted", |totals, saved| match saved.len() {
        11 => totals.restore(&[saved, &[0]].concat()),
        _ => totals.restore(saved),
    }),
    ("no bytes read as zeros", |totals, saved| match saved {
        [] => totals.restore(&saved_form([0; 3])),
        _ => totals.restore(saved),
    }),
];

/// How often each is found; the first, which is right, never.
fn assert_found(found: &[(&str, usize)]) {
    println!("{found:#?}");
    assert_eq!(found[0].1, 0);
    assert!(found[1..].iter().all(|&(_, count)| count > 0));
}

#[test]
fn the_calls_find_each_mistaken_update() {
    let found = UPDATES.map(|(name, update)| {
        let wrong = additions().filter(|a| update(a.before, a.probes) != a.after);
        (name, wrong.count())
    });
    assert_found(&found);
}

#[test]
fn the_saved_records_find_each_mistaken_reader() {
    let found = READERS.map(|(name, reader)| {
        let wrong = listed().filter(|reading| {
            let mut totals = reading.before;
            let number = reader(&mut totals, &reading.saved).map_or_else(|no| no, |()| READ);
            (number, totals) != (reading.number, reading.after)
        });
        (name, wrong.count())
    });
    assert_found(&found);
}
