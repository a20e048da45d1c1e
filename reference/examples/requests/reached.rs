//! How often a stream's calls bring each total to a limit and past it, and read
//! a saved number at one.

use crate::limited::grouped;
use crate::request::{is_counted, Request, CALLS, RESTORE};

/// The totals, in order.
const TOTALS: [&str; 3] = ["casts", "probes", "refusals"];
const PROBES: usize = 1;
/// The greatest numbers of 32 bits and of 64.
const NARROW: u128 = 4_294_967_295;
const WIDE: u128 = 18_446_744_073_709_551_615;

/// A way from a total to the number that a call makes of it: the sum, were there
/// no ceiling, or what is read.
struct Step {
    name: &'static str,
    is: fn(u128, u128) -> bool,
    /// Whether a call can have it, for one of the totals.
    due: fn(u8, usize) -> bool,
}

const fn added(name: &'static str, is: fn(u128, u128) -> bool) -> Step {
    Step {
        name,
        is,
        due: |call, _| is_counted(call),
    }
}

const fn read(name: &'static str, is: fn(u128, u128) -> bool) -> Step {
    Step {
        name,
        is,
        due: |call, _| call == RESTORE,
    }
}

/// One or none is seen of a total in a call.
const STEPS: [Step; 9] = [
    added("to 2^32 - 1", |_, sum| sum == NARROW),
    added("from there or below to above", |total, sum| {
        total <= NARROW && sum > NARROW
    }),
    added("to 2^64 - 2", |_, sum| sum == WIDE - 1),
    added("to 2^64 - 1", |_, sum| sum == WIDE),
    Step {
        name: "beyond, so to 2^64 - 1",
        is: |total, sum| total < WIDE && sum > WIDE,
        due: |call, which| is_counted(call) && which == PROBES,
    },
    added("there already", |total, _| total == WIDE),
    read("0 read", |_, number| number == 0),
    read("2^32 - 2 read", |_, number| number == NARROW - 1),
    read("2^32 - 1 read", |_, number| number == NARROW),
];

/// Requests by total, step and call.
#[derive(Default)]
pub struct Reached([[[i64; CALLS]; STEPS.len()]; TOTALS.len()]);

impl Reached {
    /// Counts an answered request.
    pub fn count(&mut self, request: &Request) {
        for (which, step) in cells() {
            let due = (STEPS[step].due)(request.call, which);
            if due && way(request, which).is_some_and(|(from, to)| (STEPS[step].is)(from, to)) {
                self.0[which][step][usize::from(request.call)] += 1;
            }
        }
    }

    /// The count of each step in each call that can have it, and their name.
    pub fn counts(&self) -> Vec<(i64, String)> {
        let counts = cells().flat_map(|(which, step)| {
            let calls = (0..CALLS).filter(move |&call| (STEPS[step].due)(call as u8, which));
            calls.map(move |call| {
                let name = format!("{} {}, call {call}", TOTALS[which], STEPS[step].name);
                (self.0[which][step][call], name)
            })
        });
        counts.collect()
    }

    /// A line of the table for each total.
    pub fn table(&self) -> String {
        let lines = (0..TOTALS.len()).map(|which| {
            let steps = self.0[which].iter().zip(STEPS);
            let counts = steps.map(|(by_call, step)| (step.name, by_call.iter().sum()));
            let shown = counts
                .filter(|(_, count)| *count > 0)
                .map(|(name, count)| format!("{name}: {}", grouped(count)));
            let shown: Vec<String> = shown.collect();
            format!("| {} | {} |\n", TOTALS[which], shown.join("; "))
        });
        lines.fold("| Total | Requests |\n|---|---|\n".into(), |a, b| a + &b)
    }
}

/// Each total with each step.
fn cells() -> impl Iterator<Item = (usize, usize)> {
    (0..TOTALS.len()).flat_map(|which| (0..STEPS.len()).map(move |step| (which, step)))
}

/// Where one of the totals was and what the call makes of it; none if it adds
/// nothing to it or is refused a saved record.
fn way(request: &Request, which: usize) -> Option<(u128, u128)> {
    let [before, added, after] = [request.totals, request.added(), request.after()]
        .map(|totals| u128::from(<[u64; 3]>::from(totals)[which]));
    match request.call {
        RESTORE => request.is_accepted().then_some((before, after)),
        _ => (added > 0).then_some((before, before + added)),
    }
}
