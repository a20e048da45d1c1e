//! The archive's calls at the limits of the totals and in sequences, and runs that
//! differ only in the totals.

use crate::calls::Request;
use crate::entries::restore_totals;
use crate::limits::assert_each_limit;
use crate::sequences::{assert_from_every_start, assert_with_saved_records, starts};
use reference::generate::SplitMix64;
use reference::totals::Totals;

#[test]
fn each_call_at_each_limit() {
    assert_each_limit(Request::compare);
}

#[test]
fn calls_from_every_start() {
    assert_from_every_start(Request::compare, 121);
}

#[test]
fn saved_records_among_the_calls() {
    assert_with_saved_records(Request::compare, restore_totals, 125);
}

#[test]
fn runs_that_differ_only_in_the_totals() {
    let mut random = SplitMix64::new(122);
    let requests: Vec<Request> = (0..400).map(|_| Request::new(&mut random)).collect();
    let run = |start: Totals| {
        let mut totals = start;
        let answers: Vec<_> = requests.iter().map(|r| r.answer(&mut totals)).collect();
        (answers, totals)
    };
    let (answers, from_zero) = run(Totals::default());
    for start in starts() {
        let (others, after) = run(start);
        assert!(others == answers, "{start:?}");
        assert_eq!(after.casts, start.casts.saturating_add(from_zero.casts));
        assert_eq!(after.probes, start.probes.saturating_add(from_zero.probes));
        let refusals = start.refusals.saturating_add(from_zero.refusals);
        assert_eq!(after.refusals, refusals);
    }
    assert_eq!(from_zero.casts + from_zero.refusals, 400);
}
