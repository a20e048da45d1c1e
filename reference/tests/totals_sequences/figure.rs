//! The figure: while no total has reached its ceiling, the probes added since a
//! zeroed record, with no saved record read since, are at most 2,047 times the
//! casts added, if no marching cast has changed the record. With marching casts
//! they are at most 2,052 times the casts.

use crate::calls::{most_probes, Request, KINDS};
use crate::entries;
use crate::saved::{restore, saved_form, READ};
use reference::generate::SplitMix64;
use reference::totals::Totals;

/// The most probes a cast, of the calls that halve and of all.
const MOST: u64 = 2047;
const MOST_MARCHING: u64 = 2052;

/// A drawn call, or one of the most probes.
fn draw(random: &mut SplitMix64) -> Request {
    match random.one_in(4) {
        true => random.pick(&most_probes().each_ref()).0.clone(),
        false => Request::new(random),
    }
}

/// Makes the calls one after the other from zero; the totals after each.
fn totals_after(calls: impl IntoIterator<Item = Request>) -> Vec<Totals> {
    let mut totals = Totals::default();
    let steps = calls.into_iter().map(|request| {
        request.compare(&mut totals);
        totals
    });
    steps.collect()
}

/// The totals after each call of 20 drawn sequences of 100 calls from zero, all of
/// which `fits` lets pass.
fn after_drawn(seed: u64, fits: fn(&Request) -> bool) -> Vec<Totals> {
    let mut random = SplitMix64::new(seed);
    let mut sequence = || {
        let drawn = std::iter::repeat_with(|| draw(&mut random));
        totals_after(drawn.filter(fits).take(100))
    };
    (0..20).flat_map(|_| sequence()).collect()
}

/// At most so many probes a cast, and more than a quarter of that after most calls.
fn assert_at_most(most: u64, all: &[Totals]) {
    assert_eq!(all.len(), 2_000);
    assert!(all.iter().all(|t| t.probes <= most * t.casts));
    let near = all.iter().filter(|t| t.probes > most * t.casts / 4);
    assert!(near.count() > 1_000);
}

#[test]
fn holds_after_every_call_from_zero() {
    let halving = after_drawn(123, |request| !request.is_marching());
    assert_at_most(MOST, &halving);
    assert_at_most(MOST_MARCHING, &after_drawn(126, |_| true));
    assert_at_most(MOST_MARCHING, &after_drawn(127, Request::is_marching));
}

/// Each call alone, refused ones among them; and all four that halve in turn.
#[test]
fn is_met_by_each_call() {
    let calls = most_probes();
    let (marching, halving): (Vec<_>, Vec<_>) = calls
        .into_iter()
        .partition(|(request, _)| request.is_marching());
    let alone = halving.iter().map(|call| (vec![call.clone(); 4], MOST));
    let marches = (vec![marching[0].clone(); 4], MOST_MARCHING);
    for (sequence, most) in alone.chain([(halving.clone(), MOST), marches]) {
        let mut totals = Totals::default();
        let after = sequence.iter().map(|(request, probes)| {
            assert_eq!(request.compare(&mut totals), Some(*probes));
            assert_eq!(request.refused().compare(&mut totals), None);
            (totals.casts, totals.probes)
        });
        let met = (1..=4).map(|casts| (casts, most * casts));
        assert!(after.eq(met));
    }
}

/// It is no claim about a record that a marching cast has changed. All five calls
/// with the most probes, the marching cast at each place among them: from it on the
/// probes are more than 2,047 times the casts.
#[test]
fn a_marching_cast_may_bring_more_probes() {
    for turn in 0..KINDS {
        let mut calls = most_probes();
        calls.rotate_left(turn);
        let marching = calls.iter().position(|(request, _)| request.is_marching());
        let after = totals_after(calls.map(|(request, _)| request));
        let over = after.iter().position(|t| t.probes > MOST * t.casts);
        assert!(over.is_some() && over == marching);
        assert!(after.is_sorted_by_key(|t| t.probes > MOST * t.casts));
        let all = Totals::from([5, 4 * MOST + MOST_MARCHING, 0]);
        assert_eq!(after.last(), Some(&all));
    }
}

/// It is no claim about what a saved record brings.
#[test]
fn a_saved_record_may_bring_more_probes() {
    let mut totals = Totals::default();
    let saved = saved_form([1, 2048, 0]);
    assert_eq!(restore(entries::restore_totals, &saved, &mut totals), READ);
    assert!(totals.probes > MOST * totals.casts);
}
