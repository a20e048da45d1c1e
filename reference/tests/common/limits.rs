//! Each call from totals around 2^32, where nothing special happens, and from
//! totals at and near the ceiling.

use crate::calls::{fewest_probes, most_probes, on_axis, Compare, Request};
use crate::coverage::Coverage;
use reference::totals::{Totals, CEILING};
use std::ops::RangeInclusive;

/// The totals before a call are these or less: a little more than 2^32, and the
/// ceiling.
const TOPS: [u64; 2] = [(1 << 32) + 3, CEILING];

/// A call, the totals before it, its probes unless it is refused, and the totals
/// after it.
#[derive(Debug)]
pub struct Addition {
    pub request: Request,
    pub before: Totals,
    pub probes: Option<u32>,
    pub after: Totals,
}

impl Addition {
    fn new(request: &Request, before: Totals, probes: Option<u32>) -> Addition {
        let [casts, of_casts, refusals] = match probes {
            Some(probes) => [1, u64::from(probes), 0],
            None => [0, 0, 1],
        };
        let after = Totals {
            casts: before.casts.saturating_add(casts),
            probes: before.probes.saturating_add(of_casts),
            refusals: before.refusals.saturating_add(refusals),
        };
        Addition {
            request: request.clone(),
            before,
            probes,
            after,
        }
    }
}

/// Each total by itself, and then all three, at a number.
pub fn starts_at(at: u64) -> [Totals; 4] {
    let by_itself = |total: usize| {
        let mut three = [0, 7, 1_000_000];
        three[total] = at;
        three
    };
    [by_itself(0), by_itself(1), by_itself(2), [at; 3]].map(Totals::from)
}

/// Totals so much below each top.
fn starts(below: RangeInclusive<u64>) -> impl Iterator<Item = Totals> {
    let tops = TOPS.into_iter();
    let numbers = tops.flat_map(move |top| below.clone().map(move |n| top - n));
    numbers.flat_map(starts_at)
}

/// The call from totals near each top and near that less its probes, each once, and
/// the same call refused.
fn additions_of((request, probes): (Request, u32)) -> impl Iterator<Item = Addition> {
    let refused = request.refused();
    let to_top = u64::from(probes);
    let further = (to_top - 1).max(46)..=to_top + 6;
    let before = starts(0..=45).chain(starts(further));
    let cast = before.map(move |before| Addition::new(&request, before, Some(probes)));
    cast.chain(starts(0..=6).map(move |before| Addition::new(&refused, before, None)))
}

/// Every call with few, some and the most probes.
pub fn additions() -> impl Iterator<Item = Addition> {
    let calls = [on_axis(), fewest_probes(), most_probes()]
        .into_iter()
        .flatten();
    calls.flat_map(additions_of)
}

/// Every listed call. By each of the five, each total passes 2^32, reaches the
/// ceiling and stays there.
pub fn assert_each_limit(compare: Compare) {
    let mut coverage = Coverage::default();
    let mut count = 0;
    for addition in additions() {
        let mut totals = addition.before;
        assert_eq!(compare(&addition.request, &mut totals), addition.probes);
        assert_eq!(totals, addition.after, "{addition:?}");
        coverage.count(&addition.request, addition.before, addition.probes);
        count += 1;
    }
    assert_eq!(count, 6_744);
    coverage.assert_populated([96, 6, 54, 6, 6]);
}
