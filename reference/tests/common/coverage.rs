//! What counted calls covered.

use crate::calls::{Request, KINDS};
use reference::totals::{Totals, CEILING};

/// The first number that 32 bits do not hold.
pub const PAST_32_BITS: u64 = 1 << 32;

/// Counts by kind of call, by the total that it adds to (casts, probes, refusals)
/// and by `class`.
#[derive(Debug, Default)]
pub struct Coverage([[[u32; 5]; 3]; KINDS]);

impl Coverage {
    /// A call from these totals: its probes, or `None` if refused.
    pub fn count(&mut self, request: &Request, before: Totals, probes: Option<u32>) {
        let [of_casts, of_probes, of_refusals] = &mut self.0[request.kind()];
        match probes {
            Some(probes) => {
                of_casts[class(before.casts, 1)] += 1;
                of_probes[class(before.probes, probes)] += 1;
            }
            None => of_refusals[class(before.refusals, 1)] += 1,
        }
    }

    /// No class is rare: of each call and each total so many at least.
    pub fn assert_populated(&self, least: [u32; 5]) {
        println!("{self:?}");
        let enough = |counts: &[u32; 5]| (0..5).all(|class| counts[class] >= least[class]);
        assert!(self.0.iter().flatten().all(enough), "{self:?} {least:?}");
    }
}

/// A total that remains below 2^32 is 0, one that comes to 2^32 or past it 1, one
/// that was there already 2, one that reaches the ceiling 3, one that stays there 4.
fn class(before: u64, more: u32) -> usize {
    match (before, before.saturating_add(more.into())) {
        (CEILING, _) => 4,
        (_, CEILING) => 3,
        (PAST_32_BITS.., _) => 2,
        (_, PAST_32_BITS..) => 1,
        _ => 0,
    }
}
