//! Saved records read into the totals in use.

use crate::calls::{fewest_probes, most_probes, on_axis};
use crate::entries::restore_totals;
use crate::saved::{assert_drawn, assert_listed, restore, saved_form, READ, TOP_32};
use reference::totals::Totals;

#[test]
fn listed_records() {
    assert_listed(restore_totals);
}

#[test]
fn drawn_records() {
    assert_drawn(restore_totals, 124);
}

/// Records of 0, 11, 12 and 13 bytes, written out.
#[test]
fn the_lengths_about_12() {
    let bytes = [1, 0, 0, 0, 0, 1, 0, 0, 0, 0, 1, 0, 9];
    let mut totals = Totals::from([5, 1 << 32, u64::MAX]);
    for length in [0, 11, 13] {
        assert_eq!(restore(restore_totals, &bytes[..length], &mut totals), 18);
        assert_eq!(totals, Totals::from([5, 1 << 32, u64::MAX]));
    }
    assert_eq!(restore(restore_totals, &bytes[..12], &mut totals), READ);
    assert_eq!(totals, Totals::from([1, 256, 65_536]));
}

/// After a saved record at the 32-bit maximum, and one below it, each call counts
/// on; a refused record in between changes nothing.
#[test]
fn counting_goes_on_past_32_bits() {
    let calls = [on_axis(), fewest_probes(), most_probes()];
    for (request, probes) in calls.into_iter().flatten() {
        let mut totals = Totals::default();
        let saved = saved_form([TOP_32, TOP_32, TOP_32 - 1]);
        assert_eq!(restore(restore_totals, &saved, &mut totals), READ);
        request.compare(&mut totals);
        request.refused().compare(&mut totals);
        assert_eq!(restore(restore_totals, &saved[1..], &mut totals), 18);
        request.refused().compare(&mut totals);
        let probes = 4_294_967_295 + u64::from(probes);
        assert_eq!(totals, Totals::from([1 << 32, probes, 1 << 32]));
    }
}
