//! A counted call, made by the archive's C entries.

use crate::calls::{on_axis, Call, Request};
use crate::counted::{call, called, view, viewed};
use reference::totals::Totals;

impl Request {
    /// Compares the call with the reference; its probes, or `None` if refused.
    pub fn compare(&self, totals: &mut Totals) -> Option<u32> {
        let (file, budget) = (&self.file, self.budget);
        match &self.call {
            Call::Steps { which, ray, room } => call(file, *which, ray, budget, *room, totals),
            Call::View(ray) => view(file, ray, budget, totals).probes(),
        }
    }

    /// The number that the archive alone answers and the bytes it leaves; the
    /// viewer's first hit leaves none.
    pub fn answer(&self, totals: &mut Totals) -> (u64, Vec<u8>) {
        let (file, budget) = (&self.file, self.budget);
        let (number, bytes, after) = match &self.call {
            Call::Steps { which, ray, room } => called(file, *which, ray, budget, *room, *totals),
            Call::View(ray) => {
                let (number, after) = viewed(file, ray, budget, *totals);
                (number, Vec::new(), after)
            }
        };
        *totals = after;
        (number, bytes)
    }
}

#[test]
fn the_worked_calls() {
    let mut after = Totals::default();
    let mut archive = Totals::default();
    for (request, probes) in on_axis() {
        assert_eq!(request.compare(&mut after), Some(probes));
        request.answer(&mut archive);
        assert_eq!(request.refused().compare(&mut after), None);
    }
    let probes = 39 + 15 + 39 + 49 + 15;
    assert_eq!(after, Totals::from([5, probes, 5]));
    assert_eq!(archive, Totals::from([5, probes, 0]));
}
