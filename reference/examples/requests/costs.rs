//! How often a stream's first hits lie at the figure of their probes. All of them
//! are held to it: a hit at tick t has at most 2 t + 11 probes, and one that is
//! spent there had a budget of at most 2 t + 10.

use crate::hits::HITS;
use crate::limited::grouped;
use crate::request::{Request, CALLS};

/// A first hit that is not refused, by its number and its budget.
struct Cost {
    is_hit: bool,
    is_spent: bool,
    figure: u64,
    probes: u64,
    budget: u64,
}

impl Cost {
    fn of(request: &Request) -> Cost {
        let (kind, tick) = (request.number >> 32, request.number >> 16 & 0xffff);
        Cost {
            is_hit: kind == 1 || kind == 2,
            is_spent: kind == 4,
            figure: 2 * tick + 11,
            probes: request.number & 0xffff,
            budget: request.budget.into(),
        }
    }

    /// Whether it is a hit after tick 0 whose budget is so much more than one less
    /// than the figure.
    fn is_later(&self, more: u64) -> bool {
        self.is_hit && self.figure > 11 && self.budget + 1 == self.figure + more
    }
}

/// What is counted.
struct Limit {
    name: &'static str,
    is: fn(&Cost) -> bool,
}

const LIMITS: [Limit; 6] = [
    Limit {
        name: "a hit at tick 0 with 11 probes",
        is: |cost| cost.is_hit && cost.probes == cost.figure,
    },
    Limit {
        name: "the same with a budget of 11",
        is: |cost| cost.is_hit && cost.probes == cost.figure && cost.budget == cost.figure,
    },
    Limit {
        name: "spent at tick 0 with a budget of 10",
        is: |cost| cost.is_spent && cost.budget + 1 == cost.figure,
    },
    Limit {
        name: "a hit at a later tick t with a budget of 2 t + 10",
        is: |cost| cost.is_later(0),
    },
    Limit {
        name: "of 2 t + 11",
        is: |cost| cost.is_later(1),
    },
    Limit {
        name: "of 2 t + 12",
        is: |cost| cost.is_later(2),
    },
];

/// First hits by limit and call.
#[derive(Default)]
pub struct Costs([[i64; CALLS]; LIMITS.len()]);

impl Costs {
    /// Counts an answered request, if it is a first hit that is not refused, and
    /// holds it to the figure.
    pub fn count(&mut self, request: &Request) {
        if !HITS.contains(&request.call) || !request.is_accepted() {
            return;
        }
        let cost = Cost::of(request);
        assert!(!cost.is_hit || cost.probes <= cost.figure);
        assert!(!cost.is_spent || cost.budget < cost.figure);
        for (counts, at) in self.0.iter_mut().zip(&LIMITS) {
            counts[usize::from(request.call)] += i64::from((at.is)(&cost));
        }
    }

    /// The count at each limit in each call, and their name.
    pub fn counts(&self) -> Vec<(i64, String)> {
        let all = self.0.iter().zip(&LIMITS).flat_map(|(counts, at)| {
            HITS.map(|call| {
                let name = format!("{}, call {call}", at.name);
                (counts[usize::from(call)], name)
            })
        });
        all.collect()
    }

    /// A line of the table for each limit.
    pub fn table(&self) -> String {
        let lines = self.0.iter().zip(&LIMITS).map(|(counts, at)| {
            let requests = grouped(counts.iter().sum());
            format!("| {} | {requests} |\n", at.name)
        });
        let head = "| First hit | Requests |\n|---|---|\n";
        lines.fold(head.into(), |a, b| a + &b)
    }
}
