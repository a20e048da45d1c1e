//! How often a stream's columns have a crossing tick at each limit of the rule for
//! its middle, by the bounds there in fractions.

use crate::limited::grouped;
use crate::request::{casting, Request, CALLS, COLUMN, COUNTED};
use reference::cast::{full_cast, Mark, TICKS};
use reference::field::middle_bounds;
use reference::part::read;

/// The most and the least that the bounds at a crossing tick's middle add up to.
const MOST: i64 = 1 << 53;
const LEAST: i64 = -255 << 45;

/// What is counted: of the sums at the middles of a column's crossing ticks, and
/// of the least sum of a solid one.
struct Limit {
    name: &'static str,
    is: fn(&[i64], i64) -> bool,
}

const LIMITS: [Limit; 9] = [
    Limit {
        name: "2 × iso × 2^32",
        is: |sums, limit| sums.contains(&limit),
    },
    Limit {
        name: "1 less",
        is: |sums, limit| sums.contains(&(limit - 1)),
    },
    Limit {
        name: "1 more",
        is: |sums, limit| sums.contains(&(limit + 1)),
    },
    Limit {
        name: "less",
        is: |sums, limit| sums.iter().any(|&sum| sum < limit),
    },
    Limit {
        name: "more",
        is: |sums, limit| sums.iter().any(|&sum| sum > limit),
    },
    Limit {
        name: "2^53",
        is: |sums, _| sums.contains(&MOST),
    },
    Limit {
        name: "-255 × 2^45",
        is: |sums, _| sums.contains(&LEAST),
    },
    Limit {
        name: "less in each of 1,024",
        is: |sums, limit| is_every_tick(sums) && sums.iter().all(|&sum| sum < limit),
    },
    Limit {
        name: "more in each of 1,024",
        is: |sums, limit| is_every_tick(sums) && sums.iter().all(|&sum| sum > limit),
    },
];

fn is_every_tick(sums: &[i64]) -> bool {
    sums.len() == TICKS as usize
}

/// Columns by limit and call.
#[derive(Default)]
pub struct Sums([[i64; CALLS]; LIMITS.len()]);

impl Sums {
    /// Counts an answered request, if it is a column that is not refused.
    pub fn count(&mut self, request: &Request) {
        if casting(request.call) != Some(COLUMN) || !request.is_accepted() {
            return;
        }
        let (sums, limit) = middles_of(request);
        for (counts, at) in self.0.iter_mut().zip(&LIMITS) {
            counts[usize::from(request.call)] += i64::from((at.is)(&sums, limit));
        }
    }

    /// The count at each limit in both calls, and their name.
    pub fn counts(&self) -> Vec<(i64, String)> {
        let all = self.0.iter().zip(&LIMITS).flat_map(|(counts, at)| {
            [COLUMN, COLUMN + COUNTED].map(|call| {
                let name = format!("a middle's sum {}, call {call}", at.name);
                (counts[usize::from(call)], name)
            })
        });
        all.collect()
    }

    /// A line of the table for each limit.
    pub fn table(&self) -> String {
        let lines = self.0.iter().zip(&LIMITS).map(|(counts, at)| {
            let columns = grouped(counts.iter().sum());
            format!("| {} | {columns} |\n", at.name)
        });
        let head = "| Sum at the middle of a crossing tick | Columns |\n|---|---|\n";
        lines.fold(head.into(), |a, b| a + &b)
    }
}

/// What the bounds at the middles of a column's crossing ticks add up to, and the
/// least sum of a solid one. Asserts the ticks' bits.
fn middles_of(request: &Request) -> (Vec<i64>, i64) {
    let part = read(&request.file).expect("a part");
    let ray = request.steps();
    let limit = i64::from(part.iso) << 33;
    let mut marks = [0; TICKS as usize];
    full_cast(&request.file, &ray, u32::MAX, &mut marks);
    let crossing = (0..marks.len()).filter(|&tick| marks[tick] == Mark::Crossing.byte());
    let sum_at = |tick: usize| {
        let bounds = middle_bounds(&part, &ray, tick as u32).expect("a tree");
        let sum = bounds.low + bounds.high;
        let bit = request.written[tick / 8] >> (tick % 8) & 1;
        assert_eq!(bit == 1, sum >= limit, "tick {tick}");
        sum
    };
    (crossing.map(sum_at).collect(), limit)
}
